# The two commands of the README: make run, make test. The others are named where they are used.
CARGO = cargo --quiet
# the library and the programs, once they are proved and built
LIBRARY = target/staticlib/liblidrumak.a
BUSRUN = crates/busrun/out/busrun
STORECHECK = crates/storecheck/out/storecheck
VECTORS = crates/vectors/out/vectors
export LIDRUMAK_LIBRARY = $(abspath target/staticlib)
export LIDRUMAK_BUSRUN = $(abspath $(BUSRUN))
SOURCES := crates.txt $(shell find crates -name out -prune -o \( -name '*.rt' -o -name '*.antt' \) -print)

.PHONY: run test reference port compare rust c-example vectors record bench bench-count

# The bus of a bench start is attached: each action, 16 bytes a line, with what it means. Then the store that the original left after the
# same start: is it sound, and how many devices does it hold?
run: $(BUSRUN) $(STORECHECK)
	@cd reference && $(CARGO) build --release --bin show_log
	@$(BUSRUN) < samples/bench_start.outcomes | reference/target/release/show_log
	@$(STORECHECK) < crates/storecheck/stdin

# All tests. The last line is that of rt ci: 'N passed, 0 failed'.
test:
	@./test.sh

# The original, with its stand-ins: unit tests, the bench lines, 200,000 random calls.
reference:
	@cd reference && $(CARGO) test --release --test "*"
	@cd reference && $(CARGO) run --release --bin bench_lines
	@cd reference && $(CARGO) run --release --bin random_calls

# The port as a static library and busrun, proved.
port: $(LIBRARY) $(BUSRUN)

# lidrumak_c has the calls with the symbols of the header.
$(LIBRARY): $(SOURCES)
	@cd crates/lidrumak_c && rt lib
	@mkdir -p $(@D) && cp crates/lidrumak_c/out/liblidrumak_c.a $@

# rt run proves a program, links it into out/ and runs it, here on no input. One at a time: each checks the libraries below it.
$(BUSRUN): $(SOURCES) | $(LIBRARY)
	@cd crates/busrun && rt run < /dev/null > /dev/null

$(STORECHECK): $(SOURCES) | $(BUSRUN)
	@cd crates/storecheck && rt run < /dev/null > /dev/null

# Where it runs here vectors finds no recorded answers, says so, and ends well.
$(VECTORS): $(SOURCES) | $(LIBRARY)
	@cd crates/vectors && rt run > /dev/null 2>&1

# The port beside the original: the recorded calls and walks, tables made by hand, busrun, 1,000,000 random walks and 200,000
# random calls. 'make compare N=1000000' gives the number of both.
compare: port
	@cd comparison && $(CARGO) test --release --test "*"
	@cd comparison && $(CARGO) run --release --bin compare_walks $(N)
	@cd comparison && $(CARGO) run --release --bin compare_calls $(N)

# The Rust crate: its tests, its examples, those of its documentation, and the C example.
rust: $(LIBRARY)
	@cd rust && MAKEFLAGS= $(CARGO) test --release

# The C example on the outcomes of a bench start.
c-example: $(LIBRARY)
	@cc -std=c99 -Wall -Wextra -Werror -Iinclude examples/c/attach.c $(LIBRARY) -o target/attach
	@target/attach < samples/bench_start.outcomes

# Replays the recorded answers through the port.
vectors: $(VECTORS)
	@cd crates/vectors/data && ../out/vectors

# Records the original's answers anew, into crates/vectors/data, and the bench start.
record:
	@cd reference && $(CARGO) run --release --bin record
	@cd reference && $(CARGO) run --release --bin bench_start

# The original and the port in one run, timed. 'make bench-count' counts instructions instead, and needs valgrind.
bench: $(LIBRARY)
	@cd bench && $(CARGO) run --release

bench-count: $(LIBRARY)
	@cd bench && $(CARGO) run --release -- --count
