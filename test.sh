#!/bin/sh
# All tests: rt ci, and beside it the tests of the original; then those in Rust and C that link what it has proved. What these print comes
# first; the last line is that of rt ci.
cd "$(dirname "$0")" || exit 2
verdict=$(mktemp) || exit 2
trap 'kill $ci 2>/dev/null; rm -f "$verdict"' EXIT
trap 'exit 130' INT TERM

rt ci >"$verdict" 2>&1 &
ci=$!
make --no-print-directory reference
reference=$?
wait $ci
proved=$? ci=''
port=1
if [ $proved = 0 ]; then
    # built anew from what was proved
    rm -f target/staticlib/liblidrumak.a crates/busrun/out/busrun
    make --no-print-directory compare rust
    port=$?
fi
cat "$verdict"
if grep -Eq '^rt: ok.*, 0*[1-9][0-9]* bad' "$verdict"; then
    echo 'FAILED: an edit that must fail does not fit its file'
    exit 1
fi
[ $proved = 0 ] || exit $proved
[ "$reference$port" = 00 ] || { echo 'FAILED: the tests in Rust'; exit 1; }
