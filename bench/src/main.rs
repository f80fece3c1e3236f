//! The original and the port in one run, on the same inputs. See docs/BENCHMARK.md.
//!
//!     bench [ROUNDS]        medians, ratios and spread
//!     bench --count         instructions of a call, by callgrind
//!     bench --only bare|images|call|port|limit --case KEY --times N
//!                           one contestant and one case, for a profiler

#[cfg(have_original)]
mod aligned;
#[cfg(have_original)]
mod cases;
#[cfg(have_original)]
mod check;
#[cfg(have_original)]
mod contestants;
#[cfg(have_original)]
mod count;
#[cfg(have_original)]
mod measure;
#[cfg(have_original)]
mod table;

#[cfg(not(have_original))]
fn main() {
    println!("{}", reference::original_missing());
}

#[cfg(have_original)]
fn main() {
    if let Err(text) = run::run(std::env::args().skip(1).collect()) {
        eprintln!("{text}");
        std::process::exit(1);
    }
}

#[cfg(have_original)]
mod run {
    use crate::cases::{all, Case};
    use crate::check::check;
    use crate::contestants::{batch, Lent, BATCH, CONTESTANTS};
    use crate::count::count;
    use crate::measure::measure;
    use crate::table;

    const ROUNDS: usize = 5_000;
    const USAGE: &str = "bench [ROUNDS] | --count | --only CONTESTANT --case KEY --times N";

    pub fn run(arguments: Vec<String>) -> Result<(), String> {
        let words: Vec<&str> = arguments.iter().map(String::as_str).collect();
        match words[..] {
            [] => tables(ROUNDS),
            ["--count"] => counts(),
            ["--only", contestant, "--case", case, "--times", times] => {
                only(contestant, case, number(times)?)
            }
            [rounds] => tables(number(rounds)?),
            _ => Err(USAGE.to_string()),
        }
    }

    fn number(word: &str) -> Result<usize, String> {
        match word.parse() {
            Ok(number) if number > 0 => Ok(number),
            _ => Err(USAGE.to_string()),
        }
    }

    /// The cases with their requests, each compared.
    fn checked() -> Result<Vec<(Case, u64)>, String> {
        let with_requests = |case: Case| match check(&case) {
            Ok(requests) => Ok((case, requests)),
            Err(text) => Err(format!("{}: {text}", case.words)),
        };
        all().into_iter().map(with_requests).collect()
    }

    fn tables(rounds: usize) -> Result<(), String> {
        let cases = checked()?;
        let rows = measure(&cases, rounds);
        println!("Medians of {rounds} rounds of {BATCH} calls, in microseconds for a call:\n");
        table::medians(&cases, &rows);
        println!("\n10th and 90th percentiles:\n");
        table::spreads(&cases, &rows);
        Ok(())
    }

    fn counts() -> Result<(), String> {
        let cases = checked()?;
        let mut rows = vec![[0; CONTESTANTS.len()]; cases.len()];
        for ((case, _), row) in cases.iter().zip(&mut rows) {
            for (at, contestant) in CONTESTANTS.into_iter().enumerate() {
                row[at] = count(case, contestant).map_err(|error| error.to_string())?;
            }
        }
        println!("Instructions of a call, counted by callgrind:\n");
        table::counts(&cases, &rows);
        Ok(())
    }

    /// As many calls as are asked for, in whole batches.
    fn only(contestant: &str, key: &str, times: usize) -> Result<(), String> {
        let mut contestants = CONTESTANTS.into_iter();
        let contestant = contestants.find(|one| one.key() == contestant);
        let case = all().into_iter().find(|case| case.key == key);
        let (Some(contestant), Some(case)) = (contestant, case) else {
            return Err(USAGE.to_string());
        };
        let mut lent = Lent::new(0);
        for _ in 0..times.div_ceil(BATCH) {
            batch(contestant, &case, &mut lent);
        }
        Ok(())
    }
}
