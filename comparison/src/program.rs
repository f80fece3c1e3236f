//! The frame of the programs.

use std::process::ExitCode;
use std::time::Instant;

/// Compares, says how long it took and shows what was counted, or the
/// difference. `alone` says what is done where the original's files are missing.
pub fn run<C>(
    alone: &str,
    compare: impl FnOnce() -> Result<C, String>,
    show: impl FnOnce(&C),
) -> ExitCode {
    if cfg!(not(have_original)) {
        println!("{}", reference::original_missing());
        println!("{alone}");
    }
    let start = Instant::now();
    let ended = compare();
    eprintln!("{:.1} s", start.elapsed().as_secs_f64());
    match ended {
        Ok(counts) => {
            show(&counts);
            ExitCode::SUCCESS
        }
        Err(text) => {
            println!("{text}");
            ExitCode::FAILURE
        }
    }
}
