//! Instructions of one call, as callgrind counts them. They are the same from
//! run to run, whatever else the machine does.

use std::env::{current_exe, temp_dir};
use std::io;
use std::process::{id, Command};

use crate::cases::Case;
use crate::contestants::{Contestant, BATCH};

const BATCHES: u64 = 5;

/// The C library copies and fills by vector instructions then: callgrind counts
/// one that repeats once for each byte.
const NO_REPEATING: (&str, &str) = (
    "GLIBC_TUNABLES",
    "glibc.cpu.x86_rep_movsb_threshold=1000000:glibc.cpu.x86_rep_stosb_threshold=1000000",
);

/// Runs this program under callgrind, with one case and one contestant.
pub fn count(case: &Case, contestant: Contestant) -> io::Result<u64> {
    let file = temp_dir().join(format!("bench.{}.callgrind", id()));
    let output = Command::new("valgrind")
        .env(NO_REPEATING.0, NO_REPEATING.1)
        .args(["--tool=callgrind", "--toggle-collect=*measured*"])
        .arg(format!("--callgrind-out-file={}", file.display()))
        .arg(current_exe()?)
        .args(["--only", contestant.key(), "--case", case.key])
        .args(["--times", &(BATCHES * BATCH as u64).to_string()])
        .output()?;
    let _ = std::fs::remove_file(file);
    let text = String::from_utf8_lossy(&output.stderr);
    let line = text.lines().find(|line| line.contains("Collected : "));
    let number = line.and_then(|line| line.rsplit(' ').next()?.parse::<u64>().ok());
    match number {
        Some(number) => Ok(number / (BATCHES * BATCH as u64)),
        None => Err(io::Error::other(text.into_owned())),
    }
}
