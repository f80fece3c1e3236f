//! Runs the lines of document 01's bench table and compares each with the
//! table's value.

use reference::bench::{rule_lines, Line};
use std::process::ExitCode;

fn main() -> ExitCode {
    let differences = show("rules", rule_lines()) + original();
    println!("{differences} differences");
    ExitCode::from(u8::from(differences > 0))
}

#[cfg(have_original)]
fn original() -> usize {
    show("Rust", reference::bench::lines())
}

#[cfg(not(have_original))]
fn original() -> usize {
    println!("{}", reference::original_missing());
    0
}

fn show(by: &str, lines: Vec<Line>) -> usize {
    let mut differences = 0;
    for line in lines {
        let Line {
            name,
            expected,
            got,
        } = line;
        match got {
            None => println!("{by}: {name}: {expected} (the Rust cannot answer)"),
            Some(got) if got == expected => println!("{by}: {name}: {got}"),
            Some(got) => {
                println!("{by}: {name}: {got}, but the table says {expected}");
                differences += 1;
            }
        }
    }
    differences
}
