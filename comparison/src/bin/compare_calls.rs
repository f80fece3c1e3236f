//! Random calls of the port beside the original's.
//! Arguments: the number of calls and the seed.

use std::cmp::Reverse;
use std::collections::BTreeMap;
use std::process::ExitCode;

use comparison::histories::{run, Counts, Grid};
use comparison::program;
use reference::arguments::numbers;
use reference::call::Entry;
use reference::outside::Outside;

const CALLS: u64 = 200_000;
const SEED: u64 = 1;

fn main() -> ExitCode {
    let [calls, seed] = numbers([CALLS, SEED]);
    let alone = "the port is held to what document 01 says of every call";
    program::run(alone, || run(calls, seed), show)
}

fn show(counts: &Counts) {
    println!(
        "{} histories; {} requests, at most {} in a call; {} calls left all 32 places used",
        counts.histories, counts.requests, counts.most_requests, counts.full_bus
    );
    println!(
        "repeats: {} with fewer outcomes, {} with a shorter log",
        counts.fewer_outcomes, counts.shorter_logs
    );
    let inside = if cfg!(have_original) { "inside, " } else { "" };
    show_grid(&format!("{inside}refused at entry"), &counts.refused);
    show_grid(&format!("{inside}run"), &counts.run);
    let mut cases: BTreeMap<Outside, Vec<String>> = BTreeMap::new();
    for ((case, Reverse(answer)), calls) in &counts.outside {
        let answers = cases.entry(*case).or_default();
        answers.push(format!("{answer}: {calls}"));
    }
    for (case, answers) in cases {
        println!(
            "outside, {case:?}, by the port's answer: {}",
            answers.join(", ")
        );
    }
    println!("{} calls, 0 differences", counts.calls);
}

/// A line for each answer, a column for each entry point.
fn show_grid(title: &str, grid: &Grid) {
    let names = Entry::ALL.map(|entry| format!("{:>17}", format!("{entry:?}")));
    println!("{title}:\n     {}", names.concat());
    let mut answers: Vec<Reverse<i32>> = grid.keys().map(|(answer, _)| *answer).collect();
    answers.dedup();
    for answer in answers {
        let cell = |entry| match grid.get(&(answer, entry)) {
            Some(calls) => format!("{calls:>17}"),
            None => format!("{:>17}", ""),
        };
        let cells = Entry::ALL.map(cell).concat();
        println!("{:>5}{}", answer.0, cells.trim_end());
    }
}
