//! The tables, as Markdown.

use crate::cases::Case;
use crate::contestants::{Contestant, CONTESTANTS};
use crate::measure::{Row, Spread};

const WORDS: [&str; CONTESTANTS.len()] = [
    "original, bare",
    "with images",
    "whole call",
    "port",
    "limit",
];
const RATIOS: [&str; 4] = [
    "port / bare",
    "port / with images",
    "port / whole call",
    "port / limit",
];

fn line(cells: &[String]) {
    println!("| {} |", cells.join(" | "));
}

fn head(names: &[&str]) {
    line(
        &names
            .iter()
            .map(|name| name.to_string())
            .collect::<Vec<_>>(),
    );
    line(&vec!["---".to_string(); names.len()]);
}

fn micro(nanoseconds: f64) -> String {
    format!("{:.2}", nanoseconds / 1000.0)
}

/// The port's number by each of the others.
fn ratios(numbers: [f64; CONTESTANTS.len()]) -> impl Iterator<Item = String> {
    let port = CONTESTANTS.iter().position(|&one| one == Contestant::Port);
    let port = numbers[port.expect("the port is a contestant")];
    let others = CONTESTANTS.into_iter().zip(numbers);
    let others = others.filter(|&(one, _)| one != Contestant::Port);
    others.map(move |(_, number)| format!("{:.2}", port / number))
}

/// Medians in microseconds, and ratios of medians.
pub fn medians(cases: &[(Case, u64)], rows: &[Row]) {
    head(&[&["case", "requests"], &WORDS[..], &RATIOS[..]].concat());
    for ((case, requests), row) in cases.iter().zip(rows) {
        let medians = row.map(|time| time.median);
        let mut cells = vec![case.words.to_string(), requests.to_string()];
        cells.extend(medians.map(micro));
        cells.extend(ratios(medians));
        line(&cells);
    }
}

/// 10th and 90th percentiles in microseconds.
pub fn spreads(cases: &[(Case, u64)], rows: &[Row]) {
    head(&[&["case"], &WORDS[..]].concat());
    let range = |time: Spread| format!("{} to {}", micro(time.low), micro(time.high));
    for ((case, _), row) in cases.iter().zip(rows) {
        let mut cells = vec![case.words.to_string()];
        cells.extend(row.map(range));
        line(&cells);
    }
}

/// Instructions of one call, and their ratios.
pub fn counts(cases: &[(Case, u64)], rows: &[[u64; CONTESTANTS.len()]]) {
    head(&[&["case"], &WORDS[..], &RATIOS[..]].concat());
    for ((case, _), counts) in cases.iter().zip(rows) {
        let mut cells = vec![case.words.to_string()];
        cells.extend(counts.map(|count| count.to_string()));
        cells.extend(ratios(counts.map(|count| count as f64)));
        line(&cells);
    }
}
