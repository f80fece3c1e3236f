//! Random walks of the port beside the original's and the rules'.
//! Arguments: the number of walks and the seed.

use std::cmp::Reverse;
use std::collections::BTreeMap;
use std::process::ExitCode;

use comparison::descriptors::any_descriptors;
use comparison::{original, port, program};
use reference::arguments::numbers;
use reference::generator::prng::Prng;
use reference::layout::RECORD_LENGTH;
use reference::outside::Outside;
use reference::rules;

const WALKS: u64 = 1_000_000;
const SEED: u64 = 1;

/// Walks by their answer, and by the case where the original is outside the
/// comparison.
type Counts = BTreeMap<(Option<Outside>, Reverse<i32>), u64>;

fn main() -> ExitCode {
    let [walks, seed] = numbers([WALKS, SEED]);
    let alone = "the port is compared with the rules alone";
    program::run(alone, || count(walks, seed), show)
}

fn count(walks: u64, seed: u64) -> Result<Counts, String> {
    let mut prng = Prng::new(seed);
    let mut counts = Counts::new();
    for at in 0..walks {
        let descriptors = any_descriptors(&mut prng);
        let record = any_record(&mut prng);
        let (case, answer) = compare(&descriptors, &record)
            .map_err(|text| format!("walk {at}, seed {seed}: {text}: {descriptors:02x?}"))?;
        *counts.entry((case, Reverse(answer))).or_default() += 1;
    }
    Ok(counts)
}

/// A record of random bytes; its length is wrong at times.
fn any_record(prng: &mut Prng) -> Vec<u8> {
    let length = match prng.below(500) {
        0 => prng.pick(&[0, 1, 72, 967, 969, 1152, 1936]),
        _ => RECORD_LENGTH,
    };
    let words = (0..length.div_ceil(8)).map(|_| prng.word());
    let mut record: Vec<u8> = words.flat_map(u64::to_le_bytes).collect();
    record.truncate(length);
    record
}

/// The walk's case and answer, or how the port's reply differs.
fn compare(descriptors: &[u8], record: &[u8]) -> Result<(Option<Outside>, i32), String> {
    let mut by_port = record.to_vec();
    let answer = port::configuration_walk(descriptors, &mut by_port);
    let mut by_rules = record.to_vec();
    let expected = rules::configuration_walk(descriptors, &mut by_rules);
    same((answer, &by_port), "the rules", (expected, &by_rules))?;

    let mut by_original = record.to_vec();
    match original::configuration_walk(descriptors, &mut by_original) {
        Err(case) => Ok((Some(case), answer)),
        Ok(expected) => {
            same((answer, &by_port), "the original", (expected, &by_original))?;
            Ok((None, answer))
        }
    }
}

fn same(port: (i32, &[u8]), whose: &str, expected: (i32, &[u8])) -> Result<(), String> {
    if port.0 != expected.0 {
        return Err(format!("{}, by {whose} {}", port.0, expected.0));
    }
    match port.1.iter().zip(expected.1).position(|(a, b)| a != b) {
        Some(at) => Err(format!("byte {at} of the record is not that of {whose}")),
        None => Ok(()),
    }
}

fn show(counts: &Counts) {
    for ((case, Reverse(answer)), walks) in counts {
        match case {
            None => println!("inside, {answer}: {walks}"),
            Some(case) => println!("outside, {case:?}, {answer}: {walks}"),
        }
    }
    let walks: u64 = counts.values().sum();
    println!("{walks} walks, 0 differences");
}
