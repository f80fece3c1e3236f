//! The exported functions: lines of document 01's bench table, refusals, and
//! slices of any length.
#![allow(
    clippy::arithmetic_side_effects,
    clippy::indexing_slicing,
    clippy::panic,
    clippy::unwrap_used
)]

mod common;

use common::{bench_start, gives, outcome, Random};
use lidrumak::*;

type Call = fn(&[u8], &mut [u8], &[u8], &mut [u8], u32, u32) -> Reply;

const CALLS: [Call; 7] = [
    |old, new, outcomes, log, speed, _| root_attach(old, new, outcomes, log, speed),
    |old, new, outcomes, log, hub, _| scan(old, new, outcomes, log, hub),
    port_check,
    child_reset,
    child_check,
    retried_reset,
    connection_change,
];

/// Answer, requests and setup bytes of a call on the bench start's store.
fn on_bench(call: Call, outcomes: &[u8], hub: u32, other: u32) -> (i32, u64, Vec<[u8; 8]>) {
    let (old, _, _) = bench_start();
    let mut new = Store::new();
    let mut log = vec![0; 4096];
    let reply = call(
        old.as_bytes(),
        new.as_bytes_mut(),
        outcomes,
        &mut log,
        hub,
        other,
    );
    let setups = Actions::new(&log)
        .filter_map(Action::request)
        .map(|request| request.setup)
        .collect();
    (reply.answer.number(), reply.requests, setups)
}

fn attach(outcomes: &[u8]) -> (i32, u64) {
    let mut new = Store::new();
    let mut log = [0; 64];
    let old = Store::EMPTY;
    let reply = root_attach(old.as_bytes(), new.as_bytes_mut(), outcomes, &mut log, 0);
    (reply.answer.number(), reply.requests)
}

#[test]
fn the_first_outcome_of_a_root_attach() {
    assert_eq!(attach(&[]), (-14, 1));
    let ok = Answer::Ok;
    assert_eq!(attach(&outcome(ok, TransferError::Processing)), (-8, 1));
    assert_eq!(attach(&outcome(ok, TransferError::Stall)), (-4, 1));
    let five = Answer::ErrorIncompatible;
    assert_eq!(attach(&outcome(five, TransferError::Processing)), (-5, 1));
    assert_eq!(attach(&[0, 10, 0, 0]), (-13, 1));
    assert_eq!(attach(&[0, 0, 1, 0]), (-14, 1));
}

/// A child reset: clear, reset, reads, clear. The reads are of port 1.
fn reset_with_change_in_read(read: usize) -> (i32, u64) {
    let mut data: Vec<&[u8]> = vec![&[], &[]];
    let reads = (1..=21).map(|n| {
        if n == read {
            &[3, 1, 16, 0]
        } else {
            &[3, 1, 0, 0]
        }
    });
    data.extend(reads.take(read).map(|data| &data[..]));
    data.push(&[]);
    let (answer, requests, setups) = on_bench(child_reset, &gives(&data), 0, 1);
    assert_eq!(setups[1], [0x23, 3, 4, 0, 2, 0, 0, 0]);
    assert_eq!(setups[2], [0xa3, 0, 0, 0, 2, 0, 4, 0]);
    (answer, requests)
}

#[test]
fn a_child_reset_reads_21_times() {
    assert_eq!(reset_with_change_in_read(1), (0, 4));
    assert_eq!(reset_with_change_in_read(21), (0, 24));
    assert_eq!(reset_with_change_in_read(22), (-8, 24));
}

/// Three tries of a reset and ten reads, then both clears.
#[test]
fn a_retried_reset_that_never_ends_well_answers_0() {
    let mut data: Vec<&[u8]> = vec![];
    for _ in 0..3 {
        data.push(&[]);
        data.extend([&[1_u8, 1, 0, 0][..]; 10]);
    }
    data.extend([&[][..]; 2]);
    let (answer, requests, setups) = on_bench(retried_reset, &gives(&data), 0, 0);
    assert_eq!((answer, requests), (0, 35));
    assert_eq!(setups[33], [0x23, 1, 4, 0, 1, 0, 0, 0]);
    assert_eq!(setups[34], [0x23, 1, 20, 0, 1, 0, 0, 0]);
}

#[test]
fn a_connection_change_without_a_device() {
    let empty: &[u8] = &[0, 1, 0, 0];
    let outcomes = gives(&[empty, &[], empty]);
    let (answer, requests, setups) = on_bench(connection_change, &outcomes, 0, 9);
    assert_eq!((answer, requests), (-5, 3));
    assert_eq!(setups[0], [0xa3, 0, 0, 0, 10, 0, 4, 0]);
    assert_eq!(setups[1], [0x23, 1, 16, 0, 10, 0, 0, 0]);
}

#[test]
fn checks_of_a_port_and_of_its_device() {
    let outcomes = gives(&[&[3, 1, 0, 0]]);
    let setups = vec![[0xa3, 0, 0, 0, 2, 0, 4, 0]];
    assert_eq!(
        on_bench(port_check, &outcomes, 0, 1),
        (0, 1, setups.clone())
    );
    assert_eq!(on_bench(child_check, &outcomes, 0, 1), (0, 1, setups));
    assert_eq!(on_bench(child_check, &outcomes, 0, 3), (-2, 0, vec![]));
}

/// The new store of a child check of another hub's child is the old one; of an
/// unused place it stays as it was.
#[test]
fn a_refusal_at_entry_leaves_the_new_store() {
    let (old, _, _) = bench_start();
    for (child, copied) in [(3, true), (4, false), (32, false)] {
        let mut new = vec![7; STORE_LENGTH];
        let mut log = [9; 32];
        let reply = child_check(old.as_bytes(), &mut new, &[], &mut log, 0, child);
        assert_eq!((reply.answer, reply.requests), (Answer::ErrorArgument, 0));
        let expected = if copied {
            &old.as_bytes()[..]
        } else {
            &[7; STORE_LENGTH]
        };
        assert_eq!(new, expected);
        assert_eq!(log, [9; 32]);
    }
}

/// A hub's own child whose parent byte is 0, or whose port is not below the hub's
/// MaxChildren.
#[test]
fn a_child_that_is_answered_without_a_request() {
    for (byte, value) in [(1152 + 6, 0), (106, 1)] {
        let (mut old, _, _) = bench_start();
        old.as_bytes_mut()[byte] = value;
        assert_eq!(old.device(1).unwrap().port.unwrap().port, 1);
        for call in [child_reset, child_check] {
            let mut new = vec![7; STORE_LENGTH];
            let reply = call(old.as_bytes(), &mut new, &[], &mut [0; 64], 0, 1);
            assert_eq!((reply.answer, reply.requests), (Answer::ErrorArgument, 0));
            assert!(!reply.has_ended());
            assert_eq!(new, old.as_bytes());
        }
    }
}

/// Lengths of the slices and numbers of any size. A store of another length is
/// -2 and leaves every byte.
#[test]
fn slices_of_any_length() {
    let mut random = Random(6);
    let (bench, _, _) = bench_start();
    for turn in 0..4_000 {
        let length = |random: &mut Random| match random.below(3) {
            0 => random.below(40_000),
            _ => STORE_LENGTH,
        };
        let (old_length, new_length) = (length(&mut random), length(&mut random));
        let mut old = bench.as_bytes().to_vec();
        old.resize(old_length, 0);
        let mut new = vec![7; new_length];
        let outcomes_length = random.below(200);
        let outcomes = random.bytes(outcomes_length, 4);
        let mut log = vec![9; random.below(2_000)];
        let [first, second] = [0, 0].map(|_| match random.below(6) {
            0 => random.number() as u32,
            _ => random.below(11) as u32,
        });
        let call = CALLS[turn % 7];
        let reply = call(&old, &mut new, &outcomes, &mut log, first, second);
        if old_length != STORE_LENGTH || new_length != STORE_LENGTH {
            assert_eq!((reply.answer, reply.requests), (Answer::ErrorArgument, 0));
            assert!(new.iter().all(|byte| *byte == 7) && log.iter().all(|byte| *byte == 9));
        }
        if !reply.has_ended() && !reply.answer.is_stop() {
            assert!(new.iter().all(|byte| *byte == 7) || new == old);
        }
        let requests = Actions::new(&log).filter_map(Action::request).count() as u64;
        assert_eq!(requests, reply.requests);
    }
}

#[test]
fn a_store_of_any_bytes() {
    let mut random = Random(7);
    for turn in 0..300 {
        let bound = [2, 4, 256][turn % 3];
        let old = random.bytes(STORE_LENGTH, bound);
        let mut new = vec![7; STORE_LENGTH];
        let reply = CALLS[turn % 7](&old, &mut new, &[], &mut [0; 64], 0, 0);
        let told = (reply.answer, reply.requests);
        assert_eq!(told, (Answer::StoreDamaged, 0));
        assert!(new.iter().all(|byte| *byte == 7));
    }
}

const CONFIGURATION: [u8; 9] = [9, 2, 9, 0, 1, 1, 0, 0x80, 0x32];
const ENDPOINT: [u8; 7] = [7, 5, 0x81, 3, 8, 0, 10];

fn interface(number: u8) -> [u8; 9] {
    [9, 4, number, 0, 0, 3, 0, 0, 0]
}

fn walk(descriptors: &[u8]) -> (i32, Vec<u8>) {
    let mut record = vec![0; RECORD_LENGTH];
    let answer = configuration_walk(descriptors, &mut record);
    (answer.number(), record)
}

#[test]
fn the_walks_of_the_bench_table() {
    let nothing = vec![0; RECORD_LENGTH];
    assert_eq!(walk(&CONFIGURATION), (0, nothing.clone()));
    assert_eq!(walk(&[]), (-10, nothing.clone()));
    let endpoint = [&CONFIGURATION[..], &ENDPOINT].concat();
    assert_eq!(walk(&endpoint), (-4, nothing.clone()));
    for (number, answer, stored) in [(7, 0, true), (8, 0, false), (9, -10, false)] {
        let descriptors = [CONFIGURATION, interface(number)].concat();
        let mut record = nothing.clone();
        if stored {
            record[63..72].copy_from_slice(&interface(number));
        }
        assert_eq!(walk(&descriptors), (answer, record), "interface {number}");
    }
}

#[test]
fn lengths_that_the_walk_refuses() {
    for length in [0, 967, 969] {
        let mut record = vec![7; length];
        let answer = configuration_walk(&CONFIGURATION, &mut record);
        assert_eq!(answer, Answer::ErrorArgument);
        assert_eq!(record, vec![7; length]);
    }
    // After the configuration a descriptor of length 0 ends the walk well.
    let mut descriptors = CONFIGURATION.to_vec();
    descriptors.resize(65_535, 0);
    assert_eq!(walk(&descriptors).0, 0);
    descriptors.push(0);
    assert_eq!(walk(&descriptors).0, -2);
}
