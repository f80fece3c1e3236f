//! Outcomes written and read.
#![allow(
    clippy::arithmetic_side_effects,
    clippy::indexing_slicing,
    clippy::panic,
    clippy::unwrap_used
)]

mod common;

use common::{Random, SAMPLE};
use lidrumak::{
    root_attach, Answer, Outcome, Outcomes, OutcomesIter, Refused, Store, TransferError,
};

#[test]
fn an_outcome_is_a_header_and_its_data() {
    let mut buffer = [9; 20];
    let mut outcomes = Outcomes::new(&mut buffer);
    assert_eq!(outcomes.as_bytes(), []);
    let outcome = Outcome {
        submit: Answer::ErrorIncompatible,
        error: TransferError::Processing,
        data: &[1, 2, 3],
    };
    outcomes.push(outcome).unwrap();
    assert_eq!(outcomes.as_bytes(), [5, 31, 3, 0, 1, 2, 3]);
    assert_eq!(outcomes.iter().collect::<Vec<_>>(), [outcome]);
    outcomes.clear();
    assert_eq!(outcomes.as_bytes(), []);
}

#[test]
fn the_ways_to_make_an_outcome() {
    let mut buffer = [9; 20];
    let mut outcomes = Outcomes::new(&mut buffer);
    let made = [
        Outcome::done(&[7]),
        Outcome::new(TransferError::NoError, &[7]),
        Outcome::new(TransferError::Babble, &[]),
        Outcome::not_submitted(Answer::ErrorRetry),
    ];
    for outcome in made {
        outcomes.push(outcome).unwrap();
    }
    let bytes = [0, 0, 1, 0, 7, 0, 0, 1, 0, 7, 0, 3, 0, 0, 3, 0, 0, 0];
    assert_eq!(outcomes.as_bytes(), bytes);
    let results = made.map(|outcome| outcome.result().number());
    assert_eq!(results, [0, 0, -4, -3]);
    let mut read = vec![];
    for outcome in &outcomes {
        read.push(outcome);
    }
    assert_eq!(read, made);
}

#[test]
fn the_words_of_a_refusal() {
    let words = [Refused::Garbled, Refused::TooLong, Refused::Full].map(|it| it.to_string());
    let expected = [
        "the submit code is not one of 0 to -9",
        "over 65,535 bytes of data",
        "no room for the outcome",
    ];
    assert_eq!(words, expected);
}

#[test]
fn a_full_buffer_takes_no_more() {
    let mut buffer = [9; 9];
    let mut outcomes = Outcomes::new(&mut buffer);
    assert_eq!(outcomes.push(Outcome::done(&[0; 6])), Err(Refused::Full));
    outcomes.push(Outcome::done(&[7])).unwrap();
    assert_eq!(outcomes.push(Outcome::done(&[8])), Err(Refused::Full));
    assert_eq!(outcomes.as_bytes(), [0, 0, 1, 0, 7]);
    outcomes.push(Outcome::done(&[])).unwrap();
    assert_eq!(outcomes.as_bytes().len(), 9);
    assert_eq!(outcomes.push(Outcome::done(&[])), Err(Refused::Full));
    assert_eq!(
        Outcomes::new(&mut []).push(Outcome::done(&[])),
        Err(Refused::Full)
    );
}

#[test]
fn data_of_two_length_bytes_and_no_more() {
    let mut buffer = vec![0; 70_000];
    let mut outcomes = Outcomes::new(&mut buffer);
    let data = vec![1; 65_536];
    assert_eq!(outcomes.push(Outcome::done(&data)), Err(Refused::TooLong));
    outcomes.push(Outcome::done(&data[1..])).unwrap();
    assert_eq!(outcomes.as_bytes().len(), 65_539);
    assert_eq!(outcomes.as_bytes()[..4], [0, 0, 0xff, 0xff]);
}

#[test]
fn submit_codes_are_0_to_9() {
    for number in -16..=0 {
        let mut buffer = [0; 4];
        let mut outcomes = Outcomes::new(&mut buffer);
        let outcome = Outcome {
            submit: Answer::from_number(number).unwrap(),
            error: TransferError::NoError,
            data: &[],
        };
        let written = outcomes.push(outcome);
        if number < -9 {
            assert_eq!(written, Err(Refused::Garbled), "{number}");
            assert_eq!(outcomes.as_bytes(), []);
        } else {
            assert_eq!(outcomes.as_bytes(), [-number as u8, 0, 0, 0]);
        }
    }
}

#[test]
fn errors_are_0_to_9_and_31() {
    for number in 0..=255 {
        let error = TransferError::from_number(number);
        assert_eq!(error.is_some(), matches!(number, 0..=9 | 31), "{number}");
        assert_eq!(error.map_or(number, TransferError::number), number);
        if let Some(error) = error {
            assert_eq!(error.to_string(), format!("{error:?}"));
        }
        let count = OutcomesIter::new(&[0, number, 0, 0]).count();
        assert_eq!(count, usize::from(error.is_some()), "{number}");
    }
}

#[test]
fn the_result_of_a_transfer() {
    for (submit, error, result) in [
        (0, TransferError::NoError, 0),
        (0, TransferError::Processing, -8),
        (0, TransferError::Stall, -4),
        (0, TransferError::NotYetError, -4),
        (-5, TransferError::Processing, -5),
        (-1, TransferError::NoError, -1),
    ] {
        let outcome = Outcome {
            submit: Answer::from_number(submit).unwrap(),
            error,
            data: &[],
        };
        assert_eq!(outcome.result().number(), result);
    }
}

#[test]
fn the_outcomes_of_the_bench_start() {
    let outcomes: Vec<Outcome> = OutcomesIter::new(SAMPLE).collect();
    assert_eq!(outcomes.len(), 68);
    assert!(outcomes.iter().all(|outcome| outcome.result().is_ok()));
    assert_eq!(outcomes[0].data.len(), 18);
    assert_eq!(outcomes[1].data, []);
    assert_eq!(outcomes[67].data, [0, 1, 0, 0]);
}

/// Some outcomes, a few of them garbled, and a cut-off end.
fn likely(random: &mut Random) -> Vec<u8> {
    let mut bytes = vec![];
    for _ in 0..random.below(12) {
        let length = random.below(30);
        let submit = if random.below(8) == 0 {
            random.below(11)
        } else {
            0
        };
        let error = if random.below(8) == 0 {
            random.below(11)
        } else {
            0
        };
        bytes.extend([submit as u8, error as u8, length as u8, 0]);
        bytes.extend(random.bytes(length, 256));
    }
    bytes.truncate(random.below(bytes.len() + 100));
    bytes
}

#[test]
fn any_bytes_are_read_up_to_the_first_that_are_no_outcome() {
    let mut random = Random(2);
    for _ in 0..20_000 {
        let length = random.below(64);
        for bytes in [
            random.bytes(length, 256),
            random.bytes(length, 12),
            likely(&mut random),
        ] {
            let mut read = OutcomesIter::new(&bytes);
            let mut buffer = vec![0; bytes.len()];
            let mut written = Outcomes::new(&mut buffer);
            for outcome in read.by_ref() {
                written.push(outcome).unwrap();
            }
            assert_eq!(read.next(), None);
            let (taken, rest) = bytes.split_at(written.as_bytes().len());
            assert_eq!(written.as_bytes(), taken);
            let garbled = |rest: &[u8]| rest[0] > 9 || !matches!(rest[1], 0..=9 | 31);
            let length = |rest: &[u8]| usize::from(rest[2]) + 256 * usize::from(rest[3]);
            assert!(rest.len() < 4 || garbled(rest) || rest.len() - 4 < length(rest));
        }
    }
}

/// A call that runs out of outcomes, or meets a garbled one, has taken just
/// those that the reader shows.
#[test]
fn a_stopped_call_has_taken_the_outcomes_that_are_read() {
    let mut random = Random(3);
    let (old, mut new) = (Store::new(), Store::new());
    let mut stopped = [0; 2];
    for _ in 0..3_000 {
        let outcomes = match random.below(2) {
            0 => likely(&mut random),
            _ => {
                let mut bytes = SAMPLE[..random.below(SAMPLE.len())].to_vec();
                let tail = random.below(6);
                bytes.extend(random.bytes(tail, 40));
                bytes
            }
        };
        let mut log = vec![0; 4096];
        let reply = root_attach(old.as_bytes(), new.as_bytes_mut(), &outcomes, &mut log, 0);
        let read = OutcomesIter::new(&outcomes).count() as u64;
        match reply.answer {
            Answer::OutcomesSpent => stopped[0] += 1,
            Answer::GarbledOutcome => stopped[1] += 1,
            _ => continue,
        }
        assert_eq!(reply.requests, read + 1);
    }
    assert!(stopped.iter().all(|count| *count > 100), "{stopped:?}");
}
