//! Document 01's table of answers.
#![allow(
    clippy::arithmetic_side_effects,
    clippy::indexing_slicing,
    clippy::panic,
    clippy::unwrap_used
)]

use std::error::Error;

use lidrumak::{Answer, Reply};

const TABLE: [(i32, Answer, &str); 17] = [
    (0, Answer::Ok, "OK"),
    (-1, Answer::ErrorGeneral, "ErrorGeneral"),
    (-2, Answer::ErrorArgument, "ErrorArgument"),
    (-3, Answer::ErrorRetry, "ErrorRetry"),
    (-4, Answer::ErrorDevice, "ErrorDevice"),
    (-5, Answer::ErrorIncompatible, "ErrorIncompatible"),
    (-6, Answer::ErrorCompiler, "ErrorCompiler"),
    (-7, Answer::ErrorMemory, "ErrorMemory"),
    (-8, Answer::ErrorTimeout, "ErrorTimeout"),
    (-9, Answer::ErrorDisconnected, "ErrorDisconnected"),
    (-10, Answer::GarbledConfiguration, "garbled configuration"),
    (-11, Answer::BusFull, "bus full"),
    (-12, Answer::RootSpeed, "root speed"),
    (-13, Answer::GarbledOutcome, "garbled outcome"),
    (-14, Answer::OutcomesSpent, "outcomes spent"),
    (-15, Answer::LogFull, "log full"),
    (-16, Answer::StoreDamaged, "store damaged"),
];

#[test]
fn numbers_and_words_of_the_table() {
    for (number, answer, word) in TABLE {
        assert_eq!(Answer::from_number(number), Some(answer));
        assert_eq!(Answer::try_from(number), Ok(answer));
        assert_eq!(answer.number(), number);
        assert_eq!(answer.to_string(), word);
        assert_eq!(Reply::from_numbers(number, 7).answer, answer);
    }
}

#[test]
fn a_number_outside_the_table() {
    for number in (-1000..=1000).chain([i32::MIN, i32::MAX]) {
        let listed = TABLE.iter().any(|line| line.0 == number);
        assert_eq!(Answer::from_number(number).is_some(), listed, "{number}");
        assert_eq!(Answer::try_from(number).is_ok(), listed, "{number}");
    }
    let error = Answer::try_from(-17).unwrap_err();
    assert_eq!(error.number(), -17);
    let error: Box<dyn Error> = Box::new(error);
    assert_eq!(error.to_string(), "-17 is no answer");
    let reply = Reply::from_numbers(-17, 5);
    assert_eq!((reply.answer, reply.requests), (Answer::ErrorCompiler, 5));
}

#[test]
fn stops_are_the_answers_13_to_15() {
    for (number, answer, _) in TABLE {
        assert_eq!(answer.is_stop(), (-15..=-13).contains(&number), "{answer}");
        assert_eq!(answer.is_ok(), number == 0, "{answer}");
    }
}

#[test]
fn every_answer_but_ok_is_an_error() {
    assert_eq!(Answer::Ok.result(), Ok(()));
    assert_eq!(Reply::from_numbers(0, 68).result(), Ok(()));
    for (number, answer, word) in &TABLE[1..] {
        let failure = answer.result().unwrap_err();
        assert_eq!(Reply::from_numbers(*number, 5).result(), Err(failure));
        assert_eq!(failure.answer(), *answer);
        let error: Box<dyn Error> = Box::new(failure);
        assert_eq!(error.to_string(), *word);
    }
}

/// Answer, requests, has the call ended?
#[test]
fn refusals_and_stops_have_not_ended() {
    for (number, requests, ended) in [
        (0, 0, true),
        (0, 68, true),
        (-2, 0, false),
        (-2, 1, true),
        (-4, 0, false),
        (-4, 1, true),
        (-8, 24, true),
        (-10, 5, true),
        (-11, 9, true),
        (-12, 0, false),
        (-13, 1, false),
        (-14, 1, false),
        (-15, 0, false),
        (-15, 3, false),
        (-16, 0, false),
    ] {
        let reply = Reply::from_numbers(number, requests);
        assert_eq!(reply.has_ended(), ended, "{number}, {requests} requests");
    }
}
