//! The recorded answers: their layout, what they hold, and a replay.

use reference::call::{Call, Entry};
use reference::check_sum::adler;
use reference::vectors::{recorded_calls, recorded_walks, Reader, RecordedCall, RecordedWalk};

#[test]
fn the_check_sum_is_adler_32() {
    assert_eq!(adler(b""), 1);
    assert_eq!(adler(b"Wikipedia"), 0x11e6_0398);
    let mut sums = (1u32, 0u32);
    let bytes = vec![0xff; 40_000];
    for &byte in &bytes {
        sums.0 = (sums.0 + u32::from(byte)) % 65_521;
        sums.1 = (sums.1 + sums.0) % 65_521;
    }
    assert_eq!(adler(&bytes), sums.1 << 16 | sums.0);
}

#[test]
fn a_call_is_laid_out_as_the_format_says() {
    let call = RecordedCall {
        starts: true,
        carries: true,
        call: Call::new(Entry::PortCheck, 3, 256),
        old_length: 0x9000,
        new_length: 0x9001,
        log_capacity: 16,
        answer: -14,
        requests: 7,
        log_sum: 0x01020304,
        store_sum: 0x05060708,
        edits: vec![(1152, 9)],
        outcomes: vec![0xaa, 0xbb],
    };
    let expected = [
        3, 2, 1, 0, 3, 0, 0, 0, 0, 1, 0, 0, // flags, entry, edits; numbers
        0, 0x90, 0, 0, 1, 0x90, 0, 0, 16, 0, 0, 0, 2, 0, 0, 0, // lengths
        0xf2, 0xff, 0xff, 0xff, 7, 0, 0, 0, 0, 0, 0, 0, // answer, requests
        4, 3, 2, 1, 8, 7, 6, 5, // sums
        0x80, 4, 0, 0, 9, // an edit
        0xaa, 0xbb,
    ];
    let mut bytes = Vec::new();
    call.write(&mut bytes);
    assert_eq!(bytes, expected);
    assert_eq!(RecordedCall::read(&mut Reader(&bytes)), call);
}

#[test]
fn a_walk_is_laid_out_as_the_format_says() {
    let walk = RecordedWalk {
        record_length: 968,
        answer: -4,
        record_sum: 5,
        descriptors: vec![1],
    };
    let mut bytes = Vec::new();
    walk.write(&mut bytes);
    assert_eq!(
        bytes,
        [1, 0, 0, 0, 0xc8, 3, 0, 0, 0xfc, 0xff, 0xff, 0xff, 5, 0, 0, 0, 1]
    );
    assert_eq!(RecordedWalk::read(&mut Reader(&bytes)), walk);
}

#[test]
fn every_entry_point_and_answer_is_recorded() {
    let calls = recorded_calls();
    assert!(calls.len() >= 3_000);
    assert!(calls[0].starts);
    for entry in Entry::ALL {
        assert!(calls
            .iter()
            .any(|call| call.call.entry == entry && call.answer == 0));
    }
    for answer in (-9..=0).chain(-16..=-12) {
        assert!(
            calls.iter().any(|call| call.answer == answer),
            "answer {answer}"
        );
    }
    let walks = recorded_walks();
    assert!(walks.len() >= 3_000);
    for answer in [0, -2, -4] {
        assert!(
            walks.iter().any(|walk| walk.answer == answer),
            "answer {answer}"
        );
    }
}

#[cfg(have_original)]
#[test]
fn the_original_answers_as_recorded() {
    let mut replay = reference::vectors::Replay::default();
    for (at, recorded) in recorded_calls().iter().enumerate() {
        let (answered, report) = replay.call(recorded);
        assert_eq!(report.ended, reference::call::Ended::Inside, "call {at}");
        assert!(answered == *recorded, "call {at}: {report:?}");
    }
    for (at, recorded) in recorded_walks().iter().enumerate() {
        let length = recorded.record_length as usize;
        let answered = reference::vectors::walk(&recorded.descriptors, length);
        assert_eq!(answered.as_ref(), Some(recorded), "walk {at}");
    }
}
