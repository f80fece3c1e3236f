//! Calls written by hand that are recorded in front of the random ones: entry
//! refusals one by one, each rule of the sound store, and bench lines. Each
//! has its answer from document 01.

use crate::call::{Call, Entry};
use crate::layout::*;
use crate::script::*;
use crate::vectors::RecordedCall;

const SHORT_LOG: u32 = 1024;

/// A call without outcomes on whole stores; sums and requests are left open.
fn call(entry: Entry, first: u32, second: u32, answer: i32) -> RecordedCall {
    RecordedCall {
        starts: false,
        carries: false,
        call: Call::new(entry, first, second),
        old_length: STORE as u32,
        new_length: STORE as u32,
        log_capacity: SHORT_LOG,
        answer,
        requests: 0,
        log_sum: 0,
        store_sum: 0,
        edits: Vec::new(),
        outcomes: Vec::new(),
    }
}

impl RecordedCall {
    fn edited(mut self, edits: &[(usize, u8)]) -> RecordedCall {
        self.edits = edits.iter().map(|&(at, byte)| (at as u32, byte)).collect();
        self
    }

    fn given(mut self, script: Script) -> RecordedCall {
        self.outcomes = script.0;
        self
    }
}

/// The calls, as one sequence from the empty store.
pub fn calls() -> Vec<RecordedCall> {
    let mut calls = on_the_empty_store();
    calls[0].starts = true;
    calls.extend(lengths());
    let root = call(Entry::RootAttach, 0, 0, 0).given(root_with_keyboard(2));
    calls.push(RecordedCall {
        log_capacity: 4096,
        ..root
    });
    calls.extend(on_root_and_keyboard());
    calls.extend(lengths());
    calls.extend(
        damages()
            .into_iter()
            .map(|edits| call(Entry::Scan, 0, 0, -16).edited(&edits)),
    );
    calls.extend(resets());
    calls
}

fn on_the_empty_store() -> Vec<RecordedCall> {
    let root = |speed, answer| call(Entry::RootAttach, speed, 0, answer);
    let mut calls = vec![
        root(3, -12),
        root(4, -2),
        root(255, -2),
        root(256, -2),
        root(u32::MAX, -2),
        root(3, -16).edited(&[(0, 2)]),
        root(4, -2).edited(&[(0, 2)]),
        root(0, -16).edited(&[(STORE - 1, 1)]),
    ];
    calls.extend(Entry::with_hub().map(|entry| call(entry, 0, 0, -2)));
    calls
}

/// Wrong lengths come before every other ground.
fn lengths() -> Vec<RecordedCall> {
    const WHOLE: u32 = STORE as u32;
    let wrong = [
        (WHOLE - 1, WHOLE),
        (WHOLE + 1, WHOLE),
        (WHOLE, WHOLE - 1),
        (WHOLE, WHOLE + 1),
        (WHOLE - 1, WHOLE - 1),
        (40_000, 40_000),
        (0, WHOLE),
        (WHOLE, 0),
    ];
    let with = |entry: Entry, (old_length, new_length)| RecordedCall {
        old_length,
        new_length,
        ..call(entry, 0, 0, -2)
    };
    let entries = Entry::ALL.into_iter();
    entries
        .flat_map(|entry| wrong.map(|lengths| with(entry, lengths)))
        .collect()
}

/// Place 0 is a hub of two ports; place 1, on its port 0, is no hub.
fn on_root_and_keyboard() -> Vec<RecordedCall> {
    let damage = &[(SPEED, 3)];
    let root = |speed, answer| call(Entry::RootAttach, speed, 0, answer);
    let mut calls = vec![
        root(0, -4),
        root(3, -4),
        root(4, -2),
        root(3, -16).edited(damage),
        root(4, -2).edited(damage),
    ];
    for entry in Entry::with_hub() {
        calls.extend([1, 2, 31, 32, 99, 256, 65_536].map(|hub| call(entry, hub, 0, -2)));
        calls.push(call(entry, 99, 99, -16).edited(damage));
    }
    for entry in Entry::WITH_PORT {
        calls.extend([10, 11, 255, 256, 65_536].map(|port| call(entry, 0, port, -2)));
        calls.extend([1, 9].map(|port| call(entry, 0, port, -14)));
    }
    for entry in Entry::WITH_CHILD {
        // the last one is used, and the Rust's own -2
        calls.extend([2, 31, 32, 99, 256, 65_536, 0].map(|child| call(entry, 0, child, -2)));
        calls.push(call(entry, 0, 1, -14));
    }
    calls
}

/// Each rule of the sound store broken once, on place 0 and place 1.
fn damages() -> Vec<Vec<(usize, u8)>> {
    let mut damages: Vec<Vec<(usize, u8)>> = [
        (USED, 2),
        (SPEED, 3),
        (STATUS, 5),
        (ERROR, 1),
        (ERROR, 6),
        (ERROR + 1, 4),
        (HUB, 3),
        (NUMBER, 2),
        (PARENT, 1),
        (MAX_CHILDREN, 11),
        (CHILDREN, 0),      // place 1 is nobody's child
        (CHILDREN, 1),      // place 0 is a child
        (CHILDREN + 1, 2),  // place 1 is a child twice
        (CHILDREN + 9, 3),  // an unused place is a child
        (CHILDREN + 9, 33), // no place is
        (MAX_CHILDREN + 1, 1),
        (RECORD - 1, 1),
        (RECORD_END, 1),
        (PLACE - 1, 1),
        (PLACE + NUMBER, 1),
        (PLACE + PARENT, 2),
        (PLACE + PORT_NUMBER, 1),
        (PLACE + HUB_DESCRIPTOR, 1),
        (PLACE + PORT_STATUSES, 1),
        (PLACE + MAX_CHILDREN, 1),
        (2 * PLACE, 1),
        (2 * PLACE + PLACE - 1, 1),
        (STORE - 1, 1),
    ]
    .map(|edit| vec![edit])
    .to_vec();
    damages.push(vec![(HUB, 1)]); // its descriptor is still there
    damages.push(vec![(3 * PLACE, 1), (CHILDREN + 1, 4)]); // place 2 is unused
    damages.push(vec![(PLACE + HUB, 2), (PLACE + CHILDREN, 2), (CHILDREN, 0)]); // its own child
    damages
}

/// The resets of the bench table, and the retried reset's tenth reads.
fn resets() -> Vec<RecordedCall> {
    let child = |last, answer| call(Entry::ChildReset, 0, 1, answer).given(late_reset(last));
    let not_yet = port(0x111, 0);
    let tenth = Script::new()
        .done()
        .gives_times(9, &not_yet)
        .gives(&port(POWERED, 0x11));
    let thrice = tenth.clone().then(tenth.clone()).then(tenth).done_times(2);
    let retried = call(Entry::RetriedReset, 0, 1, 0).given(thrice);
    vec![
        child(port(HIGH, 0x10), 0),
        child(not_yet, -8),
        RecordedCall {
            log_capacity: 4096,
            ..retried
        },
    ]
}

/// Walks with their record's length and their answer.
pub fn walks() -> Vec<(Vec<u8>, usize, i32)> {
    let filled = |length: usize| {
        let mut descriptors = HEAD.to_vec();
        descriptors.resize(length, 3); // type 3, 3 bytes each
        descriptors
    };
    let mut walks = vec![
        (filled(65_536), RECORD_LENGTH, -2),
        (filled(65_535), RECORD_LENGTH, 0),
        (filled(9), RECORD_LENGTH - 1, -2),
        (filled(9), RECORD_LENGTH + 1, -2),
        (filled(9), 0, -2),
        (vec![1], RECORD_LENGTH, 0),
        (vec![255], RECORD_LENGTH, 0),
        (vec![0, 2], RECORD_LENGTH, 0),
        (vec![2, 5], RECORD_LENGTH, 0),
        (HUB_CONFIGURATION.to_vec(), RECORD_LENGTH, 0),
        (KEYBOARD_CONFIGURATION.to_vec(), RECORD_LENGTH, 0),
    ];
    for (count, endpoints, answer) in [(0, 1, -4), (1, 2, -4), (16, 16, 0), (16, 17, -4)] {
        let mut descriptors = [HEAD, [9, 4, 7, 0, count, 3, 0, 0, 0]].concat();
        descriptors.extend(ENDPOINT.repeat(endpoints));
        walks.push((descriptors, RECORD_LENGTH, answer));
    }
    let bare = BARE_CONFIGURATION;
    let endpoint = [&bare[..], &ENDPOINT].concat();
    let interface = [bare, [9, 4, 8, 0, 0, 3, 0, 0, 0]].concat();
    walks.push((endpoint, RECORD_LENGTH, -4));
    walks.push((interface, RECORD_LENGTH, 0));
    walks.push((bare.to_vec(), RECORD_LENGTH, 0));
    walks
}
