//! The recorded answers: calls.bin and walks.bin in ../crates/vectors/data, as
//! ../crates/vectors/README.md lays them out.

use std::path::PathBuf;

use crate::call::{Call, Entry};

/// What new store, log and record hold before each call.
pub const FILL: u8 = 0xee;

#[derive(Clone, Debug, PartialEq, Eq)]
pub struct RecordedCall {
    /// The old store is the empty one.
    pub starts: bool,
    /// The next call's old store is this call's new one.
    pub carries: bool,
    pub call: Call,
    pub old_length: u32,
    pub new_length: u32,
    pub log_capacity: u32,
    pub answer: i32,
    pub requests: u64,
    pub log_sum: u32,
    pub store_sum: u32,
    pub edits: Vec<(u32, u8)>,
    pub outcomes: Vec<u8>,
}

#[derive(Clone, Debug, PartialEq, Eq)]
pub struct RecordedWalk {
    pub record_length: u32,
    pub answer: i32,
    pub record_sum: u32,
    pub descriptors: Vec<u8>,
}

pub fn folder() -> PathBuf {
    PathBuf::from(concat!(
        env!("CARGO_MANIFEST_DIR"),
        "/../crates/vectors/data"
    ))
}

pub fn recorded_calls() -> Vec<RecordedCall> {
    all_of("calls.bin", RecordedCall::read)
}

pub fn recorded_walks() -> Vec<RecordedWalk> {
    all_of("walks.bin", RecordedWalk::read)
}

/// Cuts an old store to this length, or adds zeros up to it, and puts these
/// bytes at their offsets.
pub fn edit(old: &mut Vec<u8>, length: usize, edits: &[(u32, u8)]) {
    old.resize(length, 0);
    for &(offset, byte) in edits {
        old[offset as usize] = byte;
    }
}

fn all_of<T>(file: &str, read: fn(&mut Reader) -> T) -> Vec<T> {
    let bytes = std::fs::read(folder().join(file)).expect(file);
    let mut reader = Reader(&bytes);
    let mut all = Vec::new();
    while !reader.is_done() {
        all.push(read(&mut reader));
    }
    all
}

impl RecordedCall {
    /// Its old store, of the one that its sequence has.
    pub fn old(&self, store: &[u8]) -> Vec<u8> {
        let mut old = store.to_vec();
        edit(&mut old, self.old_length as usize, &self.edits);
        old
    }

    pub fn write(&self, to: &mut Vec<u8>) {
        let entry = Entry::ALL
            .iter()
            .position(|entry| *entry == self.call.entry);
        to.push(u8::from(self.starts) | u8::from(self.carries) << 1);
        to.push(entry.expect("an entry point") as u8);
        to.push(u8::try_from(self.edits.len()).expect("few edits"));
        to.push(0);
        for number in self.call.numbers {
            to.extend(number.to_le_bytes());
        }
        to.extend(self.old_length.to_le_bytes());
        to.extend(self.new_length.to_le_bytes());
        to.extend(self.log_capacity.to_le_bytes());
        to.extend((self.outcomes.len() as u32).to_le_bytes());
        to.extend(self.answer.to_le_bytes());
        to.extend(self.requests.to_le_bytes());
        to.extend(self.log_sum.to_le_bytes());
        to.extend(self.store_sum.to_le_bytes());
        for (offset, byte) in &self.edits {
            to.extend(offset.to_le_bytes());
            to.push(*byte);
        }
        to.extend(&self.outcomes);
    }

    pub fn read(from: &mut Reader) -> RecordedCall {
        let [flags, entry, edits, _] = from.array();
        let first = from.u32();
        let second = from.u32();
        let [old_length, new_length, log_capacity, outcomes] = [(); 4].map(|()| from.u32());
        let answer = i32::from_le_bytes(from.array());
        let requests = u64::from_le_bytes(from.array());
        let [log_sum, store_sum] = [(); 2].map(|()| from.u32());
        let edits = (0..edits)
            .map(|_| (from.u32(), from.array::<1>()[0]))
            .collect();
        RecordedCall {
            starts: flags & 1 != 0,
            carries: flags & 2 != 0,
            call: Call::new(Entry::ALL[usize::from(entry)], first, second),
            old_length,
            new_length,
            log_capacity,
            answer,
            requests,
            log_sum,
            store_sum,
            edits,
            outcomes: from.take(outcomes as usize).to_vec(),
        }
    }
}

impl RecordedWalk {
    pub fn write(&self, to: &mut Vec<u8>) {
        to.extend((self.descriptors.len() as u32).to_le_bytes());
        to.extend(self.record_length.to_le_bytes());
        to.extend(self.answer.to_le_bytes());
        to.extend(self.record_sum.to_le_bytes());
        to.extend(&self.descriptors);
    }

    pub fn read(from: &mut Reader) -> RecordedWalk {
        let descriptors = from.u32() as usize;
        RecordedWalk {
            record_length: from.u32(),
            answer: i32::from_le_bytes(from.array()),
            record_sum: from.u32(),
            descriptors: from.take(descriptors).to_vec(),
        }
    }
}

/// Reads a recorded file from front to end.
pub struct Reader<'a>(pub &'a [u8]);

impl<'a> Reader<'a> {
    fn is_done(&self) -> bool {
        self.0.is_empty()
    }

    fn take(&mut self, length: usize) -> &'a [u8] {
        let (taken, rest) = self.0.split_at(length);
        self.0 = rest;
        taken
    }

    fn array<const N: usize>(&mut self) -> [u8; N] {
        self.take(N).try_into().expect("as many bytes")
    }

    fn u32(&mut self) -> u32 {
        u32::from_le_bytes(self.array())
    }
}

#[cfg(have_original)]
pub use on_the_original::*;

#[cfg(have_original)]
mod on_the_original {
    use super::*;
    use crate::call::{Ended, Report};
    use crate::check_sum::adler;
    use crate::layout::STORE;
    use crate::run::{run, run_walk};

    /// Replays recorded calls: holds the store that the next one starts from.
    pub struct Replay {
        store: Vec<u8>,
    }

    impl Default for Replay {
        fn default() -> Self {
            Replay {
                store: vec![0; STORE],
            }
        }
    }

    impl Replay {
        /// Runs a call and gives it back as the original answers it now.
        pub fn call(&mut self, asked: &RecordedCall) -> (RecordedCall, Report) {
            if asked.starts {
                self.store.fill(0);
            }
            let old = asked.old(&self.store);
            let mut new = vec![FILL; asked.new_length as usize];
            let mut log = vec![FILL; asked.log_capacity as usize];
            let report = run(asked.call, &old, &mut new, &asked.outcomes, &mut log);
            if report.carries() {
                self.store.copy_from_slice(&new);
            }
            let answered = RecordedCall {
                carries: report.carries(),
                answer: report.answer,
                requests: report.requests,
                log_sum: adler(&log),
                store_sum: adler(&new),
                ..asked.clone()
            };
            (answered, report)
        }
    }

    /// Runs a walk; none where it is outside the comparison.
    pub fn walk(descriptors: &[u8], record_length: usize) -> Option<RecordedWalk> {
        let mut record = vec![FILL; record_length];
        let (answer, ended) = run_walk(descriptors, &mut record);
        (ended == Ended::Inside).then(|| RecordedWalk {
            record_length: record_length as u32,
            answer,
            record_sum: adler(&record),
            descriptors: descriptors.to_vec(),
        })
    }
}
