//! What is lent to a call of the port, with bytes on both sides of each buffer
//! that it must neither read nor write.

use std::hint::black_box;

use reference::call::Call;
use reference::layout::{LOG, STORE};

use crate::port::{self, Reply};

const AROUND: [u8; 16] = [2; 16];

/// A call and all that it reads.
#[derive(Clone, Copy)]
pub struct Asked<'a> {
    pub call: Call,
    pub old: &'a [u8],
    pub new_length: usize,
    pub outcomes: &'a [u8],
    pub log_capacity: usize,
}

impl<'a> Asked<'a> {
    /// With a whole new store and the usual log.
    pub fn usual(call: Call, old: &'a [u8], outcomes: &'a [u8]) -> Asked<'a> {
        Asked {
            call,
            old,
            new_length: STORE,
            outcomes,
            log_capacity: LOG,
        }
    }
}

/// The buffers; they are used again from call to call.
#[derive(Default)]
pub struct Lent {
    old: Vec<u8>,
    new: Vec<u8>,
    outcomes: Vec<u8>,
    log: Vec<u8>,
}

impl Lent {
    /// Runs a call on the port; new store and log hold `fill` before it. Says
    /// where a byte changed that is not its to change.
    pub fn call(&mut self, asked: &Asked, fill: u8) -> Result<Reply, String> {
        enclose(&mut self.old, asked.old);
        enclose(&mut self.outcomes, asked.outcomes);
        enclose_fill(&mut self.new, asked.new_length, fill);
        enclose_fill(&mut self.log, asked.log_capacity, fill);
        let reply = port::call(
            asked.call,
            inner(&self.old),
            inner_mut(&mut self.new),
            inner(&self.outcomes),
            inner_mut(&mut self.log),
        );
        // The compiler may take what is only lent to read for unchanged.
        let (old, outcomes) = (black_box(&mut self.old), black_box(&mut self.outcomes));
        unchanged("the old store", old, asked.old)?;
        unchanged("the outcomes", outcomes, asked.outcomes)?;
        unchanged("around the new store", &self.new, self.new_store())?;
        unchanged("around the log", &self.log, self.log())?;
        Ok(reply)
    }

    pub fn new_store(&self) -> &[u8] {
        inner(&self.new)
    }

    /// The whole log, with the bytes past the actions.
    pub fn log(&self) -> &[u8] {
        inner(&self.log)
    }
}

fn enclose(buffer: &mut Vec<u8>, bytes: &[u8]) {
    buffer.clear();
    buffer.extend(AROUND);
    buffer.extend(bytes);
    buffer.extend(AROUND);
}

fn enclose_fill(buffer: &mut Vec<u8>, length: usize, fill: u8) {
    buffer.clear();
    buffer.extend(AROUND);
    buffer.resize(AROUND.len() + length, fill);
    buffer.extend(AROUND);
}

fn inner(buffer: &[u8]) -> &[u8] {
    &buffer[AROUND.len()..buffer.len() - AROUND.len()]
}

fn inner_mut(buffer: &mut [u8]) -> &mut [u8] {
    let end = buffer.len() - AROUND.len();
    &mut buffer[AROUND.len()..end]
}

fn unchanged(what: &str, buffer: &[u8], bytes: &[u8]) -> Result<(), String> {
    let (before, rest) = buffer.split_at(AROUND.len());
    let (inside, after) = rest.split_at(bytes.len());
    match before == AROUND && inside == bytes && after == AROUND {
        true => Ok(()),
        false => Err(format!("a byte changed: {what}")),
    }
}
