//! The program busrun. It is looked for in ../crates/busrun/out, from this
//! package's folder; LIDRUMAK_BUSRUN names another file.

use std::fs::File;
use std::io::{Seek, Write};
use std::path::{Path, PathBuf};
use std::process::{Command, Stdio};

use reference::call::Entry;
use reference::check_sum::adler;
use reference::layout::STORE;
use reference::script::{Script, DEVICE, KEYBOARD_CONFIGURATION};
use reference::vectors::{recorded_calls, RecordedCall, FILL};

const MOST_INPUT: usize = 65_536;

fn program() -> PathBuf {
    let built = concat!(env!("CARGO_MANIFEST_DIR"), "/../crates/busrun/out/busrun");
    let path = std::env::var("LIDRUMAK_BUSRUN").unwrap_or_else(|_| built.to_string());
    assert!(
        Path::new(&path).is_file(),
        "busrun is missing: looked for {path}; 'make port' writes it, \
         the variable LIDRUMAK_BUSRUN names another file"
    );
    PathBuf::from(path)
}

/// What busrun writes, and how many bytes of its input it has read.
fn busrun(input: &[u8], name: &str) -> (Vec<u8>, u64) {
    let path = Path::new(env!("CARGO_TARGET_TMPDIR")).join(name);
    File::create(&path).unwrap().write_all(input).unwrap();
    let mut file = File::open(&path).unwrap();
    let output = Command::new(program())
        .stdin(file.try_clone().unwrap()) // shares the position
        .stderr(Stdio::inherit())
        .output()
        .expect("busrun runs");
    assert!(output.status.success(), "{:?}", output.status);
    (output.stdout, file.stream_position().unwrap())
}

/// A root attach that busrun repeats: speed 0, the empty store. Its log is
/// busrun's, unless a shorter one was full.
fn is_busruns(recorded: &RecordedCall) -> bool {
    recorded.starts
        && recorded.call.entry == Entry::RootAttach
        && recorded.call.numbers[0] == 0
        && recorded.edits.is_empty()
        && (recorded.old_length as usize, recorded.new_length as usize) == (STORE, STORE)
        && recorded.answer != -15
}

#[test]
fn recorded_root_attaches() {
    let calls = recorded_calls();
    let calls: Vec<&RecordedCall> = calls.iter().filter(|call| is_busruns(call)).collect();
    assert_eq!(calls.len(), 280);
    for recorded in calls {
        let (written, read) = busrun(&recorded.outcomes, "recorded");
        assert_eq!(read, recorded.outcomes.len() as u64);
        let requests = written.chunks(16).filter(|action| action[0] == 1).count();
        assert_eq!(requests as u64, recorded.requests, "{recorded:?}");
        let mut log = written;
        assert!(log.len() <= recorded.log_capacity as usize, "{recorded:?}");
        log.resize(recorded.log_capacity as usize, FILL);
        assert_eq!(adler(&log), recorded.log_sum, "{recorded:?}");
    }
}

#[test]
fn no_outcomes() {
    let first_request = [1, 0, 1, 0, 3, 0, 0, 0, 0x80, 6, 0, 1, 0, 0, 0x12, 0];
    assert_eq!(busrun(&[], "no_outcomes"), (first_request.to_vec(), 0));
}

/// The front of an attach: two device descriptors, SetAddress and the 9 bytes
/// of a configuration, whose outcome ends at byte `end`. The first outcome is
/// long; 18 of its bytes are delivered, the others passed over.
fn input_to(end: usize) -> Vec<u8> {
    let mut device = DEVICE.to_vec();
    device.resize(end - 4 - 4 - 22 - 13, 0);
    let script = Script::new().gives(&device).done().gives(&DEVICE);
    let input = script.gives(&KEYBOARD_CONFIGURATION[..9]).0;
    assert_eq!(input.len(), end);
    input
}

/// The setup bytes of the last action.
fn last_setup(log: &[u8]) -> &[u8] {
    &log[log.len() - 8..]
}

#[test]
fn all_of_65_536_bytes_are_read() {
    let (log, read) = busrun(&input_to(MOST_INPUT), "whole");
    // four requests and a wait, then the whole configuration, 34 bytes of it
    assert_eq!((log.len(), read), (6 * 16, MOST_INPUT as u64));
    assert_eq!(last_setup(&log), [0x80, 6, 0, 2, 0, 0, 34, 0]);
}

#[test]
fn input_past_65_536_bytes_is_left_unread() {
    for more in [0, 1, 5_000, 200_000] {
        // the outcome of the 9 bytes is not whole: -14
        let mut input = input_to(MOST_INPUT + 1);
        input.resize(MOST_INPUT + 1 + more, 0);
        let (log, read) = busrun(&input, "past");
        assert_eq!((log.len(), read), (5 * 16, MOST_INPUT as u64));
        assert_eq!(last_setup(&log), [0x80, 6, 0, 2, 0, 0, 9, 0]);
    }
}
