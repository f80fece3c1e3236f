//! The C header: its example, a program that makes each of its calls, its
//! numbers; and what the library needs of a linker.
#![allow(
    clippy::expect_used,
    clippy::indexing_slicing,
    clippy::panic,
    clippy::unwrap_used
)]

mod common;

use std::io::Write;
use std::path::PathBuf;
use std::process::{Command, Stdio};

use common::{bench_start, gives, Random, SAMPLE};
use lidrumak::*;

const ROOT: &str = concat!(env!("CARGO_MANIFEST_DIR"), "/..");
const LIBRARY: &str = concat!(env!("LIDRUMAK_FOLDER"), "/liblidrumak.a");

/// The program that a C file of the repository makes.
fn compiled(file: &str, name: &str) -> PathBuf {
    let program = PathBuf::from(env!("CARGO_TARGET_TMPDIR")).join(name);
    let compiled = Command::new("cc")
        .args(["-std=c99", "-Wall", "-Wextra", "-Werror", "-pedantic"])
        .args(["-Iinclude", file, "-o"])
        .arg(&program)
        .arg(LIBRARY)
        .current_dir(ROOT)
        .output()
        .expect("the program cc, a C compiler, is needed for this test");
    let errors = String::from_utf8_lossy(&compiled.stderr);
    assert!(compiled.status.success(), "{errors}");
    program
}

fn run(program: &PathBuf, words: &[String], input: &[u8]) -> (Vec<u8>, Option<i32>) {
    let mut child = Command::new(program)
        .args(words)
        .stdin(Stdio::piped())
        .stdout(Stdio::piped())
        .spawn()
        .unwrap();
    child.stdin.take().unwrap().write_all(input).unwrap();
    let output = child.wait_with_output().unwrap();
    (output.stdout, output.status.code())
}

#[test]
fn the_example_attaches_the_bench_start() {
    let program = compiled("examples/c/attach.c", "attach");
    let (text, status) = run(&program, &[], SAMPLE);
    assert_eq!(text, b"answer 0, 68 requests\n");
    assert_eq!(status, Some(0));
    let (text, status) = run(&program, &[], &[]);
    assert_eq!(text, b"answer -14, 1 requests\n");
    assert_eq!(status, Some(1));
}

type Call = fn(&[u8], &mut [u8], &[u8], &mut [u8], u32, u32) -> Reply;

const CALLS: [(&str, Call); 7] = [
    ("root_attach", |old, new, outcomes, log, speed, _| {
        root_attach(old, new, outcomes, log, speed)
    }),
    ("scan", |old, new, outcomes, log, hub, _| {
        scan(old, new, outcomes, log, hub)
    }),
    ("port_check", port_check),
    ("child_reset", child_reset),
    ("child_check", child_check),
    ("retried_reset", retried_reset),
    ("connection_change", connection_change),
];

/// What the program in C prints of a call; the crate's reply, store and log are
/// the same.
fn told(program: &PathBuf, (name, call): (&str, Call), input: &Input) -> Vec<u8> {
    let (old, outcomes, first, second) = input;
    let words = [name.to_string(), first.to_string(), second.to_string()];
    let (told, status) = run(program, &words, &[&old[..], outcomes].concat());
    assert_eq!(status, Some(0), "{words:?}");
    let mut new = vec![0; STORE_LENGTH];
    let mut log = vec![0; 4096];
    let reply = call(old, &mut new, outcomes, &mut log, *first, *second);
    let line = format!("{} {}\n", reply.answer.number(), reply.requests);
    let expected = [line.as_bytes(), &new, &log].concat();
    assert!(told == expected, "{words:?}: not {}", line.trim_end());
    told
}

/// Old store, outcomes and two numbers.
type Input = (Vec<u8>, Vec<u8>, u32, u32);

fn inputs() -> Vec<Input> {
    let (bench, _, _) = bench_start();
    let bench = bench.as_bytes().to_vec();
    let empty = Store::EMPTY.as_bytes().to_vec();
    let mut damaged = bench.clone();
    damaged[127] = 1;
    let status: &[u8] = &[3, 1, 16, 0];
    let statuses = gives(&[status; 40]);
    let garbled = vec![0, 10, 0, 0];
    vec![
        (empty, SAMPLE.to_vec(), 0, 1),
        (damaged, SAMPLE.to_vec(), 0, 1),
        (bench.clone(), statuses.clone(), 0, 1),
        (bench.clone(), statuses.clone(), 0, 3),
        (bench.clone(), statuses.clone(), 2, 3),
        (bench.clone(), statuses, 0, u32::MAX),
        (bench.clone(), garbled, 2, 0),
        (bench, vec![], 0, 1),
    ]
}

#[test]
fn each_call_from_c_is_the_call_from_rust() {
    let program = compiled("rust/tests/c_calls/calls.c", "calls");
    let inputs = inputs();
    let told = CALLS.map(|call| {
        let told = inputs.iter().map(|input| told(&program, call, input));
        told.collect::<Vec<_>>()
    });
    assert!(told[0][0].starts_with(b"0 68\n"));
    for (at, one) in told.iter().enumerate() {
        assert!(!told[..at].contains(one), "two calls are told apart");
    }
}

#[test]
fn the_walk_from_c_is_the_walk_from_rust() {
    let program = compiled("rust/tests/c_calls/calls.c", "calls_walk");
    let mut random = Random(8);
    let mut answers = vec![];
    for length in [0, 9, 34, 34, 34, 34, 60, 65_535, 65_536] {
        let mut descriptors = vec![9, 2, 0, 0, 1, 1, 0, 0x80, 0x32];
        descriptors.extend([9, 4, 7, 0, 1, 3, 0, 0, 0, 7, 5, 0x81, 3, 8, 0, 10]);
        descriptors.extend(random.bytes(9, 6));
        descriptors.resize(length, 0);
        let words = ["configuration_walk".to_string()];
        let (told, status) = run(&program, &words, &descriptors);
        assert_eq!(status, Some(0));
        let mut record = vec![0; RECORD_LENGTH];
        let answer = configuration_walk(&descriptors, &mut record);
        let line = format!("{}\n", answer.number());
        assert_eq!(told, [line.as_bytes(), &record].concat());
        answers.push(answer);
    }
    for answer in [
        Answer::Ok,
        Answer::ErrorArgument,
        Answer::GarbledConfiguration,
    ] {
        assert!(answers.contains(&answer), "{answers:?}");
    }
}

/// What nm lists of the library with this option, without addresses and kinds.
fn symbols(option: &str) -> Vec<String> {
    let listed = Command::new("nm")
        .args([option, "--format=posix", LIBRARY])
        .output()
        .expect("the program nm (of binutils) is needed for this test");
    assert!(listed.status.success(), "nm: {:?}", listed.status);
    let text = String::from_utf8(listed.stdout).unwrap();
    let names = text.lines().filter(|line| !line.ends_with(':'));
    let names = names.filter_map(|line| line.split(' ').next());
    names.map(str::to_string).collect()
}

#[test]
fn the_library_needs_at_most_memcpy_and_memset() {
    let defined = symbols("--defined-only");
    for (name, _) in CALLS.iter().chain(&[("configuration_walk", CALLS[0].1)]) {
        assert!(defined.contains(&format!("lidrumak_{name}")), "{name}");
    }
    let needed = symbols("--undefined-only");
    let needed = needed.iter().filter(|name| !defined.contains(name));
    for name in needed {
        assert!(["memcpy", "memset"].contains(&name.as_str()), "{name}");
    }
}

/// The header's numbers are those of the Rust.
#[test]
fn the_numbers_of_the_header() {
    let header = include_str!("../../include/lidrumak.h");
    let number = |name: &str| {
        let defined = header.lines().find_map(|line| {
            let line = line.trim().trim_start_matches("#define ");
            line.strip_prefix(name)?.strip_prefix([' '])
        });
        let words = defined.unwrap().trim_start_matches("= ");
        let digits = words.split([' ', ',']).next().unwrap();
        digits.parse::<i64>().unwrap()
    };
    assert_eq!(number("LIDRUMAK_STORE_LENGTH"), STORE_LENGTH as i64);
    assert_eq!(number("LIDRUMAK_RECORD_LENGTH"), RECORD_LENGTH as i64);
    assert_eq!(number("LIDRUMAK_ACTION_LENGTH"), ACTION_LENGTH as i64);
    for (name, expected) in [
        ("OK", 0),
        ("ERROR_GENERAL", -1),
        ("ERROR_ARGUMENT", -2),
        ("ERROR_RETRY", -3),
        ("ERROR_DEVICE", -4),
        ("ERROR_INCOMPATIBLE", -5),
        ("ERROR_COMPILER", -6),
        ("ERROR_MEMORY", -7),
        ("ERROR_TIMEOUT", -8),
        ("ERROR_DISCONNECTED", -9),
        ("GARBLED_CONFIGURATION", -10),
        ("BUS_FULL", -11),
        ("ROOT_SPEED", -12),
        ("GARBLED_OUTCOME", -13),
        ("OUTCOMES_SPENT", -14),
        ("LOG_FULL", -15),
        ("STORE_DAMAGED", -16),
    ] {
        assert_eq!(number(&format!("LIDRUMAK_{name}")), expected, "{name}");
    }
}
