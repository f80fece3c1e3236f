//! What the two examples do.
#![allow(
    clippy::arithmetic_side_effects,
    clippy::indexing_slicing,
    clippy::panic,
    clippy::unwrap_used
)]

#[allow(dead_code)]
#[path = "../examples/kernel_glue/main.rs"]
mod kernel_glue;
#[allow(dead_code)]
#[path = "../examples/lsbus.rs"]
mod lsbus;

mod common;

use common::SAMPLE;
use kernel_glue::simulated::Simulated;
use kernel_glue::{drive, is_right, report, start_bench, Start};
use lidrumak::{Action, Actions, Answer, Bus, Device, HubPort};

const SAMPLE_FILE: &str = concat!(
    env!("CARGO_MANIFEST_DIR"),
    "/../samples/bench_start.outcomes"
);

fn lsbus(arguments: &[&str], mut input: &[u8]) -> std::io::Result<(Answer, String)> {
    let arguments: Vec<String> = arguments.iter().map(|word| word.to_string()).collect();
    let mut output = vec![];
    let reply = lsbus::run(&arguments, &mut input, &mut output)?;
    Ok((reply.answer, String::from_utf8(output).unwrap()))
}

#[test]
fn lsbus_prints_the_bench_start() {
    let expected = include_str!("../examples/lsbus.expected").to_string();
    let told = (Answer::Ok, expected);
    assert_eq!(lsbus(&[], SAMPLE).unwrap(), told);
    assert_eq!(lsbus(&[SAMPLE_FILE], &[]).unwrap(), told);
    assert_eq!(lsbus(&["--speed", "0", SAMPLE_FILE], &[]).unwrap(), told);
}

/// The root hub has its place, and no interface yet.
#[test]
fn lsbus_prints_what_a_stopped_call_left() {
    let (answer, text) = lsbus(&[], &[]).unwrap();
    assert_eq!(answer, Answer::OutcomesSpent);
    let expected = "/:  Bus 01.Port 1: Dev 1, Class=root_hub, Driver=lidrumak/0p, 480M\n\
        Dev 1: ID 0000:0000, the root hub, Powered\n\
        outcomes spent, 1 requests\n";
    assert_eq!(text, expected);
}

#[test]
fn lsbus_prints_a_refusal() {
    let told = (Answer::RootSpeed, "root speed, 0 requests\n".to_string());
    assert_eq!(lsbus(&["--speed", "3"], SAMPLE).unwrap(), told);
    assert!(lsbus(&["--speed", "fast"], SAMPLE).is_err());
    assert!(lsbus(&["--help"], SAMPLE).is_err());
    assert!(lsbus(&["no such file"], &[]).is_err());
}

/// Without disturbance: one start, each action of its log performed once. The
/// simulated ports take up to three reads for a reset.
#[test]
fn the_glue_performs_each_action_once() {
    for seed in 0..20 {
        let mut bus = Box::new(Bus::new());
        let mut controller = Simulated::new(seed, 0);
        let log = std::cell::RefCell::new(vec![]);
        let reply = drive(&mut bus, &mut controller, |bus, outcomes, lent| {
            let reply = bus.root_attach(outcomes, lent, 0);
            *log.borrow_mut() = lent.to_vec();
            reply
        });
        assert_eq!(reply.answer, Answer::Ok);
        assert_eq!(reply.requests, controller.transfers);
        assert!((68..=74).contains(&reply.requests));
        assert_eq!(controller.frame_intervals, 3);
        let waits = Actions::new(&log.borrow()).fold(0, |sum, action| match action {
            Action::Wait { microseconds } => sum + u64::from(microseconds),
            _ => sum,
        });
        assert_eq!(controller.microseconds, waits);
        assert_eq!(bus.store().devices().count(), 4);
    }
}

/// Whatever the order in which they were found, the routes are the same.
#[test]
fn the_glue_finds_both_instruments_over_many_seeds() {
    let (mut by_a_scan, mut by_a_change, mut in_other_order) = (0, 0, 0);
    for seed in 0..300 {
        let mut controller = Simulated::new(seed, 40);
        let (text, right) = kernel_glue::run(seed, &mut controller);
        assert!(right, "{text}");
        let lines: Vec<&str> = text.lines().collect();
        assert!(lines[1].starts_with("instrument on 1-2: Dev "), "{text}");
        assert!(lines[2].starts_with("instrument on 1-3.1: Dev "), "{text}");
        let again = kernel_glue::run(seed, &mut Simulated::new(seed, 40));
        assert_eq!(again, (text.clone(), true), "the same seed");
        by_a_scan += u32::from(lines[0].contains(": 1 starts, 1 scans, 0 connection changes, "));
        by_a_change += u32::from(lines[0].contains(": 1 starts, 1 scans, 1 connection changes, "));
        in_other_order += u32::from(!lines[1].ends_with("Dev 2"));
    }
    assert!(by_a_scan > 0, "a scan found what the first start missed");
    assert!(by_a_change > 0, "a connection change found it");
    assert!(
        in_other_order > 0,
        "the first instrument was not found first"
    );
}

#[test]
fn the_glue_needs_one_start_without_disturbance() {
    let mut bus = Bus::new();
    let mut controller = Simulated::new(1, 0);
    let start = start_bench(&mut bus, &mut controller);
    let [first, second] = [1, 3].map(|place| bus.store().device(place).unwrap());
    assert_eq!(first.port, Some(HubPort { hub: 0, port: 1 }));
    assert_eq!(second.port, Some(HubPort { hub: 2, port: 0 }));
    let expected = Start {
        found: Some([first, second]),
        starts: 1,
        ..Start::default()
    };
    assert_eq!(start, expected);
    assert!(is_right(&controller, &[first, second]));
    assert!(!is_right(&controller, &[first, first]));
    let exchanged = [(first, second), (second, first)].map(|(device, other)| Device {
        port: other.port,
        ..device
    });
    assert!(!is_right(&controller, &exchanged));
    let exchanged = Start {
        found: Some(exchanged),
        ..start
    };
    let (text, right) = report(1, &bus, &exchanged, &controller);
    assert!(!right);
    assert!(
        text.ends_with("\nan instrument is not plugged in there\n"),
        "{text}"
    );
}

#[test]
fn the_glue_misses_an_unplugged_instrument() {
    let mut controller = Simulated::new(1, 0);
    controller.unplug();
    let (text, right) = kernel_glue::run(1, &mut controller);
    assert!(!right);
    assert!(text.ends_with("an instrument is missing\n"), "{text}");
}
