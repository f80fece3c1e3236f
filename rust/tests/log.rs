//! The log's actions, on the bench start and on any bytes.
#![allow(
    clippy::arithmetic_side_effects,
    clippy::indexing_slicing,
    clippy::panic,
    clippy::unwrap_used
)]

mod common;

use common::{bench_start, Random};
use lidrumak::{Action, Actions, Direction, Request, Speed};

/// Address and setup bytes of the root hub's first requests.
const FIRST: [(u8, [u8; 8]); 8] = [
    (0, [0x80, 6, 0, 1, 0, 0, 18, 0]),   // device descriptor
    (0, [0x00, 5, 1, 0, 0, 0, 0, 0]),    // SetAddress 1
    (1, [0x80, 6, 0, 1, 0, 0, 18, 0]),   // device descriptor
    (1, [0x80, 6, 0, 2, 0, 0, 9, 0]),    // configuration descriptor
    (1, [0x80, 6, 0, 2, 0, 0, 25, 0]),   // the whole configuration
    (1, [0x00, 9, 1, 0, 0, 0, 0, 0]),    // SetConfiguration 1
    (1, [0xa0, 6, 0, 0x29, 0, 0, 2, 0]), // hub descriptor, its header
    (1, [0xa0, 6, 0, 0x29, 0, 0, 9, 0]), // hub descriptor
];

#[test]
fn the_first_requests_of_the_bench_start() {
    let (_, log, _) = bench_start();
    let requests: Vec<Request> = Actions::new(&log).filter_map(Action::request).collect();
    for (request, (address, setup)) in requests.iter().zip(FIRST) {
        assert_eq!((request.address, request.setup), (address, setup));
        assert_eq!((request.speed, request.packet_size), (Speed::High, 64));
        let expected = if setup[0] & 0x80 == 0 {
            Direction::Out
        } else {
            Direction::In
        };
        assert_eq!(request.direction, expected);
    }
    assert_eq!(requests.len(), 68);
}

/// Waits: 4 addresses of 10 ms; ports powered in 2 ms and in 100 ms; 3
/// connection changes of 300, 50 and 10 ms.
#[test]
fn the_waits_of_the_bench_start() {
    let (_, log, _) = bench_start();
    let waits: Vec<u32> = Actions::new(&log)
        .filter_map(|action| match action {
            Action::Wait { microseconds } => Some(microseconds),
            _ => None,
        })
        .collect();
    assert_eq!(waits.len(), 4 + 2 + 9);
    assert_eq!(waits[..5], [10_000, 2_000, 300_000, 50_000, 10_000]);
    assert_eq!(waits.iter().sum::<u32>(), 40_000 + 102_000 + 3 * 360_000);
    let frames = Actions::new(&log).filter(|action| *action == Action::FrameInterval);
    assert_eq!(frames.count(), 3);
    assert_eq!(Actions::new(&log).count(), 68 + 15 + 3);
}

#[test]
fn a_request_by_its_fields() {
    let bytes = [1, 3, 1, 2, 1, 0, 0, 0, 0xa3, 0, 0x34, 0x12, 10, 0, 4, 1];
    let Some(Action::Request(request)) = Action::from_bytes(&bytes) else {
        panic!("no request");
    };
    assert_eq!((request.address, request.direction), (3, Direction::In));
    assert_eq!((request.speed, request.packet_size), (Speed::Low, 16));
    assert_eq!((request.request_type(), request.request()), (0xa3, 0));
    assert_eq!((request.value(), request.index()), (0x1234, 10));
    assert_eq!(request.length(), 0x104);
}

#[test]
fn bytes_that_are_no_action() {
    let request = [1, 0, 1, 0, 3, 0, 0, 0, 0x80, 6, 0, 1, 0, 0, 18, 0];
    let wait = [2, 0, 0, 0, 0, 0, 0, 0, 0x10, 0x27, 0, 0, 0, 0, 0, 0];
    let frame = [3, 0, 0, 0, 0, 0, 0, 0, 0, 0, 0, 0, 0, 0, 0, 0];
    let wrong = |mut bytes: [u8; 16], at: usize, byte: u8| {
        assert!(Action::from_bytes(&bytes).is_some());
        bytes[at] = byte;
        assert_eq!(Action::from_bytes(&bytes), None, "byte {at} is {byte}");
    };
    for (at, byte) in [
        (0, 0),
        (0, 4),
        (2, 2),
        (3, 3),
        (4, 4),
        (5, 1),
        (6, 1),
        (7, 1),
    ] {
        wrong(request, at, byte);
    }
    for at in [1, 2, 3, 4, 5, 6, 7, 12, 13, 14, 15] {
        wrong(wait, at, 1);
    }
    for at in 1..16 {
        wrong(frame, at, 1);
    }
}

/// Document 01's action, read independently.
fn is_action(bytes: &[u8]) -> bool {
    match bytes[0] {
        1 => bytes[2] < 2 && bytes[3] < 3 && bytes[4] < 4 && bytes[5..8] == [0; 3],
        2 => bytes[1..8] == [0; 7] && bytes[12..] == [0; 4],
        3 => bytes[1..] == [0; 15],
        _ => false,
    }
}

fn to_bytes(action: Action) -> Vec<u8> {
    let mut bytes = vec![0; 16];
    match action {
        Action::Request(request) => {
            let size = request.packet_size.trailing_zeros() as u8 - 3;
            let direction = u8::from(request.direction == Direction::In);
            let speed = request.speed.number();
            bytes[..5].copy_from_slice(&[1, request.address, direction, speed, size]);
            bytes[8..].copy_from_slice(&request.setup);
        }
        Action::Wait { microseconds } => {
            bytes[0] = 2;
            bytes[8..12].copy_from_slice(&microseconds.to_le_bytes());
        }
        Action::FrameInterval => bytes[0] = 3,
    }
    bytes
}

/// A log of which most of the 16 bytes are an action.
fn likely_log(random: &mut Random, length: usize) -> Vec<u8> {
    let mut bytes = random.bytes(length, 256);
    for action in bytes.chunks_mut(16) {
        let kind = 1 + random.below(3) as u8;
        let zeros = match kind {
            1 => 5..8,
            2 => 1..8,
            _ => 1..16,
        };
        for (at, byte) in action.iter_mut().enumerate() {
            match at {
                0 => *byte = kind,
                2..5 if kind == 1 => *byte %= 2,
                12..16 if kind == 2 => *byte = 0,
                _ if zeros.contains(&at) => *byte = 0,
                _ => (),
            }
        }
        if random.below(8) == 0 {
            let at = random.below(action.len());
            action[at] = action[at].wrapping_add(1);
        }
    }
    bytes
}

/// Returns how many actions there were.
fn check(bytes: &[u8]) -> usize {
    let mut log = Actions::new(bytes);
    let whole = bytes.chunks_exact(16);
    let expected: Vec<&[u8]> = whole.take_while(|bytes| is_action(bytes)).collect();
    for bytes in &expected {
        assert_eq!(to_bytes(log.next().unwrap()), *bytes);
    }
    assert_eq!(log.next(), None);
    assert_eq!(log.next(), None, "and nothing after the end");
    expected.len()
}

#[test]
fn any_bytes_are_read_up_to_the_first_that_are_no_action() {
    let mut random = Random(1);
    for length in 0..600 {
        check(&random.bytes(length, 256));
        check(&random.bytes(length, 4));
    }
    let actions: usize = (0..20_000)
        .map(|_| {
            let length = random.below(200);
            check(&likely_log(&mut random, length))
        })
        .sum();
    assert!(actions > 20_000, "{actions} actions");
}
