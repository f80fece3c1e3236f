//! When a bus takes the new store, and when it keeps the old one.
#![allow(
    clippy::arithmetic_side_effects,
    clippy::indexing_slicing,
    clippy::panic,
    clippy::unwrap_used
)]

mod common;

use common::{bench_start, gives, outcome, SAMPLE};
use lidrumak::{Action, Actions, Answer, Bus, Reply, Store, TransferError};

static ATTACHED: std::sync::Mutex<Bus> = std::sync::Mutex::new(Bus::new());

fn told(reply: Reply) -> (i32, u64) {
    (reply.answer.number(), reply.requests)
}

/// A bus after the bench start, and its store.
fn started() -> (Box<Bus>, Store) {
    let mut bus = Box::new(Bus::new());
    let mut log = vec![0; 4096];
    assert_eq!(told(bus.root_attach(SAMPLE, &mut log, 0)), (0, 68));
    let store = bus.store().clone();
    (bus, store)
}

#[test]
fn an_ended_call_swaps() {
    let (_, store) = started();
    assert_eq!(store, *bench_start().0);
    assert_eq!(store.devices().count(), 4);
}

#[test]
fn a_static_bus() {
    let mut bus = ATTACHED.lock().unwrap();
    assert_eq!(*bus.store(), Store::EMPTY);
    assert_eq!(told(bus.root_attach(SAMPLE, &mut [0; 4096], 0)), (0, 68));
    assert_eq!(bus.store().devices().count(), 4);
    assert_eq!(size_of::<Bus>(), 2 * 36_864 + 1);
}

/// A failed root attach has ended: the root hub has its place.
#[test]
fn a_failed_call_swaps() {
    let mut bus = Bus::new();
    let timeout = outcome(Answer::Ok, TransferError::Processing);
    assert_eq!(told(bus.root_attach(&timeout, &mut [0; 64], 0)), (-8, 1));
    let root = bus.store().device(0).unwrap();
    assert_eq!((root.number, root.is_configured()), (0, false));
    assert_eq!(told(bus.root_attach(&timeout, &mut [0; 64], 0)), (-4, 0));
    bus.clear();
    assert_eq!(*bus.store(), Store::EMPTY);
    assert_eq!(told(bus.root_attach(&timeout, &mut [0; 64], 0)), (-8, 1));
}

/// Submit code 2 answers -2 as a refusal does, and has ended.
#[test]
fn a_submit_code_of_2_is_no_refusal() {
    let mut bus = Bus::new();
    let argument = outcome(Answer::ErrorArgument, TransferError::NoError);
    assert_eq!(told(bus.root_attach(&argument, &mut [0; 64], 0)), (-2, 1));
    assert_eq!(bus.store().devices().count(), 1);
}

#[test]
fn a_stop_keeps_the_old_store() {
    let mut bus = Bus::new();
    let mut log = vec![0; 4096];
    for length in [0, 3, 21, 22, 100, 675] {
        let reply = bus.root_attach(&SAMPLE[..length], &mut log, 0);
        assert_eq!(reply.answer, Answer::OutcomesSpent, "{length} bytes");
        assert_eq!(*bus.store(), Store::EMPTY);
    }
    let garbled = [10, 0, 0, 0];
    assert_eq!(told(bus.root_attach(&garbled, &mut log, 0)), (-13, 1));
    assert_eq!(told(bus.root_attach(SAMPLE, &mut log[..15], 0)), (-15, 0));
    assert_eq!(told(bus.root_attach(SAMPLE, &mut log[..16], 0)), (-15, 1));
    assert_eq!(*bus.store(), Store::EMPTY);
    assert_eq!(told(bus.root_attach(SAMPLE, &mut log, 0)), (0, 68));
    assert_eq!(*bus.store(), *bench_start().0);
}

/// One byte more each time: the logs are prefixes of the whole call's.
#[test]
fn a_repeated_call_goes_further() {
    let (_, whole, _) = bench_start();
    let whole: Vec<Action> = Actions::new(&whole).collect();
    let mut bus = Bus::new();
    let mut log = vec![0; 4096];
    for length in 0..SAMPLE.len() {
        bus.root_attach(&SAMPLE[..length], &mut log, 0);
        let actions: Vec<Action> = Actions::new(&log).collect();
        assert!(whole.starts_with(&actions));
        assert!(actions.last().unwrap().request().is_some());
    }
}

#[test]
fn a_refusal_keeps_the_old_store_and_logs_nothing() {
    let (mut bus, store) = started();
    let outcomes = gives(&[&[0, 1, 0, 0][..]; 30]);
    let mut log = [7; 64];
    let refused = [
        bus.root_attach(&outcomes, &mut log, 0),
        bus.root_attach(&outcomes, &mut log, 3),
        bus.root_attach(&outcomes, &mut log, 4),
        bus.scan(&outcomes, &mut log, 1),
        bus.scan(&outcomes, &mut log, 32),
        bus.port_check(&outcomes, &mut log, 0, 10),
        bus.port_check(&outcomes, &mut log, 4, 0),
        bus.child_reset(&outcomes, &mut log, 0, 4),
        bus.child_reset(&outcomes, &mut log, 0, 3),
        bus.child_check(&outcomes, &mut log, 0, 256),
        bus.retried_reset(&outcomes, &mut log, 0, 10),
        bus.connection_change(&outcomes, &mut log, 3, 0),
    ];
    let numbers = refused.map(told);
    assert_eq!(numbers[..3], [(-4, 0), (-4, 0), (-2, 0)]);
    assert!(numbers[3..].iter().all(|told| *told == (-2, 0)));
    assert_eq!(*bus.store(), store);
    assert_eq!(log, [0; 64], "the bus has cleared it");
}

#[test]
fn root_speed_3_is_refused() {
    let mut bus = Bus::new();
    assert_eq!(told(bus.root_attach(SAMPLE, &mut [0; 64], 3)), (-12, 0));
    assert_eq!(*bus.store(), Store::EMPTY);
}

#[test]
fn a_damaged_store_is_kept() {
    let (mut bus, _) = started();
    bus.store_mut().as_bytes_mut()[127] = 1;
    let damaged = bus.store().clone();
    let mut log = [0; 64];
    assert_eq!(told(bus.scan(&[], &mut log, 0)), (-16, 0));
    assert_eq!(told(bus.root_attach(&[], &mut log, 3)), (-16, 0));
    assert_eq!(*bus.store(), damaged);
}

/// The root hub's ports and, after its third, those of the hub on it.
#[test]
fn a_scan_reads_every_port() {
    let (mut bus, before) = started();
    let empty: &[u8] = &[0, 1, 0, 0];
    let full: &[u8] = &[3, 1, 0, 0];
    let high: &[u8] = &[3, 5, 0, 0];
    let outcomes = gives(&[empty, full, high, full, empty, empty]);
    let mut log = [0; 256];
    assert_eq!(told(bus.scan(&outcomes, &mut log, 0)), (0, 6));
    let requests = Actions::new(&log).filter_map(Action::request);
    let read: Vec<(u8, u16)> = requests
        .map(|request| (request.address, request.index()))
        .collect();
    assert_eq!(read, [(1, 1), (1, 2), (1, 3), (3, 1), (3, 2), (1, 4)]);
    assert!(bus.store().devices().eq(before.devices()));
    assert_eq!(told(bus.scan(&outcomes, &mut log, 2)), (0, 2));
}

/// Each method makes the call of its name: the first request tells them apart.
#[test]
fn the_calls_on_one_device() {
    let (bus, _) = started();
    let first = |call: fn(&mut Bus, &mut [u8]) -> Reply| {
        let (mut bus, mut log) = (bus.clone(), [0; 64]);
        assert_eq!(told(call(&mut bus, &mut log)), (-14, 1));
        let request = Actions::new(&log).find_map(Action::request).unwrap();
        (Actions::new(&log).count(), request.setup)
    };
    let status = [0xa3, 0, 0, 0, 2, 0, 4, 0];
    let clear_reset_change = [0x23, 1, 20, 0, 2, 0, 0, 0];
    let reset = [0x23, 3, 4, 0, 2, 0, 0, 0];
    assert_eq!(
        first(|bus, log| bus.port_check(&[], log, 0, 1)),
        (1, status)
    );
    assert_eq!(
        first(|bus, log| bus.child_check(&[], log, 0, 1)),
        (1, status)
    );
    assert_eq!(
        first(|bus, log| bus.child_reset(&[], log, 0, 1)),
        (1, clear_reset_change)
    );
    assert_eq!(
        first(|bus, log| bus.retried_reset(&[], log, 0, 1)),
        (1, reset)
    );
    assert_eq!(
        first(|bus, log| bus.connection_change(&[], log, 0, 1)),
        (2, status)
    );
}
