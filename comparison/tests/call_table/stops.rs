//! Stops: -13 to -15. They end the whole call, and leave what was done so far.

use reference::call::Entry;
use reference::layout::*;
use reference::script::*;

use crate::logs::*;
use crate::stores::*;
use crate::Row;

pub fn rows() -> Vec<Row> {
    [outcomes(), unread(), logs(), waits(), within(), below()]
        .into_iter()
        .flatten()
        .collect()
}

/// Header bytes missing, then garbled, then data missing: nothing is stored.
fn outcomes() -> Vec<Row> {
    let row = |name, outcome: &[u8], answer| {
        Row::root_attach(name)
            .given(Script(outcome.to_vec()))
            .answers(answer, 1)
            .logs(&[at(0).send_all(&[GET_DEVICE])])
            .leaves(fresh_root(0))
    };
    vec![
        row("3 bytes of an outcome", &[0, 0, 0], -14),
        row("3 bytes of a garbled outcome", &[200, 0, 0], -14),
        row("a submit code of 10", &[10, 0, 0, 0], -13),
        row("a submit code of 255", &[255, 0, 0, 0], -13),
        row("an error of 10", &[0, 10, 0, 0], -13),
        row("an error of 30", &[0, 30, 0, 0], -13),
        row("an error of 32", &[0, 32, 0, 0], -13),
        row("a garbled outcome without its data", &[0, 255, 5, 0], -13),
        row("an outcome without its data", &[0, 0, 1, 0], -14),
        row(
            "a failing outcome without its data",
            &[9, 31, 5, 0, 1, 2, 3, 4],
            -14,
        ),
        row(
            "data of 65,535 bytes missing",
            &[0, 0, 255, 255, 18, 1],
            -14,
        ),
    ]
}

/// What follows the last outcome taken is not looked at.
fn unread() -> Vec<Row> {
    let read = Script::new().gives(&DEVICE).outcome(9, 31, &[]);
    let left = Store::empty().addressed(0).put(0, STATUS, &[2]);
    vec![Row::root_attach("unread bytes behind the outcomes")
        .given(read.then(Script(vec![255; 7])))
        .answers(-9, 2)
        .logs(&[at(0).send_all(&[GET_DEVICE, set_address(1)])])
        .leaves(left.transfer(0, 31, 0))]
}

/// An action needs 16 bytes of the log; one that has none is not counted.
fn logs() -> Vec<Row> {
    let row = |name, bytes, requests: usize| {
        let log = at(0).send_all(&[GET_DEVICE, set_address(1)]);
        let left = match requests {
            0 => fresh_root(0),
            _ => Store::empty().addressed(0).state(0, [0, 0, 2]),
        };
        Row::root_attach(name)
            .given(Script::new().gives(&DEVICE).done())
            .log_of(bytes)
            .answers(-15, requests as u64)
            .logs(&[log[..requests].to_vec()])
            .leaves(left)
    };
    let full_first = Row::root_attach("a log of 16 bytes, no outcomes")
        .log_of(16)
        .answers(-14, 1)
        .logs(&[at(0).send_all(&[GET_DEVICE])])
        .leaves(fresh_root(0));
    let change = |name, bytes, log: Vec<Action>| {
        Row::new(name, Entry::ConnectionChange, [0, 0], &root(1))
            .log_of(bytes)
            .answers(-15, 0)
            .logs(&[log])
    };
    vec![
        row("a log of 0 bytes", 0, 0),
        row("a log of 15 bytes", 15, 0),
        row("a log of 16 bytes", 16, 1),
        row("a log of 31 bytes", 31, 1),
        full_first,
        change("no room for the frame interval", 15, vec![]),
        change("room for the frame interval", 16, vec![FRAME_INTERVAL]),
    ]
}

/// Number and status are set after the wait.
fn waits() -> Vec<Row> {
    let row = |name, bytes, actions: usize, left: Store| {
        Row::root_attach(name)
            .given(attach(&KEYBOARD_CONFIGURATION))
            .log_of(bytes)
            .answers(-15, 2)
            .logs(&[addressed(1)[..actions].to_vec()])
            .leaves(left.transfer(0, 0, 0))
    };
    let before = Store::empty().addressed(0).state(0, [0, 0, 2]);
    vec![
        row("no room for the wait after SetAddress", 47, 2, before),
        row(
            "room for the wait after SetAddress",
            48,
            3,
            Store::empty().addressed(0),
        ),
    ]
}

/// A stop is not ignored where a failure would be.
fn within() -> Vec<Row> {
    let hub = [get_hub_descriptor(2), get_hub_descriptor(9), GET_HUB_STATUS];
    let garbled = "a garbled first clear of a reset";
    vec![
        Row::root_attach("a garbled outcome of a power request")
            .given(hub_before_power(2, 1).outcome(10, 0, &[]))
            .answers(-13, 10)
            .logs(&[
                attached(1, &HUB_CONFIGURATION),
                at(1).send_all(&hub),
                at(1).send_all(&[set(POWER, 0)]),
            ])
            .leaves(root(2).port(0, 0, 0, 0).port(0, 1, 0, 0)),
        Row::new(garbled, Entry::ChildReset, [0, 1], &root_and_keyboard(1))
            .given(Script::new().outcome(10, 0, &[]))
            .answers(-13, 1)
            .logs(&[at(1).send_all(&[clear(RESET_CHANGE, 0)])]),
        Row::new("a log full in a scan", Entry::Scan, [0, 0], &root(2))
            .given(Script::new().gives_times(2, &port(POWERED, 0)))
            .log_of(16)
            .answers(-15, 1)
            .logs(&[checks(1, 1)]),
    ]
}

/// 11 requests of the hub's attach, a check, 8 of the change, and 2.
fn below() -> Vec<Row> {
    let found = hub_attach(1, 1).then(found_device(HIGH));
    let left = root(1).port(0, 0, HIGH, 0).addressed(1).child(0, 0, 1);
    vec![Row::root_attach("outcomes spent in a child's attach")
        .given(found.gives(&DEVICE))
        .answers(-14, 22)
        .logs(&[
            hub_attached(1, 1, 2_000),
            checks(1, 1),
            changed_to_status(at(1), 0),
            at(0).send_all(&[GET_DEVICE, set_address(2)]),
        ])
        .leaves(left.state(1, [0, 0, 2]))]
}
