//! The lines of document 01's bench table that are calls.

use reference::call::Entry;
use reference::script::*;

use crate::logs::*;
use crate::stores::*;
use crate::Row;

pub fn rows() -> Vec<Row> {
    [
        first_request(),
        waits(),
        port_counts(),
        requests(),
        child_resets(),
    ]
    .into_iter()
    .flatten()
    .collect()
}

fn first_request() -> Vec<Row> {
    let request = [
        0x01, 0x00, 0x01, 0x00, 0x03, 0x00, 0x00, 0x00, 0x80, 0x06, 0x00, 0x01, 0x00, 0x00, 0x12,
        0x00,
    ];
    let failing = |name, code, error, answer| {
        Row::root_attach(name)
            .given(Script::new().outcome(code, error, &[]))
            .answers(answer, 1)
            .logs(&[vec![request]])
            .leaves(fresh_root(0).transfer(0, error.into(), 0))
    };
    vec![
        Row::root_attach("no outcomes")
            .answers(-14, 1)
            .logs(&[vec![request]])
            .leaves(fresh_root(0)),
        failing("error 31", 0, 31, -8),
        failing("error 1", 0, 1, -4),
        failing("submit 5, error 31", 5, 31, -5),
    ]
}

/// A root hub of one empty port: 10 requests, its power and its check.
fn waits() -> Vec<Row> {
    let row = |name, delay, microseconds| {
        Row::root_attach(name)
            .given(hub_attach(1, delay).gives(&port(POWERED, 0)))
            .answers(0, 12)
            .logs(&[hub_attached(1, 1, microseconds), checks(1, 1)])
            .leaves(Store::empty().hub(0, 1, delay))
    };
    vec![
        row("PowerGoodDelay 0", 0, 100_000),
        row("PowerGoodDelay 1", 1, 2_000),
        row("PowerGoodDelay 255", 255, 510_000),
    ]
}

/// Ten ports are powered and checked, also where the hub has eleven.
fn port_counts() -> Vec<Row> {
    let row = |name, ports| {
        Row::root_attach(name)
            .given(hub_attach(ports, 1).gives_times(10, &port(POWERED, 0)))
            .answers(0, 30)
            .logs(&[hub_attached(1, 10, 2_000), checks(1, 10)])
            .leaves(Store::empty().hub(0, ports, 1))
    };
    vec![row("PortCount 10", 10), row("PortCount 11", 11)]
}

fn requests() -> Vec<Row> {
    let power = [1, 1, 0, 0, 3, 0, 0, 0, 0x23, 3, 8, 0, 1, 0, 0, 0];
    let status = [1, 1, 1, 0, 3, 0, 0, 0, 0xa3, 0, 0, 0, 0x0a, 0, 4, 0];
    let hub = at(1).send_all(&[get_hub_descriptor(2), get_hub_descriptor(9), GET_HUB_STATUS]);
    vec![
        // stops at the power request
        Row::root_attach("power on port 0")
            .given(hub_before_power(1, 1))
            .answers(-14, 10)
            .logs(&[attached(1, &HUB_CONFIGURATION), hub, vec![power]])
            .leaves(root(1).port(0, 0, 0, 0)),
        Row::new("status of port 9", Entry::PortCheck, [0, 9], &root(1))
            .given(Script::new().gives(&port(POWERED, 0)))
            .answers(0, 1)
            .logs(&[vec![status]])
            .leaves(root(1).port(0, 9, POWERED, 0)),
    ]
}

/// The first clear and the reset, 21 reads with 50,000 µs before each, the
/// last clear; 10,000 µs only where the change was seen.
fn child_resets() -> Vec<Row> {
    let old = root_and_keyboard(1);
    let read = [wait(50_000), at(1).sends(status_of(0))];
    let log = [
        at(1).send_all(&[clear(RESET_CHANGE, 0), set(RESET, 0)]),
        read.repeat(21),
        at(1).send_all(&[clear(RESET_CHANGE, 0)]),
    ];
    vec![
        Row::new(
            "child reset, only read 21 shows the change",
            Entry::ChildReset,
            [0, 1],
            &old,
        )
        .given(late_reset(port(HIGH, 0x10)))
        .answers(0, 24)
        .logs(&[log.concat(), vec![wait(10_000)]])
        .leaves(old.clone().port(0, 0, HIGH, 0x10).transfer(0, 0, 0)),
        Row::new(
            "child reset, no read shows the change",
            Entry::ChildReset,
            [0, 1],
            &old,
        )
        .given(late_reset(port(0x111, 0)))
        .answers(-8, 24)
        .logs(&[log.concat()])
        .leaves(old.clone().port(0, 0, 0x111, 0).transfer(0, 0, 0)),
    ]
}
