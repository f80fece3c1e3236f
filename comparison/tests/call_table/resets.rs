//! Child resets (`HubPortReset2`) and retried resets (`HubPortReset`), on port 0
//! of the root.

use reference::call::Entry;
use reference::layout::*;
use reference::script::*;

use crate::logs::*;
use crate::stores::*;
use crate::Row;

pub fn rows() -> Vec<Row> {
    [
        child_resets(),
        failures(),
        children(),
        retried(),
        tries(),
        retried_failures(),
    ]
    .into_iter()
    .flatten()
    .collect()
}

fn child_reset(name: &'static str) -> Row {
    Row::new(name, Entry::ChildReset, [0, 1], &root_and_keyboard(1))
}

/// The keyboard's port after a read of this status and a last clear.
fn left(status: u16, change: u16) -> Store {
    root_and_keyboard(1)
        .port(0, 0, status, change)
        .transfer(0, 0, 0)
}

fn child_resets() -> Vec<Row> {
    let seen = |script: Script| script.done().gives(&port(HIGH, 0x10));
    let not_waited = reset(at(1), 0)[..5].to_vec();
    vec![
        child_reset("a child reset")
            .given(seen(Script::new().done()).done())
            .answers(0, 4)
            .logs(&[reset(at(1), 0)])
            .leaves(left(HIGH, 0x10)),
        child_reset("the first clear's code is ignored")
            .given(seen(Script::new().outcome(3, 0, &[])).done())
            .answers(0, 4)
            .logs(&[reset(at(1), 0)])
            .leaves(left(HIGH, 0x10)),
        child_reset("the last clear fails")
            .given(seen(Script::new().done()).outcome(6, 0, &[]))
            .answers(-6, 4)
            .logs(&[not_waited])
            .leaves(left(HIGH, 0x10)),
    ]
}

fn failures() -> Vec<Row> {
    let hub = at(1);
    let requests = || hub.send_all(&[clear(RESET_CHANGE, 0), set(RESET, 0)]);
    let read = [wait(50_000), hub.sends(status_of(0))];
    let twice = Script::new().done_times(2);
    vec![
        child_reset("the reset request fails")
            .given(Script::new().done().outcome(0, 1, &[]))
            .answers(-4, 2)
            .logs(&[requests()])
            .leaves(root_and_keyboard(1).transfer(0, 1, 0)),
        child_reset("a read of a reset fails")
            .given(twice.clone().gives(&port(0x111, 0)).outcome(7, 0, &[]))
            .answers(-7, 4)
            .logs(&[requests(), read.repeat(2)])
            .leaves(left(0x111, 0)),
        child_reset("a read of a reset is short")
            .given(twice.clone().gives(&[0x11, 1, 0x10]))
            .answers(-4, 3)
            .logs(&[requests(), read.to_vec()])
            .leaves(left(0x111, 0x10).transfer(0, 0, 3)),
        child_reset("a last clear that fails wins over the timeout")
            .given(twice.gives_times(21, &port(0x111, 0)).outcome(6, 0, &[]))
            .answers(-6, 24)
            .logs(&[
                requests(),
                read.repeat(21),
                hub.send_all(&[clear(RESET_CHANGE, 0)]),
            ])
            .leaves(left(0x111, 0)),
    ]
}

/// A used place that is not this hub's child is -2, no entry refusal: the new
/// store is the old one. The child's port, counted from 0, is tested.
fn children() -> Vec<Row> {
    let row =
        |name, numbers, old: &Store| Row::new(name, Entry::ChildReset, numbers, old).answers(-2, 0);
    let orphan = root_and_keyboard(1).put(1, PORT_NUMBER, &[0, 0]);
    let second = root(2).port(0, 1, HIGH, 0).keyboard(1).child(0, 1, 1);
    let fewer = second.clone().put(0, MAX_CHILDREN, &[1]);
    let given = Script::new().done_times(2).gives(&port(HIGH, 0x10)).done();
    vec![
        row("a child reset of the hub itself", [0, 0], &root_and_hub()),
        row(
            "a child reset of the hub's own hub",
            [1, 0],
            &root_and_hub(),
        ),
        row("a child reset of a hub by itself", [1, 1], &root_and_hub()),
        row("a child reset of a child with parent 0", [0, 1], &orphan),
        row("a child reset past MaxChildren", [0, 1], &fewer),
        row("a child reset of the last port", [0, 1], &second)
            .given(given)
            .answers(0, 4)
            .logs(&[reset(at(1), 1)])
            .leaves(second.clone().port(0, 1, HIGH, 0x10).transfer(0, 0, 0)),
    ]
}

fn retried_reset(name: &'static str) -> Row {
    Row::new(name, Entry::RetriedReset, [0, 0], &root(1))
}

/// One try of so many reads, 20,000 µs before each.
fn one_try(reads: usize) -> Vec<Action> {
    let read = [wait(20_000), at(1).sends(status_of(0))];
    [vec![at(1).sends(set(RESET, 0))], read.repeat(reads)].concat()
}

fn both_clears() -> Vec<Action> {
    at(1).send_all(&[clear(RESET, 0), clear(RESET_CHANGE, 0)])
}

fn retried() -> Vec<Row> {
    let read = |status, change| Script::new().done().gives(&port(status, change));
    let again = || read(0x101, 0x10);
    let found = |status, change| root(1).port(0, 0, status, change);
    let row = |name, status, change| {
        retried_reset(name)
            .given(read(status, change))
            .answers(-4, 2)
            .logs(&[one_try(1)])
            .leaves(found(status, change))
    };
    vec![
        retried_reset("enabled ends the reads, both clears are ignored")
            .given(read(0x103, 0).outcome(3, 0, &[]).outcome(0, 1, &[]))
            .answers(0, 4)
            .logs(&[one_try(1), both_clears()])
            .leaves(found(0x103, 0).transfer(0, 1, 0)),
        row("a retried reset, not connected", 0x102, 0),
        row("a retried reset, a connection change", 0x103, 1),
        row("a retried reset, both changes", 0x101, 0x11),
        // the change ends the reads, but only an enabled port ends the tries
        retried_reset("three tries of one read")
            .given(again().then(again()).then(again()).done_times(2))
            .answers(0, 8)
            .logs(&[one_try(1), one_try(1), one_try(1), both_clears()])
            .leaves(found(0x101, 0x10).transfer(0, 0, 0)),
        retried_reset("enabled in the second try")
            .given(again().then(read(0x103, 0x10)).done_times(2))
            .answers(0, 6)
            .logs(&[one_try(1), one_try(1), both_clears()])
            .leaves(found(0x103, 0x10).transfer(0, 0, 0)),
    ]
}

/// A change seen in the tenth read counts as not seen; connection is not
/// tested then.
fn tries() -> Vec<Row> {
    let reads = |before, status, change| {
        let script = Script::new().done().gives_times(before, &port(0x101, 0));
        script.gives(&port(status, change))
    };
    let tenth = || reads(9, 0x100, 0x11);
    let never = || reads(9, 0x101, 0);
    let enabled = reads(9, 0x103, 0x10).then(reads(0, 0x103, 0));
    vec![
        retried_reset("a change seen only in the tenth read, three times")
            .given(tenth().then(tenth()).then(tenth()).done_times(2))
            .answers(0, 35)
            .logs(&[one_try(10), one_try(10), one_try(10), both_clears()])
            .leaves(root(1).port(0, 0, 0x100, 0x11).transfer(0, 0, 0)),
        retried_reset("a change never seen, three times")
            .given(never().then(never()).then(never()).done_times(2))
            .answers(0, 35)
            .logs(&[one_try(10), one_try(10), one_try(10), both_clears()])
            .leaves(root(1).port(0, 0, 0x101, 0).transfer(0, 0, 0)),
        retried_reset("a change seen in the ninth read")
            .given(reads(8, 0x100, 0x11))
            .answers(-4, 10)
            .logs(&[one_try(9)])
            .leaves(root(1).port(0, 0, 0x100, 0x11)),
        retried_reset("enabled in the tenth read, another try")
            .given(enabled.done_times(2))
            .answers(0, 15)
            .logs(&[one_try(10), one_try(1), both_clears()])
            .leaves(root(1).port(0, 0, 0x103, 0).transfer(0, 0, 0)),
    ]
}

fn retried_failures() -> Vec<Row> {
    let again = Script::new().done().gives(&port(0x101, 0x10));
    vec![
        Row::new(
            "a retried reset of port 9",
            Entry::RetriedReset,
            [0, 9],
            &root(1),
        )
        .answers(-14, 1)
        .logs(&[at(1).send_all(&[set(RESET, 9)])]),
        retried_reset("a retried reset whose request fails")
            .given(Script::new().outcome(5, 0, &[]))
            .answers(-5, 1)
            .logs(&[one_try(0)])
            .leaves(root(1).transfer(0, 0, 0)),
        retried_reset("a retried reset whose second request fails")
            .given(again.clone().outcome(0, 31, &[]))
            .answers(-8, 3)
            .logs(&[one_try(1), one_try(0)])
            .leaves(root(1).port(0, 0, 0x101, 0x10).transfer(0, 31, 0)),
        retried_reset("a retried reset whose read fails")
            .given(again.done().outcome(7, 0, &[]))
            .answers(-7, 4)
            .logs(&[one_try(1), one_try(1)])
            .leaves(root(1).port(0, 0, 0x101, 0x10).transfer(0, 0, 0)),
        retried_reset("a retried reset whose read is short")
            .given(Script::new().done().gives(&[3, 1]))
            .answers(-4, 2)
            .logs(&[one_try(1)])
            .leaves(root(1).port(0, 0, 0x103, 0).transfer(0, 0, 2)),
    ]
}
