//! Rules of the bus that no test of facts.rs shows, run on the original.
//! Expected values are worked out from document 01.
#![cfg(have_original)]

mod common;
use common::*;

use reference::call::Entry;
use reference::layout::*;
use reference::script::*;

/// Two ports; port 0 finds a device whose status read after the allocation
/// fails, port 1 is empty.
#[test]
fn a_child_whose_status_read_after_allocation_fails_stays() {
    let script = hub_attach(2, 1)
        .gives(&port(HIGH, 1))
        .then(connection_reset(HIGH))
        .outcome(4, 0, &[])
        .gives(&port(POWERED, 0));
    let run = root_attach(0, script);
    // 12 of the hub's attach with its two ports' power, a check of each port,
    // and the change: 7 up to the end of the reset, and the failed read
    assert_eq!((run.answer(), run.report.requests), (0, 12 + 2 + 8));
    assert_eq!(run.place(0)[CHILDREN..][..2], [2, 0]);
    // number 2, full speed, attached, no configuration, port 0, parent 0, no hub
    assert_eq!(run.place(1)[..8], [1, 2, 1, 0, 0xff, 0, 0, 0]);
}

/// Classes 4 and 12 are listed by no enum of the original; 9 is the hub's.
#[test]
fn the_other_classes_attach_well_and_make_no_hub() {
    for class in [0, 1, 2, 3, 5, 6, 7, 8, 10, 11, 13, 14, 15, 16, 0xff] {
        let mut configuration = KEYBOARD_CONFIGURATION;
        configuration[9 + 5] = class;
        let run = root_attach(0, attach(&configuration));
        assert_eq!((run.answer(), run.report.requests), (0, 6), "class {class}");
        assert_eq!((run.place(0)[STATUS], run.place(0)[HUB]), (4, 0));
    }
}

/// A child at the last port is reset; one past MaxChildren is not.
#[test]
fn a_child_reset_tests_the_port_counted_from_0() {
    let script = hub_attach(2, 1)
        .gives(&port(POWERED, 0))
        .then(found_device(HIGH))
        .then(attach(&KEYBOARD_CONFIGURATION));
    let old = root_attach(0, script).new;
    assert_eq!((old[CHILDREN + 1], old[MAX_CHILDREN]), (2, 2));
    let reset = Script::new().done_times(2).gives(&port(HIGH, 0x10)).done();
    let run = run_call(Entry::ChildReset, 0, 1, &old, reset);
    assert_eq!((run.answer(), run.report.requests), (0, 4));
    assert_eq!(run.waits(), [50_000, 10_000]);

    let mut fewer = old;
    fewer[MAX_CHILDREN] = 1;
    let run = run_call(Entry::ChildReset, 0, 1, &fewer, Script::new());
    assert_eq!((run.answer(), run.report.requests), (-2, 0));
    assert!(!run.report.refused);
}
