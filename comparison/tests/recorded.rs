//! The calls and walks that were recorded of the original, run on the port.

use comparison::lent::{Asked, Lent};
use comparison::port::{self, Reply};
use reference::check_sum::adler;
use reference::layout::STORE;
use reference::rules;
use reference::vectors::{recorded_calls, recorded_walks, RecordedCall, FILL};

/// The port's reply to a recorded call on the store that its sequence has.
fn replay(lent: &mut Lent, store: &[u8], recorded: &RecordedCall) -> Reply {
    let old = recorded.old(store);
    let asked = Asked {
        call: recorded.call,
        old: &old,
        new_length: recorded.new_length as usize,
        outcomes: &recorded.outcomes,
        log_capacity: recorded.log_capacity as usize,
    };
    lent.call(&asked, FILL).expect("bytes that must not change")
}

#[test]
fn the_port_answers_calls_as_recorded() {
    let calls = recorded_calls();
    assert_eq!(calls.len(), 4_451);
    let mut lent = Lent::default();
    let mut store = vec![0; STORE];
    for (at, recorded) in calls.iter().enumerate() {
        if recorded.starts {
            store.fill(0);
        }
        let reply = replay(&mut lent, &store, recorded);
        let expected = Reply {
            answer: recorded.answer,
            requests: recorded.requests,
        };
        assert_eq!(reply, expected, "call {at}: {recorded:?}");
        let sums = (adler(lent.log()), adler(lent.new_store()));
        let expected = (recorded.log_sum, recorded.store_sum);
        assert_eq!(sums, expected, "log and store of call {at}: {recorded:?}");
        if recorded.carries {
            store.copy_from_slice(lent.new_store());
        }
    }
}

#[test]
fn the_port_answers_walks_as_recorded() {
    let walks = recorded_walks();
    assert_eq!(walks.len(), 4_000);
    for (at, walk) in walks.iter().enumerate() {
        let mut record = vec![FILL; walk.record_length as usize];
        let mut by_rules = record.clone();
        let answer = port::configuration_walk(&walk.descriptors, &mut record);
        assert_eq!(answer, walk.answer, "walk {at}: {walk:?}");
        assert_eq!(adler(&record), walk.record_sum, "walk {at}: {walk:?}");

        // The rules' record has the recorded sum too, and is known whole.
        rules::configuration_walk(&walk.descriptors, &mut by_rules);
        assert_eq!(adler(&by_rules), walk.record_sum, "walk {at}: {walk:?}");
        assert!(record == by_rules, "walk {at}: {walk:?}");
    }
}
