//! The sound store rule by rule, on a store made by hand.

use reference::layout::*;
use reference::sound::is_sound;

/// Place 0 is a hub with places 1 and 2 on its ports 0 and 1; place 1 is a hub
/// without descriptor with place 3 on its port 0.
fn store() -> Vec<u8> {
    let mut store = vec![0; STORE];
    put(
        &mut store,
        0,
        &[
            (USED, 1),
            (NUMBER, 1),
            (STATUS, 4),
            (HUB, 2),
            (MAX_CHILDREN, 2),
        ],
    );
    put(&mut store, 0, &[(CHILDREN, 2), (CHILDREN + 1, 3)]);
    put(
        &mut store,
        1,
        &[
            (USED, 1),
            (NUMBER, 2),
            (PARENT, 1),
            (HUB, 1),
            (MAX_CHILDREN, 1),
        ],
    );
    put(&mut store, 1, &[(CHILDREN, 4)]);
    put(
        &mut store,
        2,
        &[(USED, 1), (NUMBER, 3), (PARENT, 1), (PORT_NUMBER, 1)],
    );
    put(&mut store, 3, &[(USED, 1), (NUMBER, 4), (PARENT, 2)]);
    store
}

fn put(store: &mut [u8], at: usize, bytes: &[(usize, u8)]) {
    for &(field, byte) in bytes {
        store[at * PLACE + field] = byte;
    }
}

/// Whether the store is sound with these bytes of one place changed.
fn with(at: usize, bytes: &[(usize, u8)]) -> bool {
    let mut store = store();
    put(&mut store, at, bytes);
    is_sound(&store)
}

#[test]
fn the_empty_store_and_this_one_are_sound() {
    assert!(is_sound(&vec![0; STORE]));
    assert!(is_sound(&store()));
}

#[test]
fn used_is_0_or_1_and_unused_places_are_zero() {
    assert!(!with(3, &[(USED, 2)]));
    assert!(!with(4, &[(USED, 2)]));
    for field in [NUMBER, CHILDREN, RECORD, PLACE - 1] {
        assert!(!with(4, &[(field, 1)]));
        assert!(!with(31, &[(field, 1)]));
    }
}

#[test]
fn speed_status_and_hub_hold_listed_values() {
    for (field, most) in [(SPEED, 2), (STATUS, 4)] {
        assert!((0..=most).all(|byte| with(2, &[(field, byte)])));
        assert!((most + 1..=255).all(|byte| !with(2, &[(field, byte)])));
    }
    assert!((0..=2).all(|byte| with(3, &[(HUB, byte)])));
    assert!((3..=255).all(|byte| !with(3, &[(HUB, byte)])));
}

#[test]
fn error_is_none_or_one_of_bits_1_to_9_or_31() {
    for bit in 0..32 {
        let word: [u8; 4] = (1u32 << bit).to_le_bytes();
        let bytes: Vec<_> = (0..4).map(|at| (ERROR + at, word[at])).collect();
        assert_eq!(
            with(2, &bytes),
            (1..=9).contains(&bit) || bit == 31,
            "bit {bit}"
        );
    }
    assert!(!with(2, &[(ERROR, 2 | 4)]));
    assert!(!with(2, &[(ERROR, 2), (ERROR + 3, 0x80)]));
}

#[test]
fn number_is_0_or_place_and_1() {
    for number in 0..=255 {
        assert_eq!(with(2, &[(NUMBER, number)]), number == 0 || number == 3);
    }
}

#[test]
fn max_children_is_at_most_10() {
    assert!((0..=10).all(|byte| with(0, &[(MAX_CHILDREN, byte)])));
    assert!((11..=255).all(|byte| !with(0, &[(MAX_CHILDREN, byte)])));
}

#[test]
fn children_are_used_places_also_past_max_children() {
    for port in 2..10 {
        for child in [5, 32, 33, 255] {
            assert!(
                !with(0, &[(CHILDREN + port, child)]),
                "port {port} child {child}"
            );
        }
    }
}

#[test]
fn place_0_is_nobodys_child_and_has_no_parent() {
    assert!(!with(1, &[(CHILDREN + 1, 1)]));
    assert!(!with(0, &[(CHILDREN + 5, 1)]));
    assert!(!with(0, &[(PARENT, 1)]));
    assert!(with(0, &[(PORT_NUMBER, 77)]));
}

#[test]
fn every_other_used_place_is_a_child_exactly_once() {
    assert!(!with(0, &[(CHILDREN + 1, 0)]));
    assert!(!with(0, &[(CHILDREN + 9, 3)]));
    assert!(!with(1, &[(CHILDREN + 9, 3)]));
}

#[test]
fn its_hub_is_at_a_smaller_place() {
    // place 3 on its own port, and place 2 on a port of place 3
    let mut own = store();
    put(&mut own, 1, &[(CHILDREN, 0)]);
    put(&mut own, 3, &[(HUB, 2), (PARENT, 0), (CHILDREN, 4)]);
    assert!(!is_sound(&own));
    let mut later = store();
    put(&mut later, 0, &[(CHILDREN + 1, 0)]);
    put(&mut later, 2, &[(PARENT, 0)]);
    put(&mut later, 3, &[(HUB, 2), (CHILDREN, 3)]);
    assert!(!is_sound(&later));
}

#[test]
fn no_unused_place_stands_before_a_used_one() {
    for (at, sound) in [(4, true), (5, false)] {
        let mut store = store();
        put(&mut store, 0, &[(CHILDREN + 2, at as u8 + 1)]);
        put(&mut store, at, &[(USED, 1)]);
        assert_eq!(is_sound(&store), sound);
    }
}

#[test]
fn parent_is_0_or_that_hub_with_that_port() {
    for parent in 0..=255 {
        assert_eq!(with(3, &[(PARENT, parent)]), parent == 0 || parent == 2);
    }
    for port in 0..=255 {
        assert_eq!(with(2, &[(PORT_NUMBER, port)]), port == 1);
        assert!(with(2, &[(PARENT, 0), (PORT_NUMBER, port)]));
    }
}

#[test]
fn what_a_place_has_no_use_for_is_zero() {
    for field in 43..=106 {
        assert!(!with(2, &[(field, 1)]), "hub 0, byte {field}");
    }
    for field in 43..=51 {
        assert!(!with(1, &[(field, 1)]), "hub 1, byte {field}");
    }
    for field in 52..=95 {
        assert!(with(1, &[(field, 0xff)]), "hub 1, byte {field}");
    }
    for field in 43..=95 {
        assert!(with(0, &[(field, 0xff)]), "hub 2, byte {field}");
    }
    for field in (107..=127).chain(1096..=1151) {
        assert!((0..4).all(|at| !with(at, &[(field, 1)])), "byte {field}");
    }
    for field in [4].into_iter().chain(12..=42).chain(128..=1095) {
        assert!((0..4).all(|at| with(at, &[(field, 0xff)])), "byte {field}");
    }
}
