//! The rules of a sound store: each broken in one place, and what they leave
//! free. A scan of a hub that is told to have no ports does nothing.

use reference::call::Entry;
use reference::layout::*;

use crate::stores::*;
use crate::Row;

/// A root hub of two ports, a keyboard on the first, a hub on the second.
fn three() -> Store {
    root_and_keyboard(2).hub(2, 1, 1).child(0, 1, 2)
}

pub fn rows() -> Vec<Row> {
    let mut rows = damages();
    rows.extend(trees());
    rows.extend(free());
    rows
}

fn damaged(name: &'static str, store: Store) -> Row {
    Row::new(name, Entry::Scan, [0, 0], &store).refused(-16)
}

fn damages() -> Vec<Row> {
    let broken = |name, at, field, byte: u8| damaged(name, three().put(at, field, &[byte]));
    vec![
        broken("used is 2", 1, USED, 2),
        broken("an unused place with a byte", 3, NUMBER, 4),
        broken("an unused place with a last byte", 31, PLACE - 1, 1),
        broken("speed 3", 1, SPEED, 3),
        broken("status 5", 2, STATUS, 5),
        broken("hub 3", 2, HUB, 3),
        broken("error bit 0", 0, ERROR, 1),
        broken("two error bits", 0, ERROR, 6),
        broken("error bit 10", 1, ERROR + 1, 4),
        broken("error bit 30", 1, ERROR + 3, 0x40),
        broken("another's number", 1, NUMBER, 3),
        broken("MaxChildren 11", 2, MAX_CHILDREN, 11),
        broken("hub 0 with a descriptor byte", 1, HUB_DESCRIPTOR, 1),
        broken("hub 0 with a hub status", 1, HUB_STATUS, 1),
        broken("hub 0 with a port status", 1, PORT_STATUSES + 39, 1),
        broken("hub 0 with MaxChildren", 1, MAX_CHILDREN, 1),
        broken("hub 1 with a descriptor", 2, HUB, 1),
        broken("byte 107", 0, MAX_CHILDREN + 1, 1),
        broken("byte 127", 1, RECORD - 1, 1),
        broken("byte 1,096", 0, RECORD_END, 1),
        broken("byte 1,151", 2, PLACE - 1, 1),
    ]
}

fn trees() -> Vec<Row> {
    let broken = |name, at, field, byte: u8| damaged(name, three().put(at, field, &[byte]));
    let hole = root_and_keyboard(2).hub(3, 1, 1).child(0, 1, 3);
    let own_child = three().put(0, CHILDREN + 1, &[0]).child(2, 0, 2);
    let upward = Store::empty()
        .hub(0, 2, 1)
        .keyboard(1)
        .hub(2, 1, 1)
        .child(0, 1, 2)
        .child(2, 0, 1);
    let of_keyboard = three().put(0, CHILDREN + 1, &[0]).put(1, CHILDREN, &[3]);
    let of_two = root(2)
        .hub(1, 1, 1)
        .child(0, 0, 1)
        .hub(2, 1, 1)
        .child(0, 1, 2)
        .keyboard(3)
        .child(1, 0, 3)
        .put(2, CHILDREN, &[4]);
    vec![
        broken("place 1 is nobody's child", 0, CHILDREN, 0),
        broken("place 0 is a child", 2, CHILDREN, 1),
        broken("a child twice", 0, CHILDREN + 9, 2),
        damaged("a child of two hubs", of_two),
        broken("an unused child", 0, CHILDREN + 9, 4),
        broken("child 33", 0, CHILDREN + 9, 33),
        broken("place 0 has a parent", 0, PARENT, 1),
        broken("another parent", 1, PARENT, 3),
        broken("another port", 1, PORT_NUMBER, 1),
        damaged("an unused place before a used one", hole),
        damaged("its own child", own_child),
        damaged("a child before its hub", upward),
        damaged("a child of what is no hub", of_keyboard),
    ]
}

/// Sound stores: the scan answers 0 and sends nothing, since the hub that it
/// is given has MaxChildren 0.
fn free() -> Vec<Row> {
    let three = || three().put(0, MAX_CHILDREN, &[0]);
    let sound = |name, store: Store| Row::new(name, Entry::Scan, [0, 0], &store);
    let mut rows = vec![
        sound("children past MaxChildren", three()),
        sound(
            "place 0's port is free",
            three().put(0, PORT_NUMBER, &[200]),
        ),
        sound("number 0", three().put(1, NUMBER, &[0])),
        sound(
            "with parent 0 the port is free",
            three().put(1, PORT_NUMBER, &[99, 0]),
        ),
        sound(
            "hub 1 with MaxChildren 10",
            three()
                .put(2, HUB, &[1])
                .put(2, HUB_DESCRIPTOR, &[0; 9])
                .put(2, MAX_CHILDREN, &[10]),
        ),
        sound(
            "configuration index 99",
            three().put(1, CONFIGURATION_INDEX, &[99]),
        ),
        sound(
            "last transfer 2^32 - 1",
            three().put(1, LAST_TRANSFER, &[255; 4]),
        ),
    ];
    for bit in [1, 9, 31] {
        let name = format!("error bit {bit}");
        let store = three().transfer(2, bit, 7);
        rows.push(Row::new(name, Entry::Scan, [0, 0], &store));
    }
    rows
}
