//! What an action means, on actions written by hand.

use reference::actions::meaning;

fn says(action: [u8; 16], text: &str) {
    assert_eq!(meaning(&action), text);
}

/// A request to address 3 at full speed, with packets of 64.
fn request(setup: [u8; 8]) -> [u8; 16] {
    let mut action = [1, 3, setup[0] >> 7, 1, 3, 0, 0, 0, 0, 0, 0, 0, 0, 0, 0, 0];
    action[8..].copy_from_slice(&setup);
    action
}

#[test]
fn actions_that_are_no_request() {
    let wait = [2, 0, 0, 0, 0, 0, 0, 0, 0xa0, 0x86, 1, 0, 0, 0, 0, 0];
    says(wait, "wait 100000 µs");
    says(
        [3, 0, 0, 0, 0, 0, 0, 0, 0, 0, 0, 0, 0, 0, 0, 0],
        "update the frame interval",
    );
    says([0; 16], "no action");
}

#[test]
fn the_first_request_of_a_root_attach() {
    let action = [1, 0, 1, 0, 3, 0, 0, 0, 0x80, 6, 0, 1, 0, 0, 0x12, 0];
    says(
        action,
        "to 0, high speed, packets of 64: GetDescriptor, device 0, 18 bytes",
    );
}

#[test]
fn each_request_that_the_driver_sends() {
    let rows: [([u8; 8], &str); 8] = [
        (
            [0x80, 6, 0, 2, 0, 0, 9, 0],
            "GetDescriptor, configuration 0, 9 bytes",
        ),
        (
            [0xa0, 6, 0, 0x29, 0, 0, 2, 0],
            "GetDescriptor, hub 0, 2 bytes",
        ),
        ([0x00, 5, 31, 0, 0, 0, 0, 0], "SetAddress 31"),
        ([0x00, 9, 7, 0, 0, 0, 0, 0], "SetConfiguration 7"),
        ([0xa0, 0, 0, 0, 0, 0, 4, 0], "GetStatus of the hub, 4 bytes"),
        (
            [0xa3, 0, 0, 0, 10, 0, 4, 0],
            "GetStatus of port 10, 4 bytes",
        ),
        (
            [0x23, 3, 8, 0, 1, 0, 0, 0],
            "SetFeature PORT_POWER of port 1",
        ),
        (
            [0x23, 1, 20, 0, 2, 0, 0, 0],
            "ClearFeature C_PORT_RESET of port 2",
        ),
    ];
    for (setup, text) in rows {
        says(
            request(setup),
            &format!("to 3, full speed, packets of 64: {text}"),
        );
    }
}
