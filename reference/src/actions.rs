//! Logged actions: some written by hand for tests, and what an action means, in
//! the words of USB 2.0.

use crate::layout::ACTION;

pub type Action = [u8; ACTION];
pub type Setup = [u8; 8];

pub fn wait(microseconds: u32) -> Action {
    let [a, b, c, d] = microseconds.to_le_bytes();
    [2, 0, 0, 0, 0, 0, 0, 0, a, b, c, d, 0, 0, 0, 0]
}

pub const FRAME_INTERVAL: Action = [3, 0, 0, 0, 0, 0, 0, 0, 0, 0, 0, 0, 0, 0, 0, 0];

/// A port's requests; ports are counted from 0 and sent counted from 1.
pub fn status_of(port: u8) -> Setup {
    [0xa3, 0, 0, 0, port + 1, 0, 4, 0]
}

pub fn set(feature: u8, port: u8) -> Setup {
    [0x23, 3, feature, 0, port + 1, 0, 0, 0]
}

pub fn clear(feature: u8, port: u8) -> Setup {
    [0x23, 1, feature, 0, port + 1, 0, 0, 0]
}

/// One line: "to 3, full speed, packets of 64: GetStatus of port 2, 4 bytes".
pub fn meaning(action: &Action) -> String {
    let [kind, address, _, speed, size, _, _, _, setup @ ..] = *action;
    match kind {
        1 => {
            let speed = name(&["high", "full", "low"], speed);
            let size = name(&["8", "16", "32", "64"], size);
            let request = request(&setup);
            format!("to {address}, {speed} speed, packets of {size}: {request}")
        }
        2 => {
            let [a, b, c, d, ..] = setup;
            format!("wait {} µs", u32::from_le_bytes([a, b, c, d]))
        }
        3 => "update the frame interval".to_string(),
        _ => "no action".to_string(),
    }
}

fn name(names: &[&str], number: u8) -> String {
    match names.get(usize::from(number)) {
        Some(name) => (*name).to_string(),
        None => format!("({number})"),
    }
}

/// The request of a setup packet, USB 2.0 tables 9-3 and 11-15.
fn request(setup: &Setup) -> String {
    let word = |at: usize| u16::from_le_bytes([setup[at], setup[at + 1]]);
    let (value, index, length) = (word(2), word(4), word(6));
    match (setup[0], setup[1]) {
        (0x80 | 0xa0, 6) => {
            let [number, kind] = value.to_le_bytes();
            let kind = descriptor(kind);
            format!("GetDescriptor, {kind} {number}, {length} bytes")
        }
        (0x00, 5) => format!("SetAddress {value}"),
        (0x00, 9) => format!("SetConfiguration {value}"),
        (0xa0, 0) => format!("GetStatus of the hub, {length} bytes"),
        (0xa3, 0) => format!("GetStatus of port {index}, {length} bytes"),
        (0x23, 1) => format!("ClearFeature {} of port {index}", feature(value)),
        (0x23, 3) => format!("SetFeature {} of port {index}", feature(value)),
        _ => format!("request {setup:02x?}"),
    }
}

fn descriptor(kind: u8) -> String {
    match kind {
        1 => "device".to_string(),
        2 => "configuration".to_string(),
        0x29 => "hub".to_string(),
        _ => format!("type {kind}"),
    }
}

/// Feature selectors, USB 2.0 table 11-17.
fn feature(selector: u16) -> String {
    let name = match selector {
        1 => "PORT_ENABLE",
        2 => "PORT_SUSPEND",
        3 => "PORT_OVER_CURRENT",
        4 => "PORT_RESET",
        8 => "PORT_POWER",
        16 => "C_PORT_CONNECTION",
        17 => "C_PORT_ENABLE",
        18 => "C_PORT_SUSPEND",
        19 => "C_PORT_OVER_CURRENT",
        20 => "C_PORT_RESET",
        _ => return selector.to_string(),
    };
    name.to_string()
}
