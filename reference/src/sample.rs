//! A bench start: a root hub of four ports, an instrument on its second port,
//! a hub of two ports on its third, and an instrument on that hub's first.

use std::path::PathBuf;

use crate::script::*;

/// Connected, enabled, powered, full speed.
const FULL: u16 = 0x103;

/// An instrument's device descriptor, with the product's number.
fn instrument_device(product: u8) -> [u8; 18] {
    let mut device = DEVICE;
    device[4] = 0xff;
    device[8..12].copy_from_slice(&[0x34, 0x12, product, 0]);
    device
}

/// An instrument's configuration: a vendor's own class with two bulk endpoints.
const INSTRUMENT_CONFIGURATION: [u8; 32] = [
    9, 2, 32, 0, 1, 1, 0, 0x80, 50, // configuration, value 1
    9, 4, 0, 0, 2, 0xff, 0, 0, 0, // interface 0
    7, 5, 0x81, 2, 64, 0, 0, // endpoint 1 in
    7, 5, 0x02, 2, 64, 0, 0, // endpoint 2 out
];

/// A port check that finds nothing new.
fn empty_port() -> Script {
    Script::new().gives(&port(POWERED, 0))
}

fn instrument(product: u8) -> Script {
    let device = instrument_device(product);
    found_device(FULL)
        .device_reads(&device)
        .configuration_reads(&INSTRUMENT_CONFIGURATION)
        .done()
}

fn hub_with_instrument() -> Script {
    found_device(HIGH)
        .then(hub_attach(2, 50))
        .then(instrument(2))
        .then(empty_port())
}

/// The files of the outcomes: the sample, and busrun's input.
pub fn outcomes_files() -> [PathBuf; 2] {
    ["samples/bench_start.outcomes", "crates/busrun/stdin"].map(|file| repository().join(file))
}

/// The file of the actions that the original then logged: what busrun writes.
pub fn log_file() -> PathBuf {
    repository().join("crates/busrun/stdout")
}

/// The file of the store that the original then left: storecheck's input.
pub fn store_file() -> PathBuf {
    repository().join("crates/storecheck/stdin")
}

fn repository() -> PathBuf {
    PathBuf::from(concat!(env!("CARGO_MANIFEST_DIR"), "/.."))
}

/// The outcomes of the root attach.
pub fn bench_start() -> Vec<u8> {
    let root = hub_attach(4, 1)
        .then(empty_port())
        .then(instrument(1))
        .then(hub_with_instrument())
        .then(empty_port());
    root.0
}
