//! Log lines made by hand: setup bytes from USB 2.0 tables 9-3 and 11-16, laid
//! out as document 01's actions.

pub use reference::actions::{clear, set, status_of, wait, Action, Setup, FRAME_INTERVAL};
use reference::script::HUB_CONFIGURATION;

/// Where requests go: the address, the speed (0 high, 1 full, 2 low) and the
/// packet size (0 to 3 for 8, 16, 32, 64).
#[derive(Clone, Copy)]
pub struct Pipe(pub u8, pub u8, pub u8);

/// A device at high speed with packets of 64.
pub fn at(address: u8) -> Pipe {
    Pipe(address, 0, 3)
}

impl Pipe {
    /// A request; the direction is the setup's bit 7.
    pub fn sends(self, setup: Setup) -> Action {
        let Pipe(address, speed, packet) = self;
        let [a, b, c, d, e, f, g, h] = setup;
        let direction = setup[0] >> 7;
        [
            1, address, direction, speed, packet, 0, 0, 0, a, b, c, d, e, f, g, h,
        ]
    }

    pub fn send_all(self, setups: &[Setup]) -> Vec<Action> {
        setups.iter().map(|setup| self.sends(*setup)).collect()
    }
}

pub const GET_DEVICE: Setup = [0x80, 6, 0, 1, 0, 0, 18, 0];
pub const GET_HUB_STATUS: Setup = [0xa0, 0, 0, 0, 0, 0, 4, 0];

pub fn get_configuration(length: u16) -> Setup {
    let [low, high] = length.to_le_bytes();
    [0x80, 6, 0, 2, 0, 0, low, high]
}

pub fn set_address(address: u8) -> Setup {
    [0, 5, address, 0, 0, 0, 0, 0]
}

pub fn set_configuration(value: u8) -> Setup {
    [0, 9, value, 0, 0, 0, 0, 0]
}

pub fn get_hub_descriptor(length: u8) -> Setup {
    [0xa0, 6, 0, 41, 0, 0, length, 0]
}

// Port features, USB 2.0 table 11-17, and what document 01 sends for
// over-current.
pub const SUSPEND: u8 = 2;
pub const OVER_CURRENT: u8 = 3;
pub const RESET: u8 = 4;
pub const POWER: u8 = 8;
pub const CONNECTION_CHANGE: u8 = 16;
pub const ENABLE_CHANGE: u8 = 17;
pub const RESET_CHANGE: u8 = 20;

/// An attach at high speed up to its address.
pub fn addressed(address: u8) -> Vec<Action> {
    vec![
        at(0).sends(GET_DEVICE),
        at(0).sends(set_address(address)),
        wait(10_000),
        at(address).sends(GET_DEVICE),
    ]
}

/// The same with the two reads of a configuration: 5 requests.
pub fn read_configuration(address: u8, length: u16) -> Vec<Action> {
    let reads = [get_configuration(9), get_configuration(length)];
    [addressed(address), at(address).send_all(&reads)].concat()
}

/// A whole attach at high speed, 6 requests.
pub fn attached(address: u8, configuration: &[u8]) -> Vec<Action> {
    let mut actions = read_configuration(address, configuration.len() as u16);
    actions.push(at(address).sends(set_configuration(configuration[5])));
    actions
}

/// What follows for a hub with a descriptor of `length` bytes, up to the wait
/// for its ports' power: 3 requests and one for each port.
pub fn powered(address: u8, length: u8, ports: u8, microseconds: u32) -> Vec<Action> {
    let hub = at(address);
    let mut actions = hub.send_all(&[
        get_hub_descriptor(2),
        get_hub_descriptor(length),
        GET_HUB_STATUS,
    ]);
    actions.extend((0..ports).map(|port| hub.sends(set(POWER, port))));
    actions.push(wait(microseconds));
    actions
}

/// A whole hub attach, before its ports are checked: 10 requests and one for
/// each port.
pub fn hub_attached(address: u8, ports: u8, microseconds: u32) -> Vec<Action> {
    [
        attached(address, &HUB_CONFIGURATION),
        powered(address, 9, ports, microseconds),
        vec![at(address).sends(GET_HUB_STATUS)],
    ]
    .concat()
}

/// A status read of each port.
pub fn checks(address: u8, ports: u8) -> Vec<Action> {
    let hub = at(address);
    (0..ports).map(|port| hub.sends(status_of(port))).collect()
}

/// A port reset whose first status read shows the change: 4 requests.
pub fn reset(hub: Pipe, port: u8) -> Vec<Action> {
    vec![
        hub.sends(clear(RESET_CHANGE, port)),
        hub.sends(set(RESET, port)),
        wait(50_000),
        hub.sends(status_of(port)),
        hub.sends(clear(RESET_CHANGE, port)),
        wait(10_000),
    ]
}

/// A connection change up to the test of the port: 3 requests.
pub fn changed(hub: Pipe, port: u8) -> Vec<Action> {
    vec![
        FRAME_INTERVAL,
        hub.sends(status_of(port)),
        hub.sends(clear(CONNECTION_CHANGE, port)),
        hub.sends(status_of(port)),
    ]
}

/// A connection change up to the end of the reset: 7 requests.
pub fn changed_and_reset(hub: Pipe, port: u8) -> Vec<Action> {
    [changed(hub, port), vec![wait(300_000)], reset(hub, port)].concat()
}

/// The same with the status read after the allocation: 8 requests.
pub fn changed_to_status(hub: Pipe, port: u8) -> Vec<Action> {
    let mut actions = changed_and_reset(hub, port);
    actions.push(hub.sends(status_of(port)));
    actions
}
