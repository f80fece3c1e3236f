//! What a failed transfer leaves of a device, and what finds it: the lines of
//! README.md on devices that failed, on kernel_glue's simulated bus.
#![allow(
    clippy::arithmetic_side_effects,
    clippy::indexing_slicing,
    clippy::panic,
    clippy::unwrap_used
)]

#[allow(dead_code)]
#[path = "../examples/kernel_glue/main.rs"]
mod kernel_glue;

use kernel_glue::simulated::Simulated;
use kernel_glue::{childless, drive, HostController};
use lidrumak::{Answer, Bus, Device, HubPort, Outcome, Reply, Request, Status, TransferError};

/// A bus on which one transfer fails: number `left`, counted from 1, of those to
/// this address with these setup bytes.
struct Failing {
    bus: Simulated,
    address: u8,
    setup: [u8; 8],
    left: u32,
    /// Does the device act on the request all the same?
    acts: bool,
}

impl HostController for Failing {
    fn control_transfer<'a>(&mut self, request: &Request, buffer: &'a mut [u8]) -> Outcome<'a> {
        if (request.address, request.setup) != (self.address, self.setup) {
            return self.bus.control_transfer(request, buffer);
        }
        self.left = self.left.wrapping_sub(1);
        if self.left != 0 {
            return self.bus.control_transfer(request, buffer);
        }
        if self.acts {
            self.bus.control_transfer(request, buffer);
        }
        Outcome::new(TransferError::NoAcknowledge, &[])
    }

    fn sleep(&mut self, microseconds: u32) {
        self.bus.sleep(microseconds);
    }

    fn update_frame_interval(&mut self) {
        self.bus.update_frame_interval();
    }
}

/// The bus after a root attach in which a transfer failed.
fn attached(address: u8, setup: [u8; 8], count: u32, acts: bool) -> (Box<Bus>, Failing) {
    let mut bus = Box::new(Bus::new());
    let mut controller = Failing {
        bus: Simulated::new(1, 0),
        address,
        setup,
        left: count,
        acts,
    };
    let reply = drive(&mut bus, &mut controller, |bus, outcomes, log| {
        bus.root_attach(outcomes, log, 0)
    });
    assert_eq!(reply.answer, Answer::Ok);
    assert_eq!(controller.left, 0, "the transfer has failed");
    (bus, controller)
}

fn scan(bus: &mut Bus, controller: &mut Failing) {
    let reply = drive(bus, controller, |bus, outcomes, log| {
        bus.scan(outcomes, log, 0)
    });
    assert_eq!(reply.answer, Answer::Ok);
}

fn connection_change(bus: &mut Bus, controller: &mut Failing, at: HubPort) -> Reply {
    drive(bus, controller, |bus, outcomes, log| {
        bus.connection_change(outcomes, log, at.hub, at.port)
    })
}

fn status_on(bus: &Bus, at: HubPort) -> Option<Status> {
    bus.store().device_on(at).map(|device| device.status)
}

// Setup bytes for a port, counted from 1.
const fn get_status(port: u8) -> [u8; 8] {
    [0xa3, 0, 0, 0, port, 0, 4, 0]
}
const fn clear(feature: u8, port: u8) -> [u8; 8] {
    [0x23, 1, feature, 0, port, 0, 0, 0]
}
const fn reset(port: u8) -> [u8; 8] {
    [0x23, 3, 4, 0, port, 0, 0, 0]
}

/// The setup bytes for a port, which of their transfers fails, does the device
/// act on it; does a scan find the device afterwards?
type Row = (fn(u8) -> [u8; 8], u32, bool, bool);

/// The reads are that of the port check, two of the connection change, and those
/// of the reset.
const ROWS: [Row; 8] = [
    (get_status, 1, false, true),
    (get_status, 2, false, true),
    (|port| clear(16, port), 1, false, true),
    (|port| clear(16, port), 1, true, false),
    (get_status, 3, false, false),
    (reset, 1, false, false),
    (reset, 1, true, false),
    (get_status, 4, false, false),
];

/// The last clear of a reset, which leaves the device with address 0 on an
/// enabled port: a device reset after it on another port fails too.
const LAST_CLEAR: Row = (|port| clear(20, port), 2, false, false);

/// The instrument on a port is missing after the root attach.
fn check(at: HubPort, (setup, count, acts, scan_finds): Row) {
    let (address, port) = (at.hub as u8 + 1, at.port as u8 + 1);
    let setup = setup(port);
    let (mut bus, mut controller) = attached(address, setup, count, acts);
    assert_eq!(status_on(&bus, at), None, "{setup:?}, {count}");
    scan(&mut bus, &mut controller);
    if !scan_finds {
        scan(&mut bus, &mut controller);
        assert_eq!(status_on(&bus, at), None, "{setup:?}, {count}");
        assert_eq!(childless(&bus), [at], "{setup:?}, {count}");
        let reply = connection_change(&mut bus, &mut controller, at);
        assert_eq!(reply.answer, Answer::Ok, "{setup:?}, {count}");
    }
    let configured = Some(Status::Configured);
    assert_eq!(status_on(&bus, at), configured, "{setup:?}, {count}");
    assert_eq!(bus.store().devices().count(), 4);
    assert_eq!(childless(&bus), []);
}

#[test]
fn an_instrument_on_the_root_hub_is_lost_and_found() {
    for row in ROWS {
        check(HubPort { hub: 0, port: 1 }, row);
    }
}

#[test]
fn an_instrument_on_the_second_hub_is_lost_and_found() {
    for row in ROWS.into_iter().chain([LAST_CLEAR]) {
        check(HubPort { hub: 2, port: 0 }, row);
    }
}

/// The hub on the next port, and then the instrument, meet each other at address
/// 0.
#[test]
fn a_reset_that_failed_at_its_end_disturbs_the_next_device() {
    let (setup, count, acts, _) = LAST_CLEAR;
    let (mut bus, mut controller) = attached(1, setup(2), count, acts);
    let [instrument, hub] = [1, 2].map(|port| HubPort { hub: 0, port });
    assert_eq!(status_on(&bus, instrument), None);
    assert_eq!(status_on(&bus, hub), Some(Status::Attached));
    let reply = connection_change(&mut bus, &mut controller, instrument);
    assert_eq!(reply.answer, Answer::ErrorDevice);
    assert_eq!(status_on(&bus, instrument), Some(Status::Attached));
}

/// SetAddress, to address 0: the device has its place, and nothing tries it
/// again.
#[test]
fn a_device_that_failed_keeps_its_place() {
    let (mut bus, mut controller) = attached(0, [0, 5, 2, 0, 0, 0, 0, 0], 1, false);
    let at = HubPort { hub: 0, port: 1 };
    assert_eq!(status_on(&bus, at), Some(Status::Default));
    scan(&mut bus, &mut controller);
    let reply = connection_change(&mut bus, &mut controller, at);
    assert_eq!(reply.answer, Answer::ErrorIncompatible);
    assert_eq!(status_on(&bus, at), Some(Status::Default));

    controller.bus.reset();
    bus.clear();
    let reply = drive(&mut bus, &mut controller, |bus, outcomes, log| {
        bus.root_attach(outcomes, log, 0)
    });
    assert_eq!(reply.answer, Answer::Ok);
    assert_eq!(status_on(&bus, at), Some(Status::Configured));
}

/// Setup bytes to the second hub, which of their transfers fails, the hub's ports
/// in the store; does a scan find the instrument behind it?
#[test]
fn a_hub_whose_attach_failed_is_shown_configured() {
    for (setup, count, ports, scan_finds) in [
        ([0xa0, 6, 0, 0x29, 0, 0, 2, 0], 1, 1, false), // hub descriptor, its header
        ([0xa0, 6, 0, 0x29, 0, 0, 9, 0], 1, 1, false), // hub descriptor
        ([0xa0, 0, 0, 0, 0, 0, 4, 0], 1, 2, false),    // hub status, before power
        ([0xa0, 0, 0, 0, 0, 0, 4, 0], 2, 2, true),     // hub status, after it
    ] {
        let (mut bus, mut controller) = attached(3, setup, count, false);
        let hub = bus.store().device(2).unwrap();
        assert_eq!((hub.status, hub.ports), (Status::Configured, Some(ports)));
        let behind = |device: &Device| device.port.is_some_and(|at| at.hub == 2);
        assert_eq!(bus.store().devices().filter(behind).count(), 0);
        assert_eq!(childless(&bus), []);
        scan(&mut bus, &mut controller);
        let found = bus.store().devices().filter(behind).count();
        assert_eq!(found, usize::from(scan_finds), "{setup:?}, {count}");
    }
}
