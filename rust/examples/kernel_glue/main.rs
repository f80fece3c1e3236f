//! How a kernel drives the bus, one transfer at a time:
//!
//!     kernel_glue [SEED]
//!
//! The host controller is a simulated one, whose transfers are disturbed at
//! random. Two instruments of the same make are told apart by the ports on
//! which they stand. The exit status is 0 if both were found there, else 1.
#![allow(clippy::arithmetic_side_effects, clippy::indexing_slicing)]

pub mod simulated;

use std::env;
use std::process::ExitCode;

use lidrumak::{Action, Actions, Answer, Bus, Device, HubPort, Outcome, Outcomes, Reply, Request};

use simulated::{Simulated, INSTRUMENT};

/// What the glue needs of a host controller.
pub trait HostController {
    /// Runs a control transfer to its end. Data may be put into `buffer`.
    fn control_transfer<'a>(&mut self, request: &Request, buffer: &'a mut [u8]) -> Outcome<'a>;
    /// Waits.
    fn sleep(&mut self, microseconds: u32);
    /// Updates the frame interval.
    fn update_frame_interval(&mut self);
}

/// Runs one call: each time that it has spent its outcomes, the new actions in
/// its log are performed, and it is repeated from the same store.
pub fn drive(
    bus: &mut Bus,
    controller: &mut impl HostController,
    call: impl Fn(&mut Bus, &[u8], &mut [u8]) -> Reply,
) -> Reply {
    let mut buffer = vec![0; 16_384];
    let mut log = vec![0; 16_384];
    let mut data = vec![0; 65_535];
    let mut outcomes = Outcomes::new(&mut buffer);
    let mut performed = 0;
    loop {
        let reply = call(bus, outcomes.as_bytes(), &mut log);
        let mut refused = false;
        for action in Actions::new(&log).skip(performed) {
            performed += 1;
            match action {
                Action::Wait { microseconds } => controller.sleep(microseconds),
                Action::FrameInterval => controller.update_frame_interval(),
                Action::Request(request) => {
                    let outcome = controller.control_transfer(&request, &mut data);
                    refused |= outcomes.push(outcome).is_err();
                }
            }
        }
        if reply.answer != Answer::OutcomesSpent || refused {
            return reply;
        }
    }
}

/// How a bench start went.
#[derive(Debug, Default, PartialEq, Eq)]
pub struct Start {
    /// The instruments, if both were found.
    pub found: Option<[Device; 2]>,
    /// How often the bus was started from nothing.
    pub starts: u32,
    /// How often it was scanned.
    pub scans: u32,
    /// How often a connection change was called alone.
    pub changes: u32,
}

const STARTS: u32 = 100;
const SCANS: u32 = 3;

/// Attaches the bus. Where an instrument is missing, looks for it on the bus as
/// it is. That doesn't help where a device failed after it had got its place, or
/// a hub after it was configured: then the bus is reset, and attached to an empty
/// store.
pub fn start_bench(bus: &mut Bus, controller: &mut Simulated) -> Start {
    let mut start = Start::default();
    while start.found.is_none() && start.starts < STARTS {
        start.starts += 1;
        controller.reset();
        bus.clear();
        let reply = drive(bus, controller, |bus, outcomes, log| {
            bus.root_attach(outcomes, log, 0)
        });
        start.found = instruments(bus);
        for _ in 0..SCANS {
            if reply.answer.is_ok() && start.found.is_none() {
                look_again(bus, controller, &mut start);
                start.found = instruments(bus);
            }
        }
    }
    start
}

/// A scan finds a device whose port still shows the connection change. Where a
/// connection change has cleared that and then failed, a scan passes over the
/// port, and the connection change is called alone.
fn look_again(bus: &mut Bus, controller: &mut Simulated, start: &mut Start) {
    start.scans += 1;
    drive(bus, controller, |bus, outcomes, log| {
        bus.scan(outcomes, log, 0)
    });
    for HubPort { hub, port } in childless(bus) {
        start.changes += 1;
        drive(bus, controller, |bus, outcomes, log| {
            bus.connection_change(outcomes, log, hub, port)
        });
    }
}

/// The ports on which something is connected and no device stands.
pub fn childless(bus: &Bus) -> Vec<HubPort> {
    let store = bus.store();
    let ports = store.devices().flat_map(|device| {
        let ports = 0..device.ports.map_or(0, u32::from);
        ports.map(move |port| HubPort {
            hub: device.place,
            port,
        })
    });
    let is_connected = |at: &HubPort| {
        let status = store.port_status(*at);
        status.is_some_and(|status| status.is_connected())
    };
    ports
        .filter(is_connected)
        .filter(|at| store.device_on(*at).is_none())
        .collect()
}

/// The two instruments, if two stand configured.
fn instruments(bus: &Bus) -> Option<[Device; 2]> {
    let mut found = bus
        .store()
        .devices()
        .filter(|device| device.is_configured() && device.port.is_some())
        .filter(|device| (device.vendor, device.product) == INSTRUMENT);
    let pair = [found.next()?, found.next()?];
    found.next().is_none().then_some(pair)
}

/// Are the two on different ports, and does each port have the instrument that
/// is plugged in there?
pub fn is_right(controller: &Simulated, found: &[Device; 2]) -> bool {
    let [first, second] = found;
    let is_plugged_in = |device: &Device| {
        let port = device.port;
        port.is_some_and(|port| controller.is_plugged_in(device.address, port))
    };
    first.port != second.port && found.iter().all(is_plugged_in)
}

/// The way to a device as Linux writes it: `1-3.1` is port 1 of the hub on port
/// 3 of the first bus.
fn route(bus: &Bus, device: &Device) -> String {
    let route = bus.store().route(device.place);
    let mut ports: Vec<String> = route.map(|at| (at.port + 1).to_string()).collect();
    ports.reverse();
    format!("1-{}", ports.join("."))
}

/// What is printed, and whether both instruments were found where they are
/// plugged in.
pub fn report(seed: u64, bus: &Bus, start: &Start, controller: &Simulated) -> (String, bool) {
    let mut text = format!(
        "seed {seed}: {} starts, {} scans, {} connection changes, \
         {} transfers, {} of them disturbed, {} ms waited\n",
        start.starts,
        start.scans,
        start.changes,
        controller.transfers,
        controller.disturbed,
        controller.microseconds / 1000
    );
    let Some(found) = start.found else {
        return (text + "an instrument is missing\n", false);
    };
    let mut lines = found.map(|device| {
        let route = route(bus, &device);
        format!("instrument on {route}: Dev {}\n", device.address)
    });
    lines.sort();
    text += &lines.concat();
    let right = is_right(controller, &found);
    if !right {
        text += "an instrument is not plugged in there\n";
    }
    (text, right)
}

/// The whole program.
pub fn run(seed: u64, controller: &mut Simulated) -> (String, bool) {
    let mut bus = Box::new(Bus::new());
    let start = start_bench(&mut bus, controller);
    report(seed, &bus, &start, controller)
}

fn main() -> ExitCode {
    let seed = env::args().nth(1).map_or(Ok(1), |seed| seed.parse());
    let Ok(seed) = seed else {
        eprintln!("usage: kernel_glue [SEED]");
        return ExitCode::FAILURE;
    };
    let (text, right) = run(seed, &mut Simulated::new(seed, 40));
    print!("{text}");
    if right {
        ExitCode::SUCCESS
    } else {
        ExitCode::FAILURE
    }
}
