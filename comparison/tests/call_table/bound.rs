//! A root attach at full speed that sends as many requests as it can: 8 for
//! each of 31 devices and 444 for each of 3 hubs.

use reference::call::Entry;
use reference::layout::*;
use reference::script::*;

use crate::logs::*;
use crate::stores::*;
use crate::Row;

/// Connected and suspended, with every change; and connected.
const ALL: [u8; 4] = [0x05, 1, 0x1b, 0];
const CONNECTED: [u8; 4] = [0x01, 1, 0, 0];

/// The call so far.
struct Bus {
    outcomes: Script,
    log: Vec<Action>,
    store: Store,
    devices: usize,
}

pub fn rows() -> Vec<Row> {
    let mut bus = Bus {
        outcomes: Script::new(),
        log: Vec::new(),
        store: Store::empty(),
        devices: 0,
    };
    bus.hub(|bus, port| match port {
        0 | 1 => bus.hub(|bus, _| bus.device(&KEYBOARD_CONFIGURATION)),
        _ => bus.device(&KEYBOARD_CONFIGURATION),
    });
    assert_eq!(bus.devices, 31);
    vec![Row::new(
        "8·d + 444·h requests",
        Entry::RootAttach,
        [1, 0],
        &Store::empty(),
    )
    .given(bus.outcomes)
    .log_of(LOG)
    .answers(0, 8 * 31 + 444 * 3)
    .logs(&[bus.log])
    .leaves(bus.store)]
}

impl Bus {
    fn request(&mut self, pipe: Pipe, setup: Setup, data: &[u8]) {
        self.log.push(pipe.sends(setup));
        self.outcomes = std::mem::take(&mut self.outcomes).gives(data);
    }

    fn wait(&mut self, microseconds: u32) {
        self.log.push(wait(microseconds));
    }

    fn store(&mut self, change: impl FnOnce(Store) -> Store) {
        self.store = change(self.store.clone());
    }

    /// Both phases read the device descriptor twice: 8 requests.
    fn device(&mut self, configuration: &[u8]) {
        let place = self.devices;
        self.devices += 1;
        let (fresh, own) = (Pipe(0, 1, 3), Pipe(place as u8 + 1, 1, 3));
        self.request(fresh, GET_DEVICE, &DEVICE[..8]);
        self.request(fresh, GET_DEVICE, &DEVICE);
        self.request(fresh, set_address(place as u8 + 1), &[]);
        self.wait(10_000);
        self.request(own, GET_DEVICE, &DEVICE[..8]);
        self.request(own, GET_DEVICE, &DEVICE);
        self.request(own, get_configuration(9), &configuration[..9]);
        let length = configuration.len() as u16;
        self.request(own, get_configuration(length), configuration);
        self.request(own, set_configuration(configuration[5]), &[]);
        self.store(|store| {
            store
                .configured(place, configuration)
                .put(place, SPEED, &[1])
        });
    }

    /// 14 requests and 43 for each of ten ports.
    fn hub(&mut self, child: impl Fn(&mut Bus, u8)) {
        let place = self.devices;
        let hub = Pipe(place as u8 + 1, 1, 3);
        self.device(&HUB_CONFIGURATION);
        let descriptor = hub_descriptor(10, 1);
        self.request(hub, get_hub_descriptor(2), &descriptor[..2]);
        self.request(hub, get_hub_descriptor(9), &descriptor);
        self.request(hub, GET_HUB_STATUS, &[0; 4]);
        self.power(hub);
        self.request(hub, GET_HUB_STATUS, &[0; 4]);
        for port in 0..10 {
            self.found(hub, port);
            let at = self.devices;
            child(self, port);
            self.request(hub, clear(SUSPEND, port), &[]);
            self.request(hub, clear(RESET_CHANGE, port), &[]);
            self.store(|store| store.child(place, port, at).port(place, port, 0x101, 0));
        }
        self.store(|store| {
            store
                .put(place, HUB, &[2])
                .put(place, HUB_DESCRIPTOR, &descriptor)
                .put(place, MAX_CHILDREN, &[10])
        });
    }

    fn power(&mut self, hub: Pipe) {
        for port in 0..10 {
            self.request(hub, set(POWER, port), &[]);
        }
        self.wait(2_000);
    }

    /// The check of a port up to its new device: 41 requests.
    fn found(&mut self, hub: Pipe, port: u8) {
        self.request(hub, status_of(port), &ALL);
        self.request(hub, clear(OVER_CURRENT, port), &[]);
        self.power(hub);
        self.request(hub, clear(ENABLE_CHANGE, port), &[]);
        self.log.push(FRAME_INTERVAL);
        self.request(hub, status_of(port), &CONNECTED);
        self.request(hub, clear(CONNECTION_CHANGE, port), &[]);
        self.request(hub, status_of(port), &CONNECTED);
        self.wait(300_000);
        self.request(hub, clear(RESET_CHANGE, port), &[]);
        self.request(hub, set(RESET, port), &[]);
        for read in 1..=21 {
            self.wait(50_000);
            let change = if read == 21 { 0x10 } else { 0 };
            self.request(hub, status_of(port), &[0x01, 1, change, 0]);
        }
        self.request(hub, clear(RESET_CHANGE, port), &[]);
        self.wait(10_000);
        self.request(hub, status_of(port), &CONNECTED);
    }
}
