//! Stores made by hand, place by place.

use reference::layout::*;
use reference::script::*;

#[derive(Clone)]
pub struct Store(pub Vec<u8>);

impl Store {
    pub fn empty() -> Store {
        Store(vec![0; STORE])
    }

    pub fn put(mut self, at: usize, field: usize, bytes: &[u8]) -> Store {
        let place = place_mut(&mut self.0, at);
        place[field..][..bytes.len()].copy_from_slice(bytes);
        self
    }

    /// A new place: used, number, full speed, attached, index 255; the first
    /// cases of the Rust's enums are type 1 and class 9; packet size 8.
    pub fn allocated(mut self, at: usize) -> Store {
        let place = place_mut(&mut self.0, at);
        place[..8].copy_from_slice(&[1, at as u8 + 1, 1, 0, 0xff, 0, 0, 0]);
        place[16..24].copy_from_slice(&[0, 1, 0, 0, 9, 0, 0, 8]);
        place[34..43].copy_from_slice(&[0, 1, 0, 0, 0, 0, 0, 0, 0]);
        for interface in 0..8 {
            place[128 + 9 * interface + 1] = 1;
        }
        for endpoint in 0..128 {
            place[200 + 7 * endpoint + 1] = 1;
        }
        self
    }

    /// Number, speed and status.
    pub fn state(self, at: usize, bytes: [u8; 3]) -> Store {
        self.put(at, NUMBER, &bytes)
    }

    pub fn packet_size(self, at: usize, size: u8) -> Store {
        self.put(at, DEVICE_DESCRIPTOR + 7, &[size])
    }

    /// The error's bit number, and the last transfer.
    pub fn transfer(self, at: usize, error: u32, count: u32) -> Store {
        let word = if error == 0 { 0 } else { 1u32 << error };
        self.put(at, ERROR, &word.to_le_bytes())
            .put(at, LAST_TRANSFER, &count.to_le_bytes())
    }

    /// A device at high speed with its address and device descriptor.
    pub fn addressed(self, at: usize) -> Store {
        self.allocated(at)
            .state(at, [at as u8 + 1, 0, 3])
            .put(at, DEVICE_DESCRIPTOR, &DEVICE)
            .transfer(at, 0, 18)
    }

    /// The same with the configuration's 9 bytes, walked: index 0.
    pub fn walked(self, at: usize, configuration: &[u8]) -> Store {
        self.addressed(at)
            .put(at, CONFIGURATION, &configuration[..9])
            .put(at, CONFIGURATION_INDEX, &[0])
            .transfer(at, 0, configuration.len() as u32)
    }

    /// An attached device that has interface 0 with one endpoint: the 9 bytes
    /// behind the configuration's, and the last 7.
    pub fn configured(self, at: usize, configuration: &[u8]) -> Store {
        self.walked(at, configuration)
            .put(at, RECORD, &configuration[9..18])
            .put(at, ENDPOINTS, &configuration[configuration.len() - 7..])
            .put(at, CONFIGURATION_INDEX, &[configuration[5]])
            .put(at, STATUS, &[4])
            .transfer(at, 0, 0)
    }

    pub fn keyboard(self, at: usize) -> Store {
        self.configured(at, &KEYBOARD_CONFIGURATION)
    }

    /// An attached hub whose ports are powered and empty. Its last transfer is
    /// a status of 4 bytes.
    pub fn hub(self, at: usize, ports: u8, delay: u8) -> Store {
        let most = ports.min(10);
        let hub = self
            .configured(at, &HUB_CONFIGURATION)
            .put(at, HUB, &[2])
            .put(at, HUB_DESCRIPTOR, &hub_descriptor(ports, delay))
            .put(at, MAX_CHILDREN, &[most])
            .transfer(at, 0, 4);
        (0..most).fold(hub, |hub, port| hub.port(at, port, POWERED, 0))
    }

    /// A hub whose descriptor could not be read: one port, nothing powered.
    pub fn bare_hub(self, at: usize) -> Store {
        self.configured(at, &HUB_CONFIGURATION)
            .put(at, HUB, &[1])
            .put(at, MAX_CHILDREN, &[1])
    }

    /// The status of a port, as it was last read.
    pub fn port(self, at: usize, number: u8, status: u16, change: u16) -> Store {
        let field = PORT_STATUSES + 4 * usize::from(number);
        self.put(at, field, &port(status, change))
    }

    /// Puts a device on a hub's port.
    pub fn child(self, hub: usize, port: u8, at: usize) -> Store {
        self.put(hub, CHILDREN + usize::from(port), &[at as u8 + 1])
            .put(at, PORT_NUMBER, &[port, hub as u8 + 1])
    }
}

/// A root hub with so many empty ports.
pub fn root(ports: u8) -> Store {
    Store::empty().hub(0, ports, 1)
}

/// A root hub of `ports` ports with a keyboard on port 0, at place 1.
pub fn root_and_keyboard(ports: u8) -> Store {
    root(ports).port(0, 0, HIGH, 0).keyboard(1).child(0, 0, 1)
}

/// A root hub of one port with a hub of one port on it, at place 1.
pub fn root_and_hub() -> Store {
    root(1).port(0, 0, HIGH, 0).hub(1, 1, 1).child(0, 0, 1)
}

/// A root hub whose descriptor could not be read.
pub fn bare_root() -> Store {
    Store::empty().bare_hub(0)
}

/// A root stopped or failed in its first request: number 0, powered.
pub fn fresh_root(speed: u8) -> Store {
    Store::empty()
        .allocated(0)
        .state(0, [0, speed, 1])
        .packet_size(0, if speed == 2 { 8 } else { 64 })
}

/// All 32 places used by hubs of two ports: a chain, place n + 1 on port 0 of
/// place n.
pub fn full_bus() -> Store {
    let hubs = (0..PLACES).fold(Store::empty(), |store, at| store.hub(at, 2, 1));
    (1..PLACES).fold(hubs, |store, at| {
        store.port(at - 1, 0, HIGH, 0).child(at - 1, 0, at)
    })
}
