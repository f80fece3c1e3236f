//! A simulated host controller and its bus: a root hub of four ports, an
//! instrument on its second port, a hub of two ports on its third, and an
//! instrument of the same make on that hub's first.

use lidrumak::{HubPort, Outcome, Request, TransferError};

use super::HostController;

/// Vendor and product of both instruments.
pub const INSTRUMENT: (u16, u16) = (0x1234, 0x0001);

const HUB_DEVICE: [u8; 18] = [
    18, 1, 0, 2, 9, 0, 0, 64, 0x24, 0x04, 0x12, 0x24, 0, 1, 0, 0, 0, 1,
];

const HUB_CONFIGURATION: [u8; 25] = [
    9, 2, 25, 0, 1, 1, 0, 0xe0, 0, // configuration, value 1
    9, 4, 0, 0, 1, 9, 0, 0, 0, // interface 0, a hub's
    7, 5, 0x81, 3, 1, 0, 12, // endpoint 1 in, interrupt
];

const INSTRUMENT_DEVICE: [u8; 18] = [
    18, 1, 0, 2, 0xff, 0, 0, 64, 0x34, 0x12, 1, 0, 0, 1, 0, 0, 0, 1,
];

const INSTRUMENT_CONFIGURATION: [u8; 32] = [
    9, 2, 32, 0, 1, 1, 0, 0x80, 50, // configuration, value 1
    9, 4, 0, 0, 2, 0xff, 0, 0, 0, // interface 0, a vendor's own
    7, 5, 0x81, 2, 64, 0, 0, // endpoint 1 in
    7, 5, 0x02, 2, 64, 0, 0, // endpoint 2 out
];

/// A port of a simulated hub.
#[derive(Clone, Default)]
struct Port {
    /// Which device is plugged in.
    plug: Option<usize>,
    powered: bool,
    enabled: bool,
    connection_change: bool,
    reset_change: bool,
    /// Status reads until a reset is over; 0 without one.
    resetting: u32,
}

/// A simulated device; a hub if it has ports.
struct Device {
    address: u8,
    configuration: u8,
    ports: Vec<Port>,
}

impl Device {
    fn with_ports(plugs: &[Option<usize>]) -> Device {
        let port = |plug: &Option<usize>| Port {
            plug: *plug,
            ..Port::default()
        };
        Device {
            address: 0,
            configuration: 0,
            ports: plugs.iter().map(port).collect(),
        }
    }

    fn is_hub(&self) -> bool {
        !self.ports.is_empty()
    }

    fn descriptor(&self, kind: u16) -> Option<Vec<u8>> {
        let ports = self.ports.len() as u8;
        match (kind, self.is_hub()) {
            (0x0100, true) => Some(HUB_DEVICE.to_vec()),
            (0x0100, false) => Some(INSTRUMENT_DEVICE.to_vec()),
            (0x0200, true) => Some(HUB_CONFIGURATION.to_vec()),
            (0x0200, false) => Some(INSTRUMENT_CONFIGURATION.to_vec()),
            (0x2900, true) => Some(vec![9, 41, ports, 0, 0, 50, 0, 0, 0xff]),
            _ => None,
        }
    }

    /// What a reset of its port, or a lost supply, leaves of it.
    fn restart(&mut self) {
        self.address = 0;
        self.configuration = 0;
        for port in &mut self.ports {
            *port = Port {
                plug: port.plug,
                ..Port::default()
            };
        }
    }
}

/// The controller with its bus.
pub struct Simulated {
    devices: Vec<Device>,
    random: u64,
    /// One transfer in so many is disturbed; 0 if none is.
    rate: u64,
    /// How many transfers were run.
    pub transfers: u64,
    /// How many of them were disturbed.
    pub disturbed: u64,
    /// How long it was asked to wait.
    pub microseconds: u64,
    /// How often the frame interval was updated.
    pub frame_intervals: u64,
}

impl Simulated {
    /// A bus on which one transfer in `rate` is disturbed; none, if that is 0.
    pub fn new(seed: u64, rate: u64) -> Simulated {
        let root = Device::with_ports(&[None, Some(1), Some(2), None]);
        let first = Device::with_ports(&[]);
        let hub = Device::with_ports(&[Some(3), None]);
        let second = Device::with_ports(&[]);
        Simulated {
            devices: vec![root, first, hub, second],
            random: seed,
            rate,
            transfers: 0,
            disturbed: 0,
            microseconds: 0,
            frame_intervals: 0,
        }
    }

    /// Pulls the instrument out of the second hub.
    pub fn unplug(&mut self) {
        for device in self.devices.iter_mut().skip(2) {
            for port in &mut device.ports {
                port.plug = None;
            }
        }
    }

    /// Restarts the whole bus.
    pub fn reset(&mut self) {
        self.devices.iter_mut().for_each(Device::restart);
    }

    /// Is the instrument with this address plugged in there? The hub's address
    /// is its place + 1.
    pub fn is_plugged_in(&self, address: u8, at: HubPort) -> bool {
        let with_address = |address: u32| {
            let same = |device: &Device| u32::from(device.address) == address;
            self.devices.iter().position(same)
        };
        let plug = || {
            let hub = self.devices.get(with_address(at.hub.checked_add(1)?)?)?;
            hub.ports.get(usize::try_from(at.port).ok()?)?.plug
        };
        plug().is_some() && plug() == with_address(u32::from(address))
    }

    /// Splitmix64.
    fn next_random(&mut self) -> u64 {
        self.random = self.random.wrapping_add(0x9e37_79b9_7f4a_7c15);
        let mut mixed = self.random;
        mixed = (mixed ^ (mixed >> 30)).wrapping_mul(0xbf58_476d_1ce4_e5b9);
        mixed = (mixed ^ (mixed >> 27)).wrapping_mul(0x94d0_49bb_1331_11eb);
        mixed ^ (mixed >> 31)
    }

    /// The devices that hear a request: behind configured hubs on enabled ports.
    fn listening(&self) -> Vec<usize> {
        let mut listening = vec![0];
        let mut next = 0;
        while let Some(device) = listening.get(next).and_then(|at| self.devices.get(*at)) {
            next += 1;
            if device.configuration != 0 {
                let enabled = device.ports.iter().filter(|port| port.enabled);
                listening.extend(enabled.filter_map(|port| port.plug));
            }
        }
        listening
    }

    /// What the device with the request's address answers: data, `None` for a
    /// stall. Without one such device nobody is understood.
    fn answer(&mut self, request: &Request) -> Result<Option<Vec<u8>>, TransferError> {
        let mut hearing = self.listening();
        hearing.retain(|at| self.devices[*at].address == request.address);
        let [at] = hearing[..] else {
            return Err(TransferError::NoAcknowledge);
        };
        let device = &mut self.devices[at];
        let answer = match (request.request_type(), request.request()) {
            (0x80 | 0xa0, 6) => device.descriptor(request.value()),
            (0x00, 5) => {
                device.address = request.value() as u8;
                Some(vec![])
            }
            (0x00, 9) => {
                device.configuration = request.value() as u8;
                Some(vec![])
            }
            (0xa0, 0) if device.is_hub() => Some(vec![0; 4]),
            (0xa3, 0) => self.port_status(at, request.index()),
            (0x23, 1) => self.clear_feature(at, request),
            (0x23, 3) => self.set_feature(at, request),
            _ => None,
        };
        Ok(answer)
    }

    fn port(&mut self, hub: usize, index: u16) -> Option<&mut Port> {
        let port = usize::from(index).checked_sub(1)?;
        self.devices.get_mut(hub)?.ports.get_mut(port)
    }

    fn port_status(&mut self, hub: usize, index: u16) -> Option<Vec<u8>> {
        let port = self.port(hub, index)?;
        if port.resetting > 0 {
            port.resetting -= 1;
            port.reset_change = port.resetting == 0;
            port.enabled = port.resetting == 0;
        }
        let port = port.clone();
        let plug = port.plug.filter(|_| port.powered);
        let high_speed = plug.is_some_and(|plug| self.devices[plug].is_hub());
        let status = u16::from(plug.is_some())
            | u16::from(port.enabled) << 1
            | u16::from(port.powered) << 8
            | u16::from(high_speed) << 10;
        let change = u16::from(port.connection_change) | u16::from(port.reset_change) << 4;
        Some([status.to_le_bytes(), change.to_le_bytes()].concat())
    }

    fn clear_feature(&mut self, hub: usize, request: &Request) -> Option<Vec<u8>> {
        let port = self.port(hub, request.index())?;
        match request.value() {
            16 => port.connection_change = false,
            20 => port.reset_change = false,
            _ => (),
        }
        Some(vec![])
    }

    fn set_feature(&mut self, hub: usize, request: &Request) -> Option<Vec<u8>> {
        let reads = 1 + (self.next_random() % 3) as u32;
        let port = self.port(hub, request.index())?;
        match request.value() {
            8 if !port.powered => {
                port.powered = true;
                port.connection_change = port.plug.is_some();
            }
            4 if port.powered && port.plug.is_some() => {
                port.enabled = false;
                port.resetting = reads;
                if let Some(plug) = port.plug {
                    self.devices[plug].restart();
                }
            }
            _ => (),
        }
        Some(vec![])
    }

    /// A disturbed transfer: a stall or no answer, both without effect; an
    /// answer that comes too late; half of the data.
    fn disturb(&mut self, request: &Request) -> (TransferError, Vec<u8>) {
        self.disturbed += 1;
        match self.next_random() % 4 {
            0 => (TransferError::Stall, vec![]),
            1 => (TransferError::NoAcknowledge, vec![]),
            2 => {
                _ = self.answer(request);
                (TransferError::Processing, vec![])
            }
            _ => {
                let (error, mut data) = self.transfer(request);
                data.truncate(data.len() / 2);
                (error, data)
            }
        }
    }

    /// An undisturbed transfer.
    fn transfer(&mut self, request: &Request) -> (TransferError, Vec<u8>) {
        match self.answer(request) {
            Ok(Some(mut data)) => {
                data.truncate(usize::from(request.length()));
                (TransferError::NoError, data)
            }
            Ok(None) => (TransferError::Stall, vec![]),
            Err(error) => (error, vec![]),
        }
    }
}

impl HostController for Simulated {
    fn control_transfer<'a>(&mut self, request: &Request, buffer: &'a mut [u8]) -> Outcome<'a> {
        self.transfers += 1;
        let disturbed = self.rate != 0 && self.next_random() % self.rate == 0;
        let (error, data) = if disturbed {
            self.disturb(request)
        } else {
            self.transfer(request)
        };
        let arrived = &mut buffer[..data.len()];
        arrived.copy_from_slice(&data);
        Outcome::new(error, arrived)
    }

    fn sleep(&mut self, microseconds: u32) {
        self.microseconds += u64::from(microseconds);
    }

    fn update_frame_interval(&mut self) {
        self.frame_intervals += 1;
    }
}
