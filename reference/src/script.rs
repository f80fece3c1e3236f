//! Outcomes written by hand, for bench lines and tests.

/// A list of outcomes, added one at a time.
#[derive(Clone, Default)]
pub struct Script(pub Vec<u8>);

impl Script {
    pub fn new() -> Script {
        Script::default()
    }

    /// Any outcome: submit code, error and data.
    pub fn outcome(mut self, code: u8, error: u8, data: &[u8]) -> Script {
        let length = u16::try_from(data.len()).expect("a length of two bytes");
        self.0.extend([code, error]);
        self.0.extend(length.to_le_bytes());
        self.0.extend(data);
        self
    }

    /// A request that succeeds and delivers these bytes.
    pub fn gives(self, data: &[u8]) -> Script {
        self.outcome(0, 0, data)
    }

    /// A request without data that is acknowledged.
    pub fn done(self) -> Script {
        self.gives(&[])
    }

    /// So many acknowledged requests without data.
    pub fn done_times(self, times: usize) -> Script {
        (0..times).fold(self, |script, _| script.done())
    }

    /// The same outcome several times.
    pub fn gives_times(self, times: usize, data: &[u8]) -> Script {
        (0..times).fold(self, |script, _| script.gives(data))
    }

    /// Both reads of a device descriptor at high speed, SetAddress between them.
    pub fn device_reads(self, device: &[u8]) -> Script {
        self.gives(device).done().gives(device)
    }

    /// Both reads of a configuration: its first 9 bytes, and all of it.
    pub fn configuration_reads(self, configuration: &[u8]) -> Script {
        self.gives(&configuration[..9]).gives(configuration)
    }

    pub fn then(mut self, other: Script) -> Script {
        self.0.extend(other.0);
        self
    }
}

/// A device descriptor of 18 bytes with packet size 64.
pub const DEVICE: [u8; 18] = [
    18, 1, 0x00, 0x02, 9, 0, 0, 64, 0x24, 0x04, 0x12, 0x24, 0x00, 0x01, 0, 0, 0, 1,
];

/// A hub's configuration: interface 0 of class 9 with one interrupt endpoint.
pub const HUB_CONFIGURATION: [u8; 25] = [
    9, 2, 25, 0, 1, 1, 0, 0xe0, 0, // configuration, value 1
    9, 4, 0, 0, 1, 9, 0, 0, 0, // interface 0
    7, 5, 0x81, 3, 1, 0, 12, // endpoint 1 in
];

/// A keyboard's configuration: class 3, a HID descriptor and an endpoint.
pub const KEYBOARD_CONFIGURATION: [u8; 34] = [
    9, 2, 34, 0, 1, 7, 0, 0xa0, 50, // configuration, value 7
    9, 4, 0, 0, 1, 3, 1, 1, 0, // interface 0
    9, 33, 0x11, 0x01, 0, 1, 34, 63, 0, // HID
    7, 5, 0x81, 3, 8, 0, 10, // endpoint 1 in
];

/// A configuration for the walk alone, which does not look at its total length.
pub const HEAD: [u8; 9] = [9, 2, 0, 0, 1, 1, 0, 0x80, 50];

/// A configuration with nothing in it.
pub const BARE_CONFIGURATION: [u8; 9] = [9, 2, 9, 0, 1, 1, 0, 0x80, 50];

/// A configuration of value 5 that begins with an endpoint.
pub const ENDPOINT_FIRST: [u8; 16] = [9, 2, 16, 0, 1, 5, 0, 0x80, 50, 7, 5, 0x81, 3, 8, 0, 10];

/// Interface 0 of class 3, which has one endpoint.
pub const INTERFACE: [u8; 9] = [9, 4, 0, 0, 1, 3, 0, 0, 0];

/// Endpoint 1 in, interrupt.
pub const ENDPOINT: [u8; 7] = [7, 5, 0x81, 3, 8, 0, 10];

/// A hub descriptor of 9 bytes.
pub fn hub_descriptor(ports: u8, power_good_delay: u8) -> [u8; 9] {
    [9, 41, ports, 0, 0, power_good_delay, 0, 0, 0xff]
}

/// Port status and change words.
pub fn port(status: u16, change: u16) -> [u8; 4] {
    let [a, b] = status.to_le_bytes();
    let [c, d] = change.to_le_bytes();
    [a, b, c, d]
}

/// Powered, nothing connected.
pub const POWERED: u16 = 0x100;

/// Connected, enabled, powered, high speed.
pub const HIGH: u16 = 0x503;

/// An attach at high speed, up to the acknowledged SetConfiguration.
pub fn attach(configuration: &[u8]) -> Script {
    Script::new()
        .device_reads(&DEVICE)
        .configuration_reads(configuration)
        .done()
}

/// A hub's attach up to the status read before its ports are powered.
pub fn hub_before_power(ports: u8, power_good_delay: u8) -> Script {
    let descriptor = hub_descriptor(ports, power_good_delay);
    attach(&HUB_CONFIGURATION)
        .gives(&descriptor[..2])
        .gives(&descriptor)
        .gives(&[0; 4])
}

/// A hub's attach up to the status read after its ports were powered.
pub fn hub_attach(ports: u8, power_good_delay: u8) -> Script {
    hub_before_power(ports, power_good_delay)
        .done_times(usize::from(ports.min(10)))
        .gives(&[0; 4])
}

/// A connection change up to the end of a reset whose first read shows the
/// change: what follows is the allocation.
pub fn connection_reset(status: u16) -> Script {
    Script::new()
        .gives(&port(status, 1))
        .done()
        .gives(&port(status, 0))
        .done()
        .done()
        .gives(&port(status, 0x10))
        .done()
}

/// A connection change up to the status read after the allocation.
pub fn connection(status: u16) -> Script {
    connection_reset(status).gives(&port(status, 0))
}

/// A port check that finds a device, up to the status read after its allocation.
pub fn found_device(status: u16) -> Script {
    Script::new()
        .gives(&port(status, 1))
        .then(connection(status))
}

/// A child reset of 21 status reads, the last of which gives this.
pub fn late_reset(last: [u8; 4]) -> Script {
    Script::new()
        .done_times(2)
        .gives_times(20, &port(0x111, 0))
        .gives(&last)
        .done()
}

/// A root hub of `ports` ports with a keyboard on port 0, all else empty.
pub fn root_with_keyboard(ports: u8) -> Script {
    hub_attach(ports, 1)
        .then(found_device(HIGH))
        .then(attach(&KEYBOARD_CONFIGURATION))
        .gives_times(usize::from(ports) - 1, &port(POWERED, 0))
}
