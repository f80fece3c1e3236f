//! The devices that a store shows.

use core::fmt;
use core::iter::FusedIterator;

use crate::store::{Place, PLACES};
use crate::Store;

/// A device's speed.
#[derive(Debug, Clone, Copy, PartialEq, Eq, Hash)]
#[repr(u8)]
pub enum Speed {
    /// 480 Mb/s.
    High = 0,
    /// 12 Mb/s.
    Full = 1,
    /// 1.5 Mb/s.
    Low = 2,
}

impl Speed {
    /// The speed of its number: 0 high, 1 full, 2 low.
    pub const fn from_number(number: u8) -> Option<Speed> {
        match number {
            0 => Some(Speed::High),
            1 => Some(Speed::Full),
            2 => Some(Speed::Low),
            _ => None,
        }
    }

    /// Its number; [`root_attach`](crate::root_attach) takes it as a `u32`.
    pub const fn number(self) -> u8 {
        self as u8
    }
}

/// Document 01's word.
impl fmt::Display for Speed {
    fn fmt(&self, f: &mut fmt::Formatter<'_>) -> fmt::Result {
        f.write_str(match self {
            Speed::High => "high",
            Speed::Full => "full",
            Speed::Low => "low",
        })
    }
}

/// How far a device has come (USB 2.0, 9.1), by the names of the Rust's
/// `UsbDeviceStatus`.
#[derive(Debug, Clone, Copy, PartialEq, Eq, PartialOrd, Ord, Hash)]
#[repr(u8)]
pub enum Status {
    /// It has a place.
    Attached = 0,
    /// The root hub before its first descriptor was read.
    Powered = 1,
    /// Its first descriptor was read.
    Default = 2,
    /// Its address was acknowledged.
    Addressed = 3,
    /// Its configuration was acknowledged.
    Configured = 4,
}

impl Status {
    /// The status of its number.
    pub const fn from_number(number: u8) -> Option<Status> {
        match number {
            0 => Some(Status::Attached),
            1 => Some(Status::Powered),
            2 => Some(Status::Default),
            3 => Some(Status::Addressed),
            4 => Some(Status::Configured),
            _ => None,
        }
    }

    /// Its number.
    pub const fn number(self) -> u8 {
        self as u8
    }
}

/// The name.
impl fmt::Display for Status {
    fn fmt(&self, f: &mut fmt::Formatter<'_>) -> fmt::Result {
        f.write_str(match self {
            Status::Attached => "Attached",
            Status::Powered => "Powered",
            Status::Default => "Default",
            Status::Addressed => "Addressed",
            Status::Configured => "Configured",
        })
    }
}

/// A port of a hub.
#[derive(Debug, Clone, Copy, PartialEq, Eq, PartialOrd, Ord, Hash)]
pub struct HubPort {
    /// The hub's place.
    pub hub: u32,
    /// The port, counted from 0.
    pub port: u32,
}

/// Both numbers as the calls take them.
impl fmt::Display for HubPort {
    fn fmt(&self, f: &mut fmt::Formatter<'_>) -> fmt::Result {
        write!(f, "hub {}, port {}", self.hub, self.port)
    }
}

/// What the last read of a port's status brought (USB 2.0, 11.24.2.7).
#[derive(Debug, Clone, Copy, PartialEq, Eq, Hash)]
pub struct PortStatus {
    /// wPortStatus.
    pub status: u16,
    /// wPortChange.
    pub change: u16,
}

impl PortStatus {
    /// Does it show a connected device (bit 0)?
    pub const fn is_connected(&self) -> bool {
        self.status & 1 != 0
    }
}

/// A used place of a store.
#[derive(Debug, Clone, Copy, PartialEq, Eq, Hash)]
pub struct Device {
    /// The place, 0 for the root hub: what the calls take as hub or child.
    pub place: u32,
    /// The device's address: place + 1.
    pub address: u8,
    /// The address to which requests go: place + 1, or 0 where the first
    /// descriptor read failed.
    pub number: u8,
    /// The speed.
    pub speed: Speed,
    /// How far it has come.
    pub status: Status,
    /// Where it stands as a child; `None` for the root hub.
    pub port: Option<HubPort>,
    /// MaxChildren, the number of its ports, if it is a hub.
    pub ports: Option<u8>,
    /// The class of interface 0, on which the driver decides: 9 is a hub.
    pub class: u8,
    /// The class in the device descriptor.
    pub device_class: u8,
    /// The vendor's number.
    pub vendor: u16,
    /// The vendor's number of the product.
    pub product: u16,
    /// The value in the configuration descriptor, which SetConfiguration sends.
    pub configuration_value: u8,
}

impl Device {
    /// Is its status Configured?
    pub const fn is_configured(&self) -> bool {
        matches!(self.status, Status::Configured)
    }

    /// Is it a hub?
    pub const fn is_hub(&self) -> bool {
        self.ports.is_some()
    }

    /// The device at a place, if it is used and holds listed values.
    pub(crate) fn read(store: &Store, place: u32) -> Option<Device> {
        let bytes = store.place(place)?;
        if bytes[0] != 1 {
            return None;
        }
        let ports = match bytes[7] {
            0 => None,
            1 | 2 => Some(bytes[106].min(10)),
            _ => return None,
        };
        Some(Device {
            place,
            address: address(place)?,
            number: bytes[1],
            speed: Speed::from_number(bytes[2])?,
            status: Status::from_number(bytes[3])?,
            port: port_of(store, place),
            ports,
            class: bytes[133],
            device_class: bytes[20],
            vendor: u16::from_le_bytes([bytes[24], bytes[25]]),
            product: u16::from_le_bytes([bytes[26], bytes[27]]),
            configuration_value: bytes[39],
        })
    }
}

/// A place's address, which is also what stands in its hub's child byte.
fn address(place: u32) -> Option<u8> {
    u8::try_from(place).ok()?.checked_add(1)
}

fn is_hub(bytes: &Place) -> bool {
    matches!((bytes[0], bytes[7]), (1, 1 | 2))
}

/// The ten child bytes of a hub: 0 none, else place + 1.
fn children(bytes: &Place) -> &[u8] {
    if is_hub(bytes) {
        &bytes[96..106]
    } else {
        &[]
    }
}

/// The port on which a place stands as a child: of a hub at a smaller place.
fn port_of(store: &Store, place: u32) -> Option<HubPort> {
    let byte = address(place)?;
    (0..place).find_map(|hub| {
        let children = children(store.place(hub)?);
        let port = children.iter().position(|child| *child == byte)?;
        let port = u32::try_from(port).ok()?;
        Some(HubPort { hub, port })
    })
}

/// The place that stands as a child on a port.
pub(crate) fn place_on(store: &Store, at: HubPort) -> Option<u32> {
    let port = usize::try_from(at.port).ok()?;
    let byte = children(store.place(at.hub)?).get(port)?;
    u32::from(*byte).checked_sub(1)
}

/// The stored status of a hub's port.
pub(crate) fn port_status(store: &Store, at: HubPort) -> Option<PortStatus> {
    let port = usize::try_from(at.port).ok()?;
    let bytes = store.place(at.hub).filter(|bytes| is_hub(bytes))?;
    let mut statuses = bytes[56..96].chunks_exact(4);
    let &[a, b, c, d] = statuses.nth(port)?.first_chunk()?;
    Some(PortStatus {
        status: u16::from_le_bytes([a, b]),
        change: u16::from_le_bytes([c, d]),
    })
}

/// An iterator over the devices of a store, in the order of their places.
///
/// It passes over a place that is not used, or that holds a speed, status or
/// hub byte outside its table; a sound store has none of the latter.
///
/// ```
/// use lidrumak::Store;
///
/// assert_eq!(Store::EMPTY.devices().count(), 0);
///
/// let mut store = Store::new();
/// store.as_bytes_mut()[..4].copy_from_slice(&[1, 1, 0, 1]); // used, number, high speed, powered
/// let root = store.devices().next().unwrap();
/// assert_eq!((root.place, root.address, root.port), (0, 1, None));
/// ```
#[derive(Debug, Clone)]
pub struct Devices<'a> {
    store: &'a Store,
    places: core::ops::Range<u32>,
}

impl<'a> Devices<'a> {
    pub(crate) const fn new(store: &'a Store) -> Devices<'a> {
        Devices {
            store,
            places: 0..PLACES,
        }
    }
}

impl Iterator for Devices<'_> {
    type Item = Device;

    fn next(&mut self) -> Option<Device> {
        let store = self.store;
        self.places.find_map(|place| Device::read(store, place))
    }
}

impl FusedIterator for Devices<'_> {}

/// An iterator over the ports on the way from a device to the root hub, its own
/// port first. The ports, unlike places and addresses, do not depend on the
/// order in which devices were found.
#[derive(Debug, Clone)]
pub struct Route<'a> {
    store: &'a Store,
    next: Option<HubPort>,
}

impl<'a> Route<'a> {
    pub(crate) fn new(store: &'a Store, place: u32) -> Route<'a> {
        let next = Device::read(store, place).and_then(|device| device.port);
        Route { store, next }
    }
}

impl Iterator for Route<'_> {
    type Item = HubPort;

    fn next(&mut self) -> Option<HubPort> {
        let port = self.next?;
        self.next = Route::new(self.store, port.hub).next;
        Some(port)
    }
}

impl FusedIterator for Route<'_> {}
