//! The store: 32 places of 1,152 bytes.

use core::fmt;

use crate::device::{place_on, port_status};
use crate::{Device, Devices, HubPort, PortStatus, Route};

/// The bytes of a store.
pub const STORE_LENGTH: usize = 36_864;

/// The bytes of a configuration's record: 8 interfaces and 8 times 16 endpoints.
pub const RECORD_LENGTH: usize = 968;

pub(crate) const PLACES: u32 = 32;

pub(crate) type Place = [u8; 1152];

/// A store: all that the driver knows of the bus. It may hold any bytes; a call
/// answers [`StoreDamaged`](crate::Answer::StoreDamaged) to one that isn't sound.
#[derive(Clone, PartialEq, Eq)]
#[repr(transparent)]
pub struct Store([u8; STORE_LENGTH]);

impl Store {
    /// The store of a bus without devices: all zero.
    pub const EMPTY: Store = Store([0; STORE_LENGTH]);

    /// The store of a bus without devices.
    pub const fn new() -> Store {
        Store::EMPTY
    }

    /// A store of any bytes.
    pub const fn from_bytes(bytes: [u8; STORE_LENGTH]) -> Store {
        Store(bytes)
    }

    /// The bytes.
    pub const fn as_bytes(&self) -> &[u8; STORE_LENGTH] {
        &self.0
    }

    /// The bytes, to write.
    pub const fn as_bytes_mut(&mut self) -> &mut [u8; STORE_LENGTH] {
        &mut self.0
    }

    /// The devices, in the order of their places.
    pub const fn devices(&self) -> Devices<'_> {
        Devices::new(self)
    }

    /// The device at a place.
    pub fn device(&self, place: u32) -> Option<Device> {
        Device::read(self, place)
    }

    /// The device that stands on a hub's port.
    pub fn device_on(&self, port: HubPort) -> Option<Device> {
        let device = self.device(place_on(self, port)?)?;
        (device.port == Some(port)).then_some(device)
    }

    /// What the last read of a port's status brought; zeros before the first.
    /// `None` if there is no such hub, or the port is above 9.
    pub fn port_status(&self, port: HubPort) -> Option<PortStatus> {
        port_status(self, port)
    }

    /// The ports on the way from the device at a place to the root hub.
    pub fn route(&self, place: u32) -> Route<'_> {
        Route::new(self, place)
    }

    pub(crate) fn place(&self, place: u32) -> Option<&Place> {
        let place = usize::try_from(place).ok()?;
        self.0
            .chunks_exact(size_of::<Place>())
            .nth(place)?
            .first_chunk()
    }
}

impl Default for Store {
    fn default() -> Store {
        Store::EMPTY
    }
}

/// Lists the devices.
impl fmt::Debug for Store {
    fn fmt(&self, f: &mut fmt::Formatter<'_>) -> fmt::Result {
        f.debug_list().entries(self.devices()).finish()
    }
}
