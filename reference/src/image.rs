//! A store's bytes as the original's `UsbBus`, and back.

use core::mem::size_of;

use crate::device::usb::device::hub::{set_hub_callbacks, HubLoad};
use crate::device::usb::hcd::hub::*;
use crate::device::usb::types::UsbSpeed;
use crate::device::usb::usbd::descriptors::*;
use crate::device::usb::usbd::device::*;
use crate::layout::*;
use crate::outside::{self, Outside};
use crate::stand_ins::{class_attach, dwc_hub, transfer_error};

const _: () = {
    assert!(size_of::<UsbDeviceDescriptor>() == DEVICE_DESCRIPTOR_LENGTH);
    assert!(size_of::<UsbConfigurationDescriptor>() == CONFIGURATION_LENGTH);
    assert!(size_of::<HubDescriptor>() == HUB_DESCRIPTOR_LENGTH);
    assert!(size_of::<UsbInterfaceDescriptor>() == INTERFACE_LENGTH);
    assert!(size_of::<UsbEndpointDescriptor>() == ENDPOINT_LENGTH);
    assert!(size_of::<HubFullStatus>() == 4);
    assert!(size_of::<HubPortFullStatus>() == 4);
    assert!(MaximumDevices == PLACES && MAX_CHILDREN_PER_DEVICE == PORTS);
};

/// A `UsbBus` that its devices point back to.
pub struct Bus(*mut UsbBus);

impl Drop for Bus {
    fn drop(&mut self) {
        drop(unsafe { Box::from_raw(self.0) });
    }
}

impl Bus {
    /// A bus without devices, with every class handler of the comparison.
    pub fn empty() -> Bus {
        let mut bus = Box::new(UsbBus {
            devices: core::array::from_fn(|_| None),
            interface_class_attach: [Some(class_attach); INTERFACE_CLASS_ATTACH_COUNT],
            roothub_device_number: 0,
            dwc_sc: Box::new(dwc_hub),
        });
        HubLoad(&mut bus);
        Bus(Box::into_raw(bus))
    }

    /// The bus that a sound store holds.
    pub fn from_store(store: &[u8]) -> Result<Bus, Outside> {
        match outside::stored_enums(store) {
            Some(outside) => Err(outside),
            None => Ok(Bus::from_listed(store)),
        }
    }

    /// The same, of a store whose descriptors have listed enum bytes.
    pub fn from_listed(store: &[u8]) -> Bus {
        let bus = Bus::empty();
        for at in devices(store) {
            bus.add(at, place(store, at));
        }
        for at in devices(store) {
            bus.link(at, place(store, at));
        }
        bus
    }

    pub fn as_ptr(&self) -> *mut UsbBus {
        self.0
    }

    pub fn device(&self, at: usize) -> Option<*mut UsbDevice> {
        let devices = unsafe { &mut (*self.0).devices };
        let device = devices.get_mut(at)?.as_mut()?;
        Some(device.as_mut())
    }

    fn add(&self, at: usize, bytes: &[u8]) {
        let mut device = Box::new(unsafe { UsbDevice::new(self.0, bytes[NUMBER].into()) });
        device.speed = speed(bytes[SPEED]);
        device.status = status(bytes[STATUS]);
        device.configuration_index = bytes[CONFIGURATION_INDEX];
        device.port_number = bytes[PORT_NUMBER];
        device.error = error(word(bytes, ERROR));
        device.last_transfer = word(bytes, LAST_TRANSFER);
        unsafe {
            fill(&mut device.descriptor, &bytes[DEVICE_DESCRIPTOR..]);
            fill(&mut device.configuration, &bytes[CONFIGURATION..]);
            fill(&mut device.interfaces, &bytes[RECORD..]);
            fill(&mut device.endpoints, &bytes[ENDPOINTS..]);
        }
        unsafe { (&mut (*self.0).devices)[at] = Some(device) };
    }

    /// Sets what points to other places: the parent and a hub's children.
    fn link(&self, at: usize, bytes: &[u8]) {
        let device = unsafe { &mut *self.device(at).expect("a used place") };
        device.parent = self.pointed(bytes[PARENT]);
        if bytes[HUB] == 0 {
            return;
        }
        let mut hub = Box::new(HubDevice::new());
        hub.Header.data_size = size_of::<HubDevice>() as u32;
        hub.Header.device_driver = DeviceDriverHub;
        hub.MaxChildren = bytes[MAX_CHILDREN].into();
        unsafe {
            fill(&mut hub.Status, &bytes[HUB_STATUS..]);
            fill(&mut hub.PortStatus, &bytes[PORT_STATUSES..]);
        }
        if bytes[HUB] == 2 {
            let mut descriptor = Box::new(HubDescriptor::default());
            unsafe { fill(&mut *descriptor, &bytes[HUB_DESCRIPTOR..]) };
            hub.Descriptor = Some(descriptor);
        }
        for (port, child) in hub.Children.iter_mut().enumerate() {
            let pointed = self.pointed(bytes[CHILDREN + port]);
            *child = pointed.unwrap_or(core::ptr::null_mut());
        }
        device.driver_data = DriverData::new(hub);
        set_hub_callbacks(device);
    }

    /// The device of a byte that is 0 or place + 1.
    fn pointed(&self, byte: u8) -> Option<*mut UsbDevice> {
        let at = usize::from(byte).checked_sub(1)?;
        Some(
            self.device(at)
                .expect("a sound store points to used places"),
        )
    }

    fn place_of(&self, device: *mut UsbDevice) -> u8 {
        let at = (0..PLACES).find(|&at| self.device(at) == Some(device));
        at.expect("a pointer to a device of the bus") as u8 + 1
    }

    /// Writes the bus into a store.
    pub fn to_store(&self, store: &mut [u8]) {
        store.fill(0);
        for at in 0..PLACES {
            if let Some(device) = self.device(at) {
                self.write(unsafe { &mut *device }, place_mut(store, at));
            }
        }
    }

    fn write(&self, device: &mut UsbDevice, bytes: &mut [u8]) {
        bytes[USED] = 1;
        bytes[NUMBER] = device.number.try_into().expect("a number up to 32");
        bytes[SPEED] = device.speed as u8;
        bytes[STATUS] = device.status as u8;
        bytes[CONFIGURATION_INDEX] = device.configuration_index;
        bytes[PORT_NUMBER] = device.port_number;
        bytes[PARENT] = device.parent.map_or(0, |parent| self.place_of(parent));
        bytes[ERROR..][..4].copy_from_slice(&(device.error as u32).to_le_bytes());
        bytes[LAST_TRANSFER..][..4].copy_from_slice(&device.last_transfer.to_le_bytes());
        bytes[DEVICE_DESCRIPTOR..CONFIGURATION].copy_from_slice(read(&device.descriptor));
        bytes[CONFIGURATION..HUB_DESCRIPTOR].copy_from_slice(read(&device.configuration));
        bytes[RECORD..ENDPOINTS].copy_from_slice(read(&device.interfaces));
        bytes[ENDPOINTS..RECORD_END].copy_from_slice(read(&device.endpoints));
        if let Some(hub) = device.driver_data.downcast::<HubDevice>() {
            self.write_hub(hub, bytes);
        }
    }

    fn write_hub(&self, hub: &HubDevice, bytes: &mut [u8]) {
        bytes[HUB] = 1;
        if let Some(descriptor) = &hub.Descriptor {
            bytes[HUB] = 2;
            bytes[HUB_DESCRIPTOR..HUB_STATUS].copy_from_slice(read(&**descriptor));
        }
        bytes[HUB_STATUS..PORT_STATUSES].copy_from_slice(read(&hub.Status));
        bytes[PORT_STATUSES..CHILDREN].copy_from_slice(read(&hub.PortStatus));
        for (port, &child) in hub.Children.iter().enumerate() {
            if !child.is_null() {
                bytes[CHILDREN + port] = self.place_of(child);
            }
        }
        bytes[MAX_CHILDREN] = hub.MaxChildren.try_into().expect("at most 10 children");
    }
}

fn speed(byte: u8) -> UsbSpeed {
    [UsbSpeed::High, UsbSpeed::Full, UsbSpeed::Low][usize::from(byte)]
}

fn status(byte: u8) -> UsbDeviceStatus {
    [
        UsbDeviceStatus::Attached,
        UsbDeviceStatus::Powered,
        UsbDeviceStatus::Default,
        UsbDeviceStatus::Addressed,
        UsbDeviceStatus::Configured,
    ][usize::from(byte)]
}

fn error(word: u32) -> UsbTransferError {
    let mut errors = (0..=31).filter_map(transfer_error);
    let error = errors.find(|&error| error as u32 == word);
    error.expect("a sound store's error")
}

/// Fills a packed structure from the start of `bytes`.
///
/// # Safety
/// Every enum byte among them is listed.
pub unsafe fn fill<T>(structure: &mut T, bytes: &[u8]) {
    let bytes = &bytes[..size_of::<T>()];
    let to = (&raw mut *structure).cast::<u8>();
    unsafe { core::ptr::copy_nonoverlapping(bytes.as_ptr(), to, bytes.len()) };
}

/// The bytes of a packed structure, which has no gaps.
pub fn read<T>(structure: &T) -> &[u8] {
    let from = (&raw const *structure).cast::<u8>();
    unsafe { core::slice::from_raw_parts(from, size_of::<T>()) }
}
