//! What the original imports for bulk and interrupt transfers and for its
//! start. No entry point reaches it; it is here so that the files compile.
#![allow(non_camel_case_types, non_snake_case, non_upper_case_globals)]

use crate::device::usb::types::ResultCode;
use crate::device::usb::usbd::device::{UsbBus, UsbDevice};
use crate::device::usb::usbd::pipe::UsbPipeAddress;

fn reached(name: &str) -> ! {
    panic!("no entry point reaches {name}, and this run did")
}

pub fn ConfigurationLoad(_bus: &mut UsbBus) {
    reached("ConfigurationLoad")
}

pub fn shutdown() -> ! {
    reached("shutdown")
}

pub mod dwc {
    use super::endpoint::endpoint_descriptor;
    use super::transfer::{Callback, PacketId};
    use super::*;

    pub const ChannelCount: usize = 8;

    pub struct ChannelCallback {
        pub endpoint_descriptors: [Option<endpoint_descriptor>; ChannelCount],
        pub callback: [Option<Callback>; ChannelCount],
    }

    pub static mut DWC_CHANNEL_CALLBACK: ChannelCallback = ChannelCallback {
        endpoint_descriptors: [const { None }; ChannelCount],
        callback: [None; ChannelCount],
    };

    pub fn DwcInit(_bus: &mut UsbBus, _base_addr: *mut ()) -> ResultCode {
        reached("DwcInit")
    }

    pub fn dwc_otg_get_active_channel() -> u8 {
        reached("dwc_otg_get_active_channel")
    }

    pub fn dwc_otg_free_channel(_channel: u32) {
        reached("dwc_otg_free_channel")
    }

    /// # Safety
    /// Never reached.
    pub unsafe fn HcdSubmitBulkMessage(
        _device: &mut UsbDevice,
        _channel: u8,
        _pipe: UsbPipeAddress,
        _buffer: Option<Box<[u8]>>,
        _buffer_length: u32,
        _packet_id: PacketId,
    ) -> ResultCode {
        reached("HcdSubmitBulkMessage")
    }

    /// # Safety
    /// Never reached.
    pub unsafe fn HcdSubmitInterruptMessage(
        _device: &mut UsbDevice,
        _channel: u8,
        _pipe: UsbPipeAddress,
        _buffer_length: u32,
        _packet_id: PacketId,
    ) -> ResultCode {
        reached("HcdSubmitInterruptMessage")
    }
}

pub mod endpoint {
    use super::*;
    use crate::device::usb::types::{UsbDirection, UsbPacketSize, UsbSpeed, UsbTransfer};

    pub struct endpoint_descriptor {
        pub endpoint_address: u8,
        pub endpoint_direction: UsbDirection,
        pub endpoint_type: UsbTransfer,
        pub max_packet_size: UsbPacketSize,
        pub device_endpoint_number: u8,
        pub device: *mut UsbDevice,
        pub device_number: u32,
        pub device_speed: UsbSpeed,
        pub buffer_length: u32,
        pub timeout: u32,
    }

    pub fn finish_bulk_endpoint_callback_in(_: endpoint_descriptor, _: u32, _: u8) -> bool {
        reached("finish_bulk_endpoint_callback_in")
    }

    pub fn finish_bulk_endpoint_callback_out(_: endpoint_descriptor, _: u32, _: u8) -> bool {
        reached("finish_bulk_endpoint_callback_out")
    }
}

pub mod transfer {
    use super::endpoint::endpoint_descriptor;
    use super::*;
    use crate::device::usb::types::UsbTransfer;

    pub type Callback = fn(endpoint_descriptor, u32, u8) -> bool;

    pub enum PacketId {}

    pub struct UsbXfer {
        pub endpoint_descriptor: endpoint_descriptor,
        pub buffer: Option<Box<[u8]>>,
        pub buffer_length: u32,
        pub callback: Option<Callback>,
        pub packet_id: PacketId,
        pub pipe: UsbPipeAddress,
    }

    pub struct UsbTransferQueue;

    impl UsbTransferQueue {
        #[allow(clippy::new_without_default)]
        pub const fn new() -> Self {
            UsbTransferQueue
        }

        #[allow(clippy::result_unit_err)]
        pub fn add_transfer(&self, _: Box<UsbXfer>, _: UsbTransfer) -> Result<(), ()> {
            reached("UsbTransferQueue::add_transfer")
        }

        pub fn get_transfer(&self) -> Option<Box<UsbXfer>> {
            reached("UsbTransferQueue::get_transfer")
        }
    }
}
