//! The store of document 01: 32 places of 1,152 bytes.

pub const PLACES: usize = 32;
pub const PLACE: usize = 1152;
pub const STORE: usize = PLACES * PLACE;

pub const USED: usize = 0;
pub const NUMBER: usize = 1;
pub const SPEED: usize = 2;
pub const STATUS: usize = 3;
pub const CONFIGURATION_INDEX: usize = 4;
pub const PORT_NUMBER: usize = 5;
pub const PARENT: usize = 6;
pub const HUB: usize = 7;
pub const ERROR: usize = 8;
pub const LAST_TRANSFER: usize = 12;
pub const DEVICE_DESCRIPTOR: usize = 16;
pub const CONFIGURATION: usize = 34;
pub const HUB_DESCRIPTOR: usize = 43;
pub const HUB_STATUS: usize = 52;
pub const PORT_STATUSES: usize = 56;
pub const CHILDREN: usize = 96;
pub const MAX_CHILDREN: usize = 106;
pub const RECORD: usize = 128;
pub const ENDPOINTS: usize = 200;
pub const RECORD_END: usize = 1096;

pub const PORTS: usize = 10;
pub const INTERFACES: usize = 8;
pub const ENDPOINTS_PER_INTERFACE: usize = 16;
pub const DEVICE_DESCRIPTOR_LENGTH: usize = 18;
pub const CONFIGURATION_LENGTH: usize = 9;
pub const HUB_DESCRIPTOR_LENGTH: usize = 9;
pub const INTERFACE_LENGTH: usize = 9;
pub const ENDPOINT_LENGTH: usize = 7;
pub const RECORD_LENGTH: usize = RECORD_END - RECORD;
pub const INTERFACES_LENGTH: usize = INTERFACES * INTERFACE_LENGTH;

pub const ACTION: usize = 16;

/// The log that a call is usually lent: 4,096 actions.
pub const LOG: usize = 65_536;

/// The bytes of one place.
pub fn place(store: &[u8], place: usize) -> &[u8] {
    &store[place * PLACE..][..PLACE]
}

/// The bytes of one place, to write.
pub fn place_mut(store: &mut [u8], place: usize) -> &mut [u8] {
    &mut store[place * PLACE..][..PLACE]
}

pub fn is_used(store: &[u8], at: usize) -> bool {
    at < PLACES && place(store, at)[USED] == 1
}

pub fn is_hub(store: &[u8], at: usize) -> bool {
    is_used(store, at) && place(store, at)[HUB] != 0
}

/// The places that are used.
pub fn devices(store: &[u8]) -> impl Iterator<Item = usize> + '_ {
    (0..PLACES).filter(|&at| is_used(store, at))
}

/// The places of hubs.
pub fn hubs(store: &[u8]) -> impl Iterator<Item = usize> + '_ {
    (0..PLACES).filter(|&at| is_hub(store, at))
}

/// A four-byte field of a place.
pub fn word(place: &[u8], field: usize) -> u32 {
    u32::from_le_bytes([
        place[field],
        place[field + 1],
        place[field + 2],
        place[field + 3],
    ])
}

/// The values of the Rust's `DescriptorType`.
pub fn is_descriptor_type(byte: u8) -> bool {
    matches!(byte, 1..=8 | 33..=35 | 41)
}

/// The values of the Rust's `DeviceClass`.
pub fn is_device_class(byte: u8) -> bool {
    matches!(byte, 0x00 | 0x02 | 0x09 | 0xdc | 0xef | 0xff)
}

/// The values of the Rust's `InterfaceClass`.
pub fn is_interface_class(byte: u8) -> bool {
    matches!(
        byte,
        0x00..=0x03 | 0x05..=0x0b | 0x0d..=0x10 | 0xdc | 0xe0 | 0xef | 0xfe | 0xff
    )
}

/// The values of the Rust's `UsbTransferError`.
pub fn is_transfer_error(word: u32) -> bool {
    word == 0 || word == 1 << 31 || (1..=9).any(|bit| word == 1 << bit)
}
