//! The functions of the static library. Nothing checks these declarations
//! against the library's source, crates/lidrumak/src/lib.rt; tests/c_header.rs
//! compares the calls with those through include/lidrumak.h.
#![allow(unsafe_code)]

use crate::{Answer, Reply};

#[repr(C)]
struct RawReply {
    answer: i32,
    requests: u64,
}

macro_rules! calls {
    ($($(#[$doc:meta])* $name:ident, $symbol:ident, $($number:ident),+;)+) => {
        extern "C" {
            $(fn $symbol(
                old: *const u8,
                old_length: usize,
                new: *mut u8,
                new_length: usize,
                outcomes: *const u8,
                outcomes_length: usize,
                log: *mut u8,
                log_length: usize,
                $($number: u32),+
            ) -> RawReply;)+
        }

        $($(#[$doc])*
        pub fn $name(
            old: &[u8],
            new: &mut [u8],
            outcomes: &[u8],
            log: &mut [u8],
            $($number: u32),+
        ) -> Reply {
            // SAFETY: each pointer is a slice's, with its length, valid for the
            // call; `new` and `log` overlap nothing. The function has no other
            // precondition and keeps no pointer.
            let raw = unsafe {
                $symbol(
                    old.as_ptr(),
                    old.len(),
                    new.as_mut_ptr(),
                    new.len(),
                    outcomes.as_ptr(),
                    outcomes.len(),
                    log.as_mut_ptr(),
                    log.len(),
                    $($number),+
                )
            };
            Reply::from_numbers(raw.answer, raw.requests)
        })+
    };
}

calls! {
    /// `UsbAttachRootHub`: attaches the root hub to an empty store, and every
    /// device found behind it. The root speed is 0 high, 1 full, 2 low.
    root_attach, lidrumak_root_attach, speed;

    /// `HubCheckForChange`: checks every port of the hub at place `hub`, and of
    /// the hubs behind it.
    scan, lidrumak_scan, hub;

    /// `HubCheckConnection`: checks one port, counted from 0.
    port_check, lidrumak_port_check, hub, port;

    /// `HubChildReset`: resets the port on which the device at place `child`
    /// stands.
    child_reset, lidrumak_child_reset, hub, child;

    /// `HubCheckConnectionDevice`: checks the port on which the device at place
    /// `child` stands.
    child_check, lidrumak_child_check, hub, child;

    /// `HubPortReset`: resets a port, counted from 0, in up to three tries.
    retried_reset, lidrumak_retried_reset, hub, port;

    /// `HubPortConnectionChanged`: attaches what was connected to a port,
    /// counted from 0; also where an earlier connection change of that port
    /// failed after it had cleared the change, so that a scan sees none.
    connection_change, lidrumak_connection_change, hub, port;
}

extern "C" {
    fn lidrumak_configuration_walk(
        descriptors: *const u8,
        descriptors_length: usize,
        record: *mut u8,
        record_length: usize,
    ) -> i32;
}

/// The configuration walk alone: copies interfaces and endpoints out of a
/// configuration's descriptor bytes into a record of
/// [`RECORD_LENGTH`](crate::RECORD_LENGTH) bytes.
pub fn configuration_walk(descriptors: &[u8], record: &mut [u8]) -> Answer {
    // SAFETY: as above.
    let number = unsafe {
        lidrumak_configuration_walk(
            descriptors.as_ptr(),
            descriptors.len(),
            record.as_mut_ptr(),
            record.len(),
        )
    };
    Reply::from_numbers(number, 0).answer
}
