//! The port's functions, as the static library has them. Nothing checks these
//! declarations against the port's source, crates/lidrumak/src/lib.rt.
#![allow(unsafe_code)]

use reference::call::{Call, Entry};

/// What a call hands back.
#[repr(C)]
#[derive(Clone, Copy, Debug, PartialEq, Eq)]
pub struct Reply {
    pub answer: i32,
    pub requests: u64,
}

extern "C" {
    fn lidrumak_configuration_walk(
        descriptors: *const u8,
        descriptors_len: usize,
        record: *mut u8,
        record_len: usize,
    ) -> i32;
}

/// The configuration walk alone. It asks nothing of its arguments.
pub fn configuration_walk(descriptors: &[u8], record: &mut [u8]) -> i32 {
    // Both slices are valid for the call, and do not overlap.
    unsafe {
        lidrumak_configuration_walk(
            descriptors.as_ptr(),
            descriptors.len(),
            record.as_mut_ptr(),
            record.len(),
        )
    }
}

/// An entry point: its declaration, and a safe function that calls it.
macro_rules! entry_point {
    ($name:ident, $symbol:ident, $($number:ident),+) => {
        extern "C" {
            fn $symbol(
                old: *const u8,
                old_len: usize,
                new: *mut u8,
                new_len: usize,
                outcomes: *const u8,
                outcomes_len: usize,
                log: *mut u8,
                log_len: usize,
                $($number: u32),+
            ) -> Reply;
        }

        /// It asks nothing of its arguments.
        pub fn $name(
            old: &[u8],
            new: &mut [u8],
            outcomes: &[u8],
            log: &mut [u8],
            $($number: u32),+
        ) -> Reply {
            // All slices are valid for the call, and do not overlap.
            unsafe {
                $symbol(
                    old.as_ptr(),
                    old.len(),
                    new.as_mut_ptr(),
                    new.len(),
                    outcomes.as_ptr(),
                    outcomes.len(),
                    log.as_mut_ptr(),
                    log.len(),
                    $($number),+
                )
            }
        }
    };
}

entry_point!(root_attach, lidrumak_root_attach, speed);
entry_point!(scan, lidrumak_scan, hub);
entry_point!(port_check, lidrumak_port_check, hub, port);
entry_point!(child_reset, lidrumak_child_reset, hub, child);
entry_point!(child_check, lidrumak_child_check, hub, child);
entry_point!(retried_reset, lidrumak_retried_reset, hub, port);
entry_point!(connection_change, lidrumak_connection_change, hub, port);

/// Any of the seven.
pub fn call(call: Call, old: &[u8], new: &mut [u8], outcomes: &[u8], log: &mut [u8]) -> Reply {
    let [first, second] = call.numbers;
    match call.entry {
        Entry::RootAttach => root_attach(old, new, outcomes, log, first),
        Entry::Scan => scan(old, new, outcomes, log, first),
        Entry::PortCheck => port_check(old, new, outcomes, log, first, second),
        Entry::ChildReset => child_reset(old, new, outcomes, log, first, second),
        Entry::ChildCheck => child_check(old, new, outcomes, log, first, second),
        Entry::RetriedReset => retried_reset(old, new, outcomes, log, first, second),
        Entry::ConnectionChange => connection_change(old, new, outcomes, log, first, second),
    }
}
