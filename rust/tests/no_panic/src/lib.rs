//! Reaches every public function of lidrumak, and the traits that it implements
//! itself, with arguments that the compiler doesn't know. ../../no_panic.rs looks
//! for panics in the code that it makes.
#![no_std]
#![allow(improper_ctypes_definitions)]

use core::fmt::{self, Write};
use core::panic::PanicInfo;

use lidrumak::*;

#[panic_handler]
fn panic(_: &PanicInfo) -> ! {
    loop {}
}

type Slices<'a> = (&'a [u8], &'a mut [u8], &'a [u8], &'a mut [u8]);

#[no_mangle]
pub extern "C" fn calls((old, new, outcomes, log): Slices, first: u32, second: u32) -> [Reply; 7] {
    [
        root_attach(old, new, outcomes, log, first),
        scan(old, new, outcomes, log, first),
        port_check(old, new, outcomes, log, first, second),
        child_reset(old, new, outcomes, log, first, second),
        child_check(old, new, outcomes, log, first, second),
        retried_reset(old, new, outcomes, log, first, second),
        connection_change(old, new, outcomes, log, first, second),
    ]
}

#[no_mangle]
pub extern "C" fn walk(descriptors: &[u8], record: &mut [u8]) -> Answer {
    configuration_walk(descriptors, record)
}

#[no_mangle]
pub extern "C" fn bus(bus: &mut Bus, outcomes: &[u8], log: &mut [u8], first: u32, second: u32) {
    bus.root_attach(outcomes, log, first);
    bus.scan(outcomes, log, first);
    bus.port_check(outcomes, log, first, second);
    bus.child_reset(outcomes, log, first, second);
    bus.child_check(outcomes, log, first, second);
    bus.retried_reset(outcomes, log, first, second);
    bus.connection_change(outcomes, log, first, second);
    let saved = *bus.store().as_bytes();
    bus.clear();
    *bus.store_mut() = Store::from_bytes(saved);
}

/// Writes the empty ones.
#[no_mangle]
pub extern "C" fn empty(buses: &mut [Bus; 2], stores: &mut [Store; 2]) {
    *buses = [Bus::new(), Bus::default()];
    *stores = [Store::new(), Store::default()];
}

#[no_mangle]
pub extern "C" fn devices(store: &Store, visit: fn(Device, bool, bool), hub: u32, port: u32) {
    let visit = |device: Device| visit(device, device.is_hub(), device.is_configured());
    store.devices().for_each(visit);
    store.device(hub).into_iter().for_each(visit);
    let on = store.device_on(HubPort { hub, port });
    on.into_iter().for_each(visit);
}

#[no_mangle]
pub extern "C" fn ports(store: &Store, hub: u32, port: u32, length: &mut Length) -> usize {
    let at = HubPort { hub, port };
    let connected = store.port_status(at).map(|status| status.is_connected());
    let mut route = store.route(hub);
    let shown = route.by_ref().all(|at| write!(length, "{at}").is_ok());
    route.count() + usize::from(connected == Some(shown))
}

#[no_mangle]
pub extern "C" fn debug(store: &Store, length: &mut Length) -> bool {
    write!(length, "{store:?}").is_ok()
}

#[no_mangle]
pub extern "C" fn numbers(number: u8, length: &mut Length) -> Option<[u8; 3]> {
    let speed = Speed::from_number(number)?;
    let status = Status::from_number(number)?;
    let error = TransferError::from_number(number)?;
    write!(length, "{speed} {status} {error}").ok()?;
    Some([speed.number(), status.number(), error.number()])
}

#[no_mangle]
pub extern "C" fn actions(log: &[u8], visit: fn(Action), count: fn(u16)) {
    for action in Actions::new(log) {
        visit(action);
        if let Some(request) = action.request() {
            count(u16::from(request.request_type()));
            count(u16::from(request.request()));
            count(request.value());
            count(request.index());
            count(request.length());
        }
    }
}

#[no_mangle]
pub extern "C" fn one_action(bytes: &[u8; ACTION_LENGTH]) -> Option<Action> {
    Action::from_bytes(bytes)
}

#[no_mangle]
pub extern "C" fn outcomes(buffer: &mut [u8], code: i32, bit: u8, data: &[u8]) -> Option<Answer> {
    let mut outcomes = Outcomes::new(buffer);
    let outcome = Outcome {
        submit: Answer::from_number(code)?,
        ..Outcome::new(TransferError::from_number(bit)?, data)
    };
    while outcomes.push(outcome).is_ok() {}
    let last = outcomes.iter().last()?.result();
    outcomes.clear();
    let read = OutcomesIter::new(data).last()?.result();
    outcomes.push(Outcome::done(data)).ok()?;
    outcomes.push(Outcome::not_submitted(last)).ok()?;
    let count = outcomes.into_iter().count() + outcomes.as_bytes().len();
    Some(if count % 2 == 0 { last } else { read })
}

#[no_mangle]
pub extern "C" fn refused(buffer: &mut [u8], outcome: Outcome, length: &mut Length) -> bool {
    let written = Outcomes::new(buffer).push(outcome);
    written.is_err_and(|refused| write!(length, "{refused}").is_ok())
}

pub struct Length(usize);

impl Write for Length {
    fn write_str(&mut self, text: &str) -> fmt::Result {
        self.0 = self.0.wrapping_add(text.len());
        Ok(())
    }
}

#[no_mangle]
pub extern "C" fn answers(number: i32, requests: u64, length: &mut Length) -> Option<i32> {
    let reply = Reply::from_numbers(number, requests);
    let answer = reply.answer;
    write!(length, "{answer} {}", answer.word()).ok()?;
    if reply.has_ended() || answer.is_ok() || answer.is_stop() {
        return Some(answer.number());
    }
    let failure = reply.result().and(answer.result()).err()?;
    write!(length, "{failure}").ok()?;
    Some(failure.answer().number())
}

#[no_mangle]
pub extern "C" fn unlisted(number: i32, length: &mut Length) -> Result<Answer, i32> {
    Answer::try_from(number).map_err(|unlisted| {
        let shown = write!(length, "{unlisted}").is_ok();
        unlisted.number() + i32::from(shown)
    })
}

#[cfg(feature = "control")]
#[no_mangle]
pub extern "C" fn control(bytes: &[u8], at: usize) -> u8 {
    bytes[at]
}
