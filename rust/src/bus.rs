//! A store kept from call to call.

use crate::{Reply, Store};

/// A bus: a store, and a second one for the next call to write.
///
/// A call that runs to its end puts its new store in the old one's place. After
/// a refusal or a stop the old store stays: a stopped call is repeated with the
/// same outcomes and more of them, or with the same outcomes and a longer log.
///
/// Each call fills the log with zeros first, so that
/// [`Actions`](crate::Actions) shows the actions of that call alone.
///
/// A bus has 73,729 bytes and belongs in a static or on a heap:
///
/// ```
/// use lidrumak::{Answer, Bus};
/// use std::sync::Mutex;
///
/// static BUS: Mutex<Bus> = Mutex::new(Bus::new());
///
/// let mut log = [0; 64];
/// let reply = BUS.lock().unwrap().root_attach(&[], &mut log, 0);
/// assert_eq!(reply.answer, Answer::OutcomesSpent);
/// assert_eq!(BUS.lock().unwrap().store().devices().count(), 0);
/// ```
#[derive(Debug, Clone)]
pub struct Bus {
    stores: [Store; 2],
    /// Is the second store the old one of the next call?
    second: bool,
}

impl Bus {
    /// A bus without devices.
    pub const fn new() -> Bus {
        Bus {
            stores: [Store::EMPTY; 2],
            second: false,
        }
    }

    /// The store: what the next call takes as the old one.
    pub const fn store(&self) -> &Store {
        let [first, second] = &self.stores;
        if self.second {
            second
        } else {
            first
        }
    }

    /// The store, to put a saved one in its place.
    pub const fn store_mut(&mut self) -> &mut Store {
        let [first, second] = &mut self.stores;
        if self.second {
            second
        } else {
            first
        }
    }

    /// Forgets every device: the next call is a root attach.
    pub fn clear(&mut self) {
        self.store_mut().as_bytes_mut().fill(0);
    }

    /// [`root_attach`](crate::root_attach) on this bus.
    pub fn root_attach(&mut self, outcomes: &[u8], log: &mut [u8], speed: u32) -> Reply {
        self.call(log, |old, new, log| {
            crate::root_attach(old, new, outcomes, log, speed)
        })
    }

    /// [`scan`](crate::scan) on this bus.
    pub fn scan(&mut self, outcomes: &[u8], log: &mut [u8], hub: u32) -> Reply {
        self.call(log, |old, new, log| {
            crate::scan(old, new, outcomes, log, hub)
        })
    }

    /// [`port_check`](crate::port_check) on this bus.
    pub fn port_check(&mut self, outcomes: &[u8], log: &mut [u8], hub: u32, port: u32) -> Reply {
        self.call(log, |old, new, log| {
            crate::port_check(old, new, outcomes, log, hub, port)
        })
    }

    /// [`child_reset`](crate::child_reset) on this bus.
    pub fn child_reset(&mut self, outcomes: &[u8], log: &mut [u8], hub: u32, child: u32) -> Reply {
        self.call(log, |old, new, log| {
            crate::child_reset(old, new, outcomes, log, hub, child)
        })
    }

    /// [`child_check`](crate::child_check) on this bus.
    pub fn child_check(&mut self, outcomes: &[u8], log: &mut [u8], hub: u32, child: u32) -> Reply {
        self.call(log, |old, new, log| {
            crate::child_check(old, new, outcomes, log, hub, child)
        })
    }

    /// [`retried_reset`](crate::retried_reset) on this bus.
    pub fn retried_reset(&mut self, outcomes: &[u8], log: &mut [u8], hub: u32, port: u32) -> Reply {
        self.call(log, |old, new, log| {
            crate::retried_reset(old, new, outcomes, log, hub, port)
        })
    }

    /// [`connection_change`](crate::connection_change) on this bus.
    pub fn connection_change(
        &mut self,
        outcomes: &[u8],
        log: &mut [u8],
        hub: u32,
        port: u32,
    ) -> Reply {
        self.call(log, |old, new, log| {
            crate::connection_change(old, new, outcomes, log, hub, port)
        })
    }

    fn call(
        &mut self,
        log: &mut [u8],
        entry: impl FnOnce(&[u8], &mut [u8], &mut [u8]) -> Reply,
    ) -> Reply {
        log.fill(0);
        let [first, second] = &mut self.stores;
        let (old, new) = if self.second {
            (second, first)
        } else {
            (first, second)
        };
        let reply = entry(old.as_bytes(), new.as_bytes_mut(), log);
        if reply.has_ended() {
            self.second = !self.second;
        }
        reply
    }
}

impl Default for Bus {
    fn default() -> Bus {
        Bus::new()
    }
}
