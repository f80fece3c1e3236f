//! A USB core and hub driver whose promises are proved by machine, for kernels
//! in Rust.
//!
//! The driver is a static library, written and proved in Rattle. It performs no
//! transfer itself. A call takes a store, which holds all that is known of the
//! bus, and what each transfer did (the *outcomes*); it leaves a new store and
//! the actions to perform (the *log*): control requests and waits. A call that
//! needs an outcome that isn't there yet answers
//! [`OutcomesSpent`](Answer::OutcomesSpent) with the request last in the log; it
//! is repeated from the old store when that transfer has run. The example
//! `kernel_glue` does this for every transfer.
//!
//! Eight functions are the library's own, and take slices of any length and any
//! content: [`root_attach`], [`scan`], [`port_check`], [`child_reset`],
//! [`child_check`], [`retried_reset`], [`connection_change`] and
//! [`configuration_walk`]. The first seven write `new` and `log` and read `old`
//! and `outcomes`; places and ports are counted from 0. [`Bus`] keeps the stores
//! from call to call.
//!
//! A bench start: an instrument on the second port of the root hub, a hub on the
//! third, and an instrument on the first port of that hub.
//!
//! ```
//! use lidrumak::{Answer, Bus, HubPort};
//!
//! let outcomes = include_bytes!(concat!(
//!     env!("CARGO_MANIFEST_DIR"),
//!     "/../samples/bench_start.outcomes"
//! ));
//! let mut log = vec![0; 4096];
//! let mut bus = Box::new(Bus::new());
//!
//! let reply = bus.root_attach(outcomes, &mut log, 0);
//! assert_eq!((reply.answer, reply.requests), (Answer::Ok, 68));
//!
//! let first = bus.store().device_on(HubPort { hub: 0, port: 1 }).unwrap();
//! let hub = bus.store().device_on(HubPort { hub: 0, port: 2 }).unwrap();
//! let second = bus.store().device_on(HubPort { hub: hub.place, port: 0 }).unwrap();
//! assert!(first.is_configured() && second.is_configured());
//! assert_eq!((first.vendor, first.product), (0x1234, 1));
//! assert_eq!((second.vendor, second.product), (0x1234, 2));
//! ```
//!
//! The same, one transfer at a time. What the host controller would do is here
//! read from the sample; only actions that are new since the last repeat are
//! performed.
//!
//! ```
//! use lidrumak::{Action, Actions, Answer, Bus, Outcomes, OutcomesIter};
//!
//! # let sample = include_bytes!(concat!(
//! #     env!("CARGO_MANIFEST_DIR"),
//! #     "/../samples/bench_start.outcomes"
//! # ));
//! # let (mut buffer, mut log) = (vec![0; 4096], vec![0; 4096]);
//! # let mut bus = Box::new(Bus::new());
//! let mut transfers = OutcomesIter::new(sample);
//! let mut outcomes = Outcomes::new(&mut buffer);
//! let (mut performed, mut waited) = (0, 0);
//! let reply = loop {
//!     let reply = bus.root_attach(outcomes.as_bytes(), &mut log, 0);
//!     for action in Actions::new(&log).skip(performed) {
//!         performed += 1;
//!         match action {
//!             Action::Request(_) => outcomes.push(transfers.next().unwrap())?,
//!             Action::Wait { microseconds } => waited += microseconds,
//!             Action::FrameInterval => (),
//!         }
//!     }
//!     if reply.answer != Answer::OutcomesSpent {
//!         break reply;
//!     }
//! };
//! assert_eq!((reply.answer, reply.requests), (Answer::Ok, 68));
//! assert_eq!(waited, 1_222_000);
//! # Ok::<(), lidrumak::Refused>(())
//! ```
//!
//! Nothing here panics, whatever the bytes. Words and numbers are those of
//! *document 01*, the requirements that the repository's docs/PROMISES.md
//! quotes.
#![no_std]
#![deny(missing_docs)]

mod answer;
mod bus;
mod device;
mod ffi;
mod log;
mod outcome;
mod store;

pub use answer::{Answer, Failure, Reply, Unlisted};
pub use bus::Bus;
pub use device::{Device, Devices, HubPort, PortStatus, Route, Speed, Status};
pub use ffi::{
    child_check, child_reset, configuration_walk, connection_change, port_check, retried_reset,
    root_attach, scan,
};
pub use log::{Action, Actions, Direction, Request, ACTION_LENGTH};
pub use outcome::{Outcome, Outcomes, OutcomesIter, Refused, TransferError};
pub use store::{Store, RECORD_LENGTH, STORE_LENGTH};
