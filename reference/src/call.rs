//! Entry points, calls and what comes back.

use crate::layout::{devices, hubs};
use crate::outside::Outside;

#[derive(Clone, Copy, Debug, PartialEq, Eq, PartialOrd, Ord, Hash)]
pub enum Entry {
    /// number: root speed
    RootAttach,
    /// number: hub
    Scan,
    /// numbers: hub, port
    PortCheck,
    /// numbers: hub, child
    ChildReset,
    /// numbers: hub, child
    ChildCheck,
    /// numbers: hub, port
    RetriedReset,
    /// numbers: hub, port
    ConnectionChange,
}

impl Entry {
    /// In the order of the recorded entry numbers 0 to 6.
    pub const ALL: [Entry; 7] = [
        Entry::RootAttach,
        Entry::Scan,
        Entry::PortCheck,
        Entry::ChildReset,
        Entry::ChildCheck,
        Entry::RetriedReset,
        Entry::ConnectionChange,
    ];

    pub const WITH_PORT: [Entry; 3] = [
        Entry::PortCheck,
        Entry::RetriedReset,
        Entry::ConnectionChange,
    ];

    pub const WITH_CHILD: [Entry; 2] = [Entry::ChildReset, Entry::ChildCheck];

    /// Every entry point that takes a hub.
    pub fn with_hub() -> impl Iterator<Item = Entry> {
        Entry::ALL.into_iter().skip(1)
    }
}

/// An entry point and its numbers; a number that it doesn't take is 0.
#[derive(Clone, Copy, Debug, PartialEq, Eq)]
pub struct Call {
    pub entry: Entry,
    pub numbers: [u32; 2],
}

impl Call {
    pub fn new(entry: Entry, first: u32, second: u32) -> Call {
        Call {
            entry,
            numbers: [first, second],
        }
    }
}

#[derive(Clone, Debug, Default, PartialEq, Eq)]
pub enum Ended {
    #[default]
    Inside,
    Outside(Outside),
    /// A panic that no case of `Outside` explains: a defect.
    Unexplained(String),
}

/// Answer and requests mean something where the run ended inside; store and
/// log hold the state at the end in every case but an entry refusal.
#[derive(Clone, Debug, Default, PartialEq, Eq)]
pub struct Report {
    pub answer: i32,
    pub requests: u64,
    /// Bytes written to the log.
    pub logged: usize,
    pub ended: Ended,
    /// Refused at entry: no lent byte was changed.
    pub refused: bool,
}

impl Report {
    /// Whether the next call starts from the new store.
    pub fn carries(&self) -> bool {
        !self.refused && self.ended == Ended::Inside && !is_stop(self.answer)
    }
}

/// Whether the whole call stopped and is to be repeated from the old store.
pub fn is_stop(answer: i32) -> bool {
    (-15..=-13).contains(&answer)
}

/// 8·d + 444·h: the most requests of a call that leaves this store.
pub fn most_requests(store: &[u8]) -> u64 {
    8 * devices(store).count() as u64 + 444 * hubs(store).count() as u64
}
