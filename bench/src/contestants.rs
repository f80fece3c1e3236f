//! What is timed, each as a batch of the same call. What a batch needs is made
//! before its clock starts.

use std::hint::black_box;
use std::time::{Duration, Instant};

use comparison::port;
use reference::image::Bus;
use reference::layout::{LOG, STORE};
use reference::run::{enter, refusal, session, Outcomes};
use reference::stand_ins::{begin, finish, rewind};

use crate::aligned::Aligned;
use crate::cases::Case;

/// Calls in a batch: few enough that the original's structures stay in the cache.
pub const BATCH: usize = 4;

#[derive(Clone, Copy, Debug, PartialEq, Eq)]
pub enum Contestant {
    /// The original's function alone, on structures that are there.
    Bare,
    /// The original with its structures made from the old store, and the new
    /// store written from them. They are freed after the clock stopped.
    Images,
    /// The original as a whole call: the refusals at entry, the images, and
    /// the structures freed.
    Call,
    Port,
    /// Copying a store and reading it once.
    Limit,
}

pub const CONTESTANTS: [Contestant; 5] = [
    Contestant::Bare,
    Contestant::Images,
    Contestant::Call,
    Contestant::Port,
    Contestant::Limit,
];

impl Contestant {
    pub fn key(self) -> &'static str {
        match self {
            Contestant::Bare => "bare",
            Contestant::Images => "images",
            Contestant::Call => "call",
            Contestant::Port => "port",
            Contestant::Limit => "limit",
        }
    }
}

/// The buffers that calls write; they are used again from call to call.
pub struct Lent {
    pub new: Aligned,
    pub log: Aligned,
    /// The original's log.
    pub actions: Vec<u8>,
}

impl Lent {
    /// The new store stands half a page from the old one.
    pub fn new(fill: u8) -> Lent {
        Lent {
            new: Aligned::new(STORE, 2048, fill),
            log: Aligned::new(LOG, 0, fill),
            actions: Vec::with_capacity(LOG),
        }
    }
}

/// The time of one batch.
pub fn batch(contestant: Contestant, case: &Case, lent: &mut Lent) -> Duration {
    match contestant {
        Contestant::Bare => bare(case, lent),
        Contestant::Images => images(case, lent),
        Contestant::Call => whole_calls(case, lent),
        Contestant::Port => timed(|| {
            for _ in 0..BATCH {
                let case = black_box(case);
                let (new, log) = (&mut lent.new, &mut lent.log);
                black_box(port::call(case.call, &case.old, new, &case.outcomes, log));
            }
        }),
        Contestant::Limit => timed(|| {
            for _ in 0..BATCH {
                black_box(copy_and_read(black_box(&case.old), &mut lent.new));
            }
        }),
    }
}

/// What a batch does between the two readings of the clock. Callgrind finds it
/// by its name.
#[inline(never)]
fn measured(act: impl FnOnce()) {
    act()
}

fn timed(act: impl FnOnce()) -> Duration {
    let start = Instant::now();
    measured(act);
    start.elapsed()
}

fn copy_and_read(old: &[u8], new: &mut [u8]) -> u8 {
    new.copy_from_slice(old);
    read(black_box(new))
}

/// All bytes or-ed together, 64 at a time.
fn read(bytes: &[u8]) -> u8 {
    let (chunks, rest) = bytes.as_chunks::<64>();
    let mut all = [0; 64];
    for chunk in chunks {
        for (all, byte) in all.iter_mut().zip(chunk) {
            *all |= byte;
        }
    }
    all.iter().chain(rest).fold(0, |all, byte| all | byte)
}

/// Runs the original's batches with its stand-ins ready: outcomes and log are
/// lent to them, and nothing is cut, since the case was checked.
fn with_stand_ins<T>(case: &Case, lent: &mut Lent, act: impl FnOnce(&mut Aligned) -> T) -> T {
    let given = Outcomes::Given(&case.outcomes);
    let mut session = session(case.call, &Bus::empty(), given, LOG);
    session.cuts = false;
    session.log = std::mem::take(&mut lent.actions);
    begin(session);
    let result = act(&mut lent.new);
    lent.actions = finish().log;
    result
}

fn bare(case: &Case, lent: &mut Lent) -> Duration {
    let buses: [Bus; BATCH] = std::array::from_fn(|_| Bus::from_listed(&case.old));
    with_stand_ins(case, lent, |_| {
        timed(|| {
            for bus in &buses {
                rewind();
                black_box(enter(black_box(case.call), bus));
            }
        })
    })
}

/// A call of the original on images; the bus is handed back, to be freed.
fn on_images(case: &Case, new: &mut [u8]) -> Bus {
    rewind();
    let case = black_box(case);
    let bus = Bus::from_listed(&case.old);
    black_box(enter(case.call, &bus));
    bus.to_store(black_box(new));
    bus
}

fn images(case: &Case, lent: &mut Lent) -> Duration {
    let mut kept: [Option<Bus>; BATCH] = [const { None }; BATCH];
    with_stand_ins(case, lent, |new| {
        timed(|| {
            for slot in &mut kept {
                *slot = Some(on_images(case, new));
            }
        })
    })
}

fn whole_calls(case: &Case, lent: &mut Lent) -> Duration {
    with_stand_ins(case, lent, |new| {
        timed(|| {
            for _ in 0..BATCH {
                if black_box(refusal(case.call, &case.old, new.len())).is_none() {
                    drop(on_images(case, new));
                }
            }
        })
    })
}

/// One bare call, for the check; the new store is written after it.
pub fn bare_once(case: &Case, lent: &mut Lent) -> i32 {
    let bus = Bus::from_listed(&case.old);
    with_stand_ins(case, lent, |new| {
        rewind();
        let answer = enter(case.call, &bus) as i32;
        bus.to_store(new);
        answer
    })
}
