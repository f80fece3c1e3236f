//! Random histories: each call is run on the port and, inside the comparison,
//! held to the original's. Where the original is cut the port goes on, and the
//! history with it. Where the original's files are missing the port runs alone
//! and is held to what document 01 says of every call.

use std::cell::RefCell;
use std::cmp::Reverse;
use std::collections::BTreeMap;
use std::rc::Rc;

use reference::call::{is_stop, Call, Entry};
use reference::generator::prng::Prng;
use reference::layout::*;
use reference::outside::Outside;
use reference::vectors::FILL;

use crate::answers::Devices;
use crate::calls::*;
use crate::lent::{Asked, Lent};
use crate::port::Reply;

/// Outcomes added to one call, at most.
const MORE_OUTCOMES: usize = 250;

/// Calls by answer and entry point.
pub type Grid = BTreeMap<(Reverse<i32>, Entry), u64>;

#[derive(Default)]
pub struct Counts {
    pub calls: u64,
    pub histories: u64,
    pub requests: u64,
    pub most_requests: u64,
    /// calls that left all 32 places used
    pub full_bus: u64,
    /// inside the comparison: refused at entry, and run
    pub refused: Grid,
    pub run: Grid,
    /// by the case that the original was cut at, and the port's answer
    pub outside: BTreeMap<(Outside, Reverse<i32>), u64>,
    /// repeats with fewer outcomes, and with a shorter log
    pub fewer_outcomes: u64,
    pub shorter_logs: u64,
}

struct Histories {
    lent: Lent,
    prng: Prng,
    counts: Counts,
}

/// A call of a history, in words, for one who has to repeat it.
fn words(asked: &Asked) -> String {
    format!(
        "{:?}, old store of {} bytes, new store of {}, log of {}, outcomes {:02x?}",
        asked.call,
        asked.old.len(),
        asked.new_length,
        asked.log_capacity,
        asked.outcomes
    )
}

/// So many calls; where one differs, which and how.
pub fn run(calls: u64, seed: u64) -> Result<Counts, String> {
    let mut seeds = Prng::new(seed);
    let mut histories = Histories {
        lent: Lent::default(),
        prng: Prng::new(!seed),
        counts: Counts::default(),
    };
    while histories.counts.calls < calls {
        histories.counts.histories += 1;
        histories.history(seeds.word()).map_err(|text| {
            let calls = histories.counts.calls;
            format!("a difference after {calls} calls, seed {seed}: {text}")
        })?;
    }
    Ok(histories.counts)
}

impl Histories {
    /// Counts a call that was run or refused, inside the comparison.
    fn count(&mut self, asked: &Asked, reply: &Reply, is_refused: bool) {
        self.count_store(reply, is_refused);
        let grid = match is_refused {
            true => &mut self.counts.refused,
            false => &mut self.counts.run,
        };
        let key = (Reverse(reply.answer), asked.call.entry);
        *grid.entry(key).or_default() += 1;
    }

    fn count_store(&mut self, reply: &Reply, is_refused: bool) {
        let counts = &mut self.counts;
        counts.calls += 1;
        counts.requests += reply.requests;
        counts.most_requests = counts.most_requests.max(reply.requests);
        let is_full = !is_refused && is_used(self.lent.new_store(), PLACES - 1);
        counts.full_bus += u64::from(is_full);
    }

    /// Runs a call on the port alone, with more outcomes as long as it asks
    /// for them. What document 01 says of it holds each time, and each log
    /// begins with the one before.
    fn goes_on(
        &mut self,
        asked: &Asked,
        outcomes: &mut Vec<u8>,
        devices: &mut Devices,
    ) -> Result<Reply, String> {
        let mut front = Vec::new();
        let mut more = MORE_OUTCOMES;
        loop {
            let asked = Asked { outcomes, ..*asked };
            let reply = self.lent.call(&asked, FILL)?;
            if is_untouched(&self.lent) {
                refused(&reply, &self.lent)?;
                return Ok(reply);
            }
            accepted(asked.call, &reply, &self.lent)?;
            let log = &self.lent.log()[..logged_in(self.lent.log())];
            if !log.starts_with(&front) {
                return Err("with more outcomes, another log".to_string());
            }
            if reply.answer != -14 || more == 0 {
                return Ok(reply);
            }
            more -= 1;
            front = log.to_vec();
            devices.add(&front[front.len() - ACTION..], outcomes);
        }
    }

    /// The store that the next call starts from, where this one ended.
    fn store_left(&self, reply: &Reply) -> Option<Vec<u8>> {
        let has_ended = !is_stop(reply.answer) && !is_untouched(&self.lent);
        has_ended.then(|| self.lent.new_store().to_vec())
    }

    /// Calls on a store that the port left, with other devices.
    fn follow(&mut self, mut store: Vec<u8>) -> Result<(), String> {
        let prng = Prng::new(self.prng.word());
        let devices = Rc::new(RefCell::new(Devices::new(prng)));
        for _ in 0..self.prng.range(1, 4) {
            let call = any_call(&mut self.prng, &store);
            if let Some(left) = self.next(call, &store, &devices)? {
                store = left;
            }
        }
        Ok(())
    }

    /// Repeats a call that ended, with some of its outcomes taken away or a
    /// shorter log: it stops there, with the front of the same log.
    fn stopped(&mut self, asked: &Asked, reply: &Reply) -> Result<(), String> {
        let log = self.lent.log();
        let whole = log[..logged_in(log)].to_vec();
        let taken = taken(asked.outcomes, reply.requests);
        if taken == 0 {
            return Ok(());
        }
        let mut shorter = *asked;
        let expected = match self.prng.chance(700) {
            true => {
                self.counts.fewer_outcomes += 1;
                shorter.outcomes = &asked.outcomes[..self.prng.below(taken)];
                -14
            }
            false => {
                self.counts.shorter_logs += 1;
                shorter.log_capacity = self.prng.below(whole.len());
                -15
            }
        };
        let again = self.lent.call(&shorter, FILL)?;
        let front = &self.lent.log()[..logged_in(self.lent.log())];
        let is_repeat = again.answer == expected && whole.starts_with(front);
        if !is_repeat || (expected == -15 && front.len() != shorter.log_capacity / ACTION * ACTION)
        {
            return Err(format!("{again:?} stops elsewhere: {}", words(&shorter)));
        }
        accepted(shorter.call, &again, &self.lent)
            .and_then(|()| self.stopped_by_original(&shorter, &again))
            .map_err(|text| format!("{text}: {}", words(&shorter)))
    }
}

#[cfg(have_original)]
mod with_original {
    use super::*;
    use reference::generator::history::History;
    use reference::run::{run, run_with, Outcomes};

    impl Histories {
        fn count_outside(&mut self, case: Outside, reply: &Reply) {
            self.count_store(reply, false);
            let key = (case, Reverse(reply.answer));
            *self.counts.outside.entry(key).or_default() += 1;
        }

        /// A history of the reference's generator.
        pub fn history(&mut self, seed: u64) -> Result<(), String> {
            let mut history = History::new(seed);
            while let Some(step) = history.step() {
                let asked = Asked {
                    call: step.call,
                    old: history.old(),
                    new_length: step.new_length,
                    outcomes: &step.outcomes,
                    log_capacity: step.log_capacity,
                };
                let original = Original {
                    report: &step.report,
                    new: history.new_store(),
                    log: history.log(&step),
                };
                let devices = Devices::new(Prng::new(self.prng.word()));
                let left = self.beside(&asked, &original, &RefCell::new(devices))?;
                if let (Some(store), false) = (left, step.report.carries()) {
                    self.follow(store)?;
                }
            }
            Ok(())
        }

        /// One call beside the original's; the store left where it ended.
        fn beside(
            &mut self,
            asked: &Asked,
            original: &Original,
            devices: &RefCell<Devices>,
        ) -> Result<Option<Vec<u8>>, String> {
            let in_words = |text: String| format!("{text}: {}", words(asked));
            let (reply, case) = compare(&mut self.lent, asked, original).map_err(in_words)?;
            let Some(case) = case else {
                self.count(asked, &reply, original.report.refused);
                let left = self.store_left(&reply);
                if original.report.carries() && self.prng.chance(125) {
                    self.stopped(asked, &reply)?;
                }
                return Ok(left);
            };
            let mut outcomes = asked.outcomes.to_vec();
            let reply = self
                .goes_on(asked, &mut outcomes, &mut devices.borrow_mut())
                .map_err(in_words)?;
            self.count_outside(case, &reply);
            Ok(self.store_left(&reply))
        }

        /// The next call, on both.
        pub fn next(
            &mut self,
            call: Call,
            store: &[u8],
            devices: &Rc<RefCell<Devices>>,
        ) -> Result<Option<Vec<u8>>, String> {
            let mut new = vec![FILL; STORE];
            let mut log = vec![FILL; LOG];
            let asked = Outcomes::Asked(devices.clone());
            let (report, outcomes) = run_with(call, store, &mut new, asked, &mut log);
            let asked = Asked::usual(call, store, &outcomes);
            let original = Original {
                report: &report,
                new: &new,
                log: &log,
            };
            self.beside(&asked, &original, devices)
        }

        /// The original stops in the same way.
        pub fn stopped_by_original(&self, asked: &Asked, reply: &Reply) -> Result<(), String> {
            let mut new = vec![FILL; asked.new_length];
            let mut log = vec![FILL; asked.log_capacity];
            let report = run(asked.call, asked.old, &mut new, asked.outcomes, &mut log);
            let original = Original {
                report: &report,
                new: &new,
                log: &log,
            };
            same(reply, &self.lent, &original)
        }
    }
}

#[cfg(not(have_original))]
impl Histories {
    /// A history from the empty store.
    fn history(&mut self, seed: u64) -> Result<(), String> {
        self.prng = Prng::new(seed);
        self.follow(vec![0; STORE])
    }

    /// The next call, on the port alone.
    fn next(
        &mut self,
        call: Call,
        store: &[u8],
        devices: &Rc<RefCell<Devices>>,
    ) -> Result<Option<Vec<u8>>, String> {
        let mut outcomes = Vec::new();
        let asked = Asked::usual(call, store, &[]);
        let reply = self
            .goes_on(&asked, &mut outcomes, &mut devices.borrow_mut())
            .map_err(|text| format!("{text}: {}", words(&asked)))?;
        let asked = Asked::usual(call, store, &outcomes);
        self.count(&asked, &reply, is_untouched(&self.lent));
        let left = self.store_left(&reply);
        if left.is_some() && self.prng.chance(125) {
            self.stopped(&asked, &reply)?;
        }
        Ok(left)
    }

    fn stopped_by_original(&self, _: &Asked, _: &Reply) -> Result<(), String> {
        Ok(())
    }
}

/// A call that suits the store, or nearly.
fn any_call(prng: &mut Prng, store: &[u8]) -> Call {
    if !is_used(store, 0) {
        return Call::new(Entry::RootAttach, prng.pick(&[0, 0, 1, 2, 3, 4]), 0);
    }
    let hubs: Vec<usize> = hubs(store).collect();
    let hub = match hubs.is_empty() || prng.chance(20) {
        true => prng.pick(&[0, 1, 31, 32, 256]),
        false => prng.pick(&hubs),
    };
    let entry = prng.pick(&Entry::ALL);
    let second = match entry {
        Entry::RootAttach | Entry::Scan => 0,
        Entry::ChildReset | Entry::ChildCheck if is_hub(store, hub) => {
            let children = &place(store, hub)[CHILDREN..][..PORTS];
            usize::from(prng.pick(children)).saturating_sub(1)
        }
        _ => prng.below(4) + usize::from(prng.chance(100)) * 7,
    };
    let first = if entry == Entry::RootAttach { 0 } else { hub };
    Call::new(entry, first as u32, second as u32)
}
