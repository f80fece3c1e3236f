//! Writes the recorded answers of the original to ../crates/vectors/data.

#[cfg(not(have_original))]
fn main() {
    println!("{}", reference::original_missing());
}

#[cfg(have_original)]
fn main() -> std::io::Result<()> {
    recording::main()
}

#[cfg(have_original)]
mod recording {
    use std::collections::BTreeMap;

    use reference::call::{Ended, Entry};
    use reference::fixed;
    use reference::generator::history::{History, Step};
    use reference::generator::prng::Prng;
    use reference::generator::walks::walk_descriptors;
    use reference::layout::RECORD_LENGTH;
    use reference::vectors::{folder, walk, RecordedCall, RecordedWalk, Replay};

    const SEED: u64 = 2;
    const HISTORIES: usize = 40_000;
    /// Rounds: histories are taken for a kind of call until so many of it are
    /// recorded, the rare kinds first.
    const ENOUGH: [usize; 5] = [2, 5, 10, 20, 40];
    const MOST_CALLS: usize = 4_200;
    const MOST_BYTES: usize = 1_300_000;
    const WALKS: usize = 4_000;

    /// Entry point, answer, refused at entry, and how many requests: none, up
    /// to 9, up to 99, up to 499, more.
    type Kind = (Entry, i32, bool, usize);
    type Recorded = Vec<(RecordedCall, Kind)>;

    #[derive(Default)]
    struct Chosen {
        calls: Vec<RecordedCall>,
        kinds: BTreeMap<Kind, usize>,
        bytes: usize,
    }

    pub fn main() -> std::io::Result<()> {
        let Chosen { calls, kinds, .. } = chosen();
        let calls = [fixed_calls(), calls].concat();
        let mut bytes = Vec::new();
        calls.iter().for_each(|call| call.write(&mut bytes));
        std::fs::write(folder().join("calls.bin"), &bytes)?;
        println!("calls.bin: {} calls, {} bytes", calls.len(), bytes.len());
        println!("  by hand: {}", fixed::calls().len());
        show(&kinds);

        let walks = walks();
        let mut bytes = Vec::new();
        walks.iter().for_each(|walk| walk.write(&mut bytes));
        std::fs::write(folder().join("walks.bin"), &bytes)?;
        println!("walks.bin: {} walks, {} bytes", walks.len(), bytes.len());
        for answer in [0, -4, -2] {
            let count = walks.iter().filter(|walk| walk.answer == answer).count();
            println!("  {answer}: {count}");
        }
        Ok(())
    }

    /// The calls written by hand, which answer as they should.
    fn fixed_calls() -> Vec<RecordedCall> {
        let mut replay = Replay::default();
        let answered = fixed::calls().into_iter().map(|asked| {
            let (answered, report) = replay.call(&asked);
            assert_eq!(report.ended, Ended::Inside, "{asked:?}");
            assert_eq!(answered.answer, asked.answer, "{asked:?}");
            answered
        });
        answered.collect()
    }

    fn show(kinds: &BTreeMap<Kind, usize>) {
        let mut counts: BTreeMap<(Entry, i32, bool), usize> = BTreeMap::new();
        for ((entry, answer, refused, _), count) in kinds {
            *counts.entry((*entry, *answer, *refused)).or_default() += count;
        }
        for ((entry, answer, refused), count) in counts {
            let how = if refused { " refused at entry" } else { "" };
            println!("  {entry:?} {answer}{how}: {count}");
        }
    }

    fn chosen() -> Chosen {
        let mut seeds = Prng::new(SEED);
        let mut histories: Vec<Recorded> = (0..HISTORIES).map(|_| history(seeds.word())).collect();
        let mut chosen = Chosen::default();
        for enough in ENOUGH {
            histories.retain(|history| !chosen.take(history, enough));
        }
        chosen
    }

    impl Chosen {
        /// Takes a history up to its last call that is of a rare kind.
        fn take(&mut self, history: &Recorded, enough: usize) -> bool {
            let is_rare = |kind| self.kinds.get(kind).is_none_or(|count| *count < enough);
            let Some(last) = history.iter().rposition(|(_, kind)| is_rare(kind)) else {
                return false;
            };
            // A call that leaves the store as it is can be left out.
            let calls: Vec<_> = history[..=last]
                .iter()
                .filter(|(call, kind)| call.carries || call.starts || is_rare(kind))
                .collect();
            let bytes: usize = calls.iter().map(|(call, _)| 48 + call.outcomes.len()).sum();
            let fits = self.calls.len() + calls.len() <= MOST_CALLS;
            if !fits || self.bytes + bytes > MOST_BYTES {
                return false;
            }
            self.bytes += bytes;
            for (call, kind) in calls {
                *self.kinds.entry(*kind).or_default() += 1;
                self.calls.push(call.clone());
            }
            true
        }
    }

    /// A history's calls as far as they are inside the comparison, each run
    /// again on its flat outcomes.
    fn history(seed: u64) -> Recorded {
        let mut prng = Prng::new(!seed);
        let mut history = History::new(seed);
        let mut replay = Replay::default();
        let mut calls = Vec::new();
        while let Some(step) = history.step() {
            if step.report.ended != Ended::Inside {
                break;
            }
            let asked = asked(&step, &mut prng);
            let (call, report) = replay.call(&asked);
            let same = report == step.report;
            assert!(
                same,
                "the flat outcomes give {report:?} for {:?}",
                step.report
            );
            let size = [1, 10, 100, 500]
                .iter()
                .filter(|&&most| call.requests >= most)
                .count();
            let kind = (call.call.entry, call.answer, report.refused, size);
            calls.push((call, kind));
        }
        calls
    }

    /// The call with a log that has little room to spare.
    fn asked(step: &Step, prng: &mut Prng) -> RecordedCall {
        let log_capacity = match step.report.answer {
            -15 => step.log_capacity,
            _ => step.log_capacity.min(step.report.logged + prng.below(40)),
        };
        RecordedCall {
            starts: step.starts,
            carries: false,
            call: step.call,
            old_length: step.old_length as u32,
            new_length: step.new_length as u32,
            log_capacity: log_capacity as u32,
            answer: 0,
            requests: 0,
            log_sum: 0,
            store_sum: 0,
            edits: step.edits.clone(),
            outcomes: step.outcomes.clone(),
        }
    }

    fn walks() -> Vec<RecordedWalk> {
        let mut prng = Prng::new(SEED);
        let mut walks = Vec::new();
        for (descriptors, record_length, answer) in fixed::walks() {
            let walk = walk(&descriptors, record_length).expect("inside the comparison");
            assert_eq!(walk.answer, answer, "{walk:?}");
            walks.push(walk);
        }
        while walks.len() < WALKS {
            walks.extend(walk(&walk_descriptors(&mut prng), RECORD_LENGTH));
        }
        walks
    }
}
