//! Stores as buses and back, histories, and the bound on the requests.
#![cfg(have_original)]

mod common;
use common::*;

use std::cell::RefCell;
use std::rc::Rc;

use reference::call::{most_requests, Call, Ended, Entry};
use reference::generator::history::History;
use reference::generator::prng::Prng;
use reference::image::Bus;
use reference::layout::*;
use reference::run::{run, run_with, Outcomes};
use reference::script::*;
use reference::sound::is_sound;
use reference::stand_ins::Answers;
use reference::vectors::{Replay, FILL};

fn assert_round_trip(store: &[u8]) {
    let bus = Bus::from_store(store).expect("listed enum bytes");
    let mut back = vec![FILL; STORE];
    bus.to_store(&mut back);
    assert!(back == store);
}

#[test]
fn store_to_bus_and_back_is_the_identity() {
    for store in [
        EMPTY.to_vec(),
        root_and_keyboard(),
        root_and_hub(),
        full_bus(),
    ] {
        assert_round_trip(&store);
    }
    let mut prng = Prng::new(5);
    for _ in 0..200 {
        let mut store = full_bus();
        for at in 0..PLACES {
            let place = place_mut(&mut store, at);
            for field in [
                4, 12, 13, 14, 15, 16, 23, 33, 36, 42, 43, 45, 51, 52, 55, 56, 95,
            ] {
                place[field] = prng.byte();
            }
            place[NUMBER] = if prng.chance(500) { 0 } else { at as u8 + 1 };
            place[SPEED] = prng.byte() % 3;
            place[STATUS] = prng.byte() % 5;
            place[ERROR] = prng.pick(&[0, 2, 4, 8, 16, 32, 64, 128]);
            place[MAX_CHILDREN] = prng.byte() % 11;
            place[RECORD + 2] = prng.byte();
            place[RECORD_END - 1] = prng.byte();
            if prng.chance(300) {
                place[PARENT] = 0;
                place[PORT_NUMBER] = prng.byte();
            }
            if prng.chance(300) {
                place[HUB] = 1;
                place[HUB_DESCRIPTOR..HUB_STATUS].fill(0);
            }
        }
        assert!(is_sound(&store));
        assert_round_trip(&store);
    }
}

#[test]
fn histories_keep_the_store_sound_and_replay_from_flat_outcomes() {
    let mut seeds = Prng::new(77);
    let mut carried = 0;
    for _ in 0..400 {
        let mut history = History::new(seeds.word());
        while let Some(step) = history.step() {
            if step.report.ended != Ended::Inside {
                assert!(
                    matches!(step.report.ended, Ended::Outside(_)),
                    "{:?}",
                    step.report
                );
                continue;
            }
            let mut new = vec![FILL; step.new_length];
            let mut log = vec![FILL; step.log_capacity];
            let again = run(step.call, history.old(), &mut new, &step.outcomes, &mut log);
            assert_eq!(again, step.report);
            assert!(new == history.new_store() && log == history.log(&step));
            if step.report.carries() {
                assert!(is_sound(&new));
                assert_round_trip(&new);
                carried += 1;
            }
        }
    }
    assert!(carried > 500);
}

#[test]
fn entry_refusals_change_no_lent_byte() {
    let old = root_hub(1);
    let lengths = [
        (STORE - 1, STORE),
        (STORE, STORE - 1),
        (STORE, STORE + 1),
        (0, 0),
    ];
    for entry in Entry::ALL {
        for (old_length, new_length) in lengths {
            let mut new = vec![FILL; new_length];
            let mut log = [FILL; 64];
            let call = Call::new(entry, 0, 0);
            let report = run(call, &old[..old_length], &mut new, &[0; 64], &mut log);
            assert_eq!(
                (report.answer, report.requests, report.refused),
                (-2, 0, true)
            );
            assert!(new.iter().chain(&log).all(|&byte| byte == FILL));
        }
    }
}

#[test]
fn the_calls_written_by_hand_answer_as_document_01_says() {
    let mut replay = Replay::default();
    for asked in reference::fixed::calls() {
        let (answered, report) = replay.call(&asked);
        assert_eq!(report.ended, Ended::Inside, "{asked:?}");
        assert_eq!(answered.answer, asked.answer, "{asked:?}");
        if [-2, -4, -12, -16].contains(&asked.answer) {
            assert_eq!(answered.requests, 0);
        }
    }
    for (descriptors, record_length, answer) in reference::fixed::walks() {
        let walked = reference::vectors::walk(&descriptors, record_length);
        assert_eq!(walked.map(|walk| walk.answer), Some(answer));
    }
}

/// Devices that cost as many requests as there can be: three hubs of ten ports.
#[derive(Default)]
struct Costly {
    reads: std::collections::BTreeMap<(u8, u8), usize>,
    descriptors: usize,
}

impl Costly {
    /// 25 reads a port: the check's, two before the reset, 21 in it, one after.
    fn port_status(&mut self, address: u8, at: u8) -> [u8; 4] {
        let reads = self.reads.entry((address, at)).or_default();
        *reads += 1;
        match reads {
            1 => port(0x105, 0x1b),
            24 => port(0x101, 0x10),
            _ => port(0x101, 0),
        }
    }
}

impl Answers for Costly {
    fn answer(&mut self, action: &[u8; 16], outcomes: &mut Vec<u8>) {
        let is_hub = matches!(action[1], 1 | 2 | 13);
        let asked = usize::from(action[14]);
        let data = match (action[8], action[9], action[11]) {
            (0x80, 6, 1) => {
                self.descriptors += 1;
                DEVICE[..if self.descriptors % 2 == 1 { 8 } else { 18 }].to_vec()
            }
            (0x80, 6, _) if is_hub => HUB_CONFIGURATION[..asked].to_vec(),
            (0x80, 6, _) => KEYBOARD_CONFIGURATION[..asked].to_vec(),
            (0xa0, 6, _) => hub_descriptor(10, 1)[..asked].to_vec(),
            (0xa0, 0, _) => vec![0; 4],
            (0xa3, 0, _) => self.port_status(action[1], action[12]).to_vec(),
            _ => Vec::new(),
        };
        outcomes.extend(Script::new().gives(&data).0);
    }
}

#[test]
fn the_bound_on_the_requests_is_met() {
    let call = Call::new(Entry::RootAttach, 1, 0);
    let outcomes = Outcomes::Asked(Rc::new(RefCell::new(Costly::default())));
    let mut new = vec![FILL; STORE];
    let mut log = vec![FILL; LOG];
    let (report, _) = run_with(call, &EMPTY, &mut new, outcomes, &mut log);
    assert_eq!((report.answer, report.ended), (0, Ended::Inside));
    assert_eq!((devices(&new).count(), hubs(&new).count()), (31, 3));
    assert_eq!(report.requests, 8 * 31 + 444 * 3);
    assert_eq!(most_requests(&new), report.requests);
}
