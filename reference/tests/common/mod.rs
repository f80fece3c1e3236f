//! What the tests share: runs, and stores made by hand.
#![allow(dead_code)]

use reference::actions::{Action, Setup};
use reference::call::{Call, Ended, Entry, Report};
use reference::layout::*;
use reference::outside::Outside;
use reference::run::run;
use reference::script::*;
use reference::sound::is_sound;
use reference::vectors::FILL;

pub static EMPTY: [u8; STORE] = [0; STORE];

pub struct Run {
    pub report: Report,
    pub new: Vec<u8>,
    pub log: Vec<u8>,
}

/// Runs a call with a log of `capacity` bytes and checks that bytes past the
/// logged ones stay as they were.
pub fn run_in(capacity: usize, call: Call, old: &[u8], script: &Script) -> Run {
    let mut new = vec![FILL; STORE];
    let mut log = vec![FILL; capacity];
    let report = run(call, old, &mut new, &script.0, &mut log);
    assert!(log[report.logged..].iter().all(|&byte| byte == FILL));
    log.truncate(report.logged);
    Run { report, new, log }
}

pub fn run_call(entry: Entry, first: u32, second: u32, old: &[u8], script: Script) -> Run {
    run_in(LOG, Call::new(entry, first, second), old, &script)
}

pub fn root_attach(speed: u32, script: Script) -> Run {
    run_call(Entry::RootAttach, speed, 0, &EMPTY, script)
}

impl Run {
    /// The answer of a run that ended inside the comparison.
    pub fn answer(&self) -> i32 {
        assert_eq!(self.report.ended, Ended::Inside);
        self.report.answer
    }

    pub fn outside(&self) -> Outside {
        match self.report.ended {
            Ended::Outside(outside) => outside,
            ref ended => panic!("{ended:?}, answer {}", self.report.answer),
        }
    }

    pub fn place(&self, at: usize) -> &[u8] {
        place(&self.new, at)
    }

    pub fn actions(&self) -> Vec<Action> {
        self.log
            .chunks(ACTION)
            .map(|action| action.try_into().unwrap())
            .collect()
    }

    /// Setup bytes of the requests.
    pub fn setups(&self) -> Vec<Setup> {
        let requests = self.actions().into_iter().filter(|action| action[0] == 1);
        requests
            .map(|action| action[8..].try_into().unwrap())
            .collect()
    }

    /// Microseconds of the waits.
    pub fn waits(&self) -> Vec<u32> {
        let waits = self.actions().into_iter().filter(|action| action[0] == 2);
        waits.map(|action| word(&action, 8)).collect()
    }

    /// Asserts that the call was refused at entry with this answer.
    pub fn assert_refused(&self, answer: i32) {
        assert_eq!((self.answer(), self.report.requests), (answer, 0));
        assert!(self.report.refused && self.log.is_empty());
        assert!(self.new.iter().all(|&byte| byte == FILL));
    }
}

/// A root hub with so many empty ports, attached at high speed.
pub fn root_hub(ports: u8) -> Vec<u8> {
    let empty_ports = Script::new().gives_times(ports.into(), &port(POWERED, 0));
    let run = root_attach(0, hub_attach(ports, 1).then(empty_ports));
    assert_eq!(run.answer(), 0);
    run.new
}

/// A root hub of one port with a keyboard on it, at place 1.
pub fn root_and_keyboard() -> Vec<u8> {
    let run = root_attach(0, root_with_keyboard(1));
    assert_eq!(run.answer(), 0);
    run.new
}

/// A root hub of one port with a hub of one empty port on it, at place 1.
pub fn root_and_hub() -> Vec<u8> {
    let script = hub_attach(1, 1)
        .then(found_device(HIGH))
        .then(hub_attach(1, 1))
        .gives(&port(POWERED, 0));
    let run = root_attach(0, script);
    assert_eq!(run.answer(), 0);
    run.new
}

/// All 32 places used by hubs of ten ports: ten on the root, ten each on
/// places 1 and 2, one on place 3.
pub fn full_bus() -> Vec<u8> {
    let mut store = root_hub(10);
    let root = place(&store, 0).to_vec();
    for at in 1..PLACES {
        let (hub, port) = ((at - 1) / 10, (at - 1) % 10);
        let bytes = place_mut(&mut store, at);
        bytes.copy_from_slice(&root);
        bytes[NUMBER] = at as u8 + 1;
        bytes[PARENT] = hub as u8 + 1;
        bytes[PORT_NUMBER] = port as u8;
        place_mut(&mut store, hub)[CHILDREN + port] = at as u8 + 1;
    }
    assert!(is_sound(&store));
    store
}
