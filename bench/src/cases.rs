//! The calls that are timed. Stores other than the empty one are those that a
//! root attach of the original leaves.

use reference::call::{Call, Ended, Entry};
use reference::layout::{LOG, STORE};
use reference::run::run;
use reference::script::*;

use crate::aligned::Aligned;

/// A call and what it reads.
pub struct Case {
    pub key: &'static str,
    pub words: &'static str,
    pub call: Call,
    pub old: Aligned,
    pub outcomes: Vec<u8>,
}

/// What stands at a port.
#[derive(Clone)]
enum At {
    Nothing,
    Keyboard,
    Hub(Vec<At>),
}

/// The status of a port without change.
fn status(at: &At) -> [u8; 4] {
    match at {
        At::Nothing => port(POWERED, 0),
        At::Keyboard | At::Hub(_) => port(HIGH, 0),
    }
}

/// A hub's attach, with all that stands at its ports.
fn hub_with(ports: &[At]) -> Script {
    let start = hub_attach(ports.len() as u8, 1);
    ports
        .iter()
        .fold(start, |script, at| script.then(found(at)))
}

/// A port check that finds this.
fn found(at: &At) -> Script {
    let device = found_device(HIGH);
    match at {
        At::Nothing => Script::new().gives(&status(at)),
        At::Keyboard => device.then(attach(&KEYBOARD_CONFIGURATION)),
        At::Hub(ports) => device.then(hub_with(ports)),
    }
}

/// A scan that finds all as it was.
fn unchanged(ports: &[At]) -> Script {
    ports.iter().fold(Script::new(), |script, at| {
        let script = script.gives(&status(at));
        match at {
            At::Hub(below) => script.then(unchanged(below)),
            _ => script,
        }
    })
}

/// So many ports, the first ones with what is given.
fn ports(count: usize, first: &[At]) -> Vec<At> {
    let mut ports = first.to_vec();
    ports.resize(count, At::Nothing);
    ports
}

/// Three hubs of four ports, each on the first port of the one before; a
/// keyboard on the first port of the last.
fn nested() -> Vec<At> {
    let third = At::Hub(ports(4, &[At::Keyboard]));
    let second = At::Hub(ports(4, &[third]));
    ports(4, &[second])
}

/// A root hub of ten ports: three hubs with seven keyboards each, and seven
/// keyboards.
fn full() -> Vec<At> {
    let hub = At::Hub(vec![At::Keyboard; 7]);
    let mut root = vec![hub; 3];
    root.resize(10, At::Keyboard);
    root
}

/// Nine hubs of four ports: the root hub, four on it, four on the first of these.
fn nine_hubs() -> Vec<At> {
    let last = At::Hub(ports(4, &[]));
    let first = At::Hub(vec![last.clone(); 4]);
    vec![first, last.clone(), last.clone(), last]
}

fn root_attach(key: &'static str, words: &'static str, root: &[At]) -> Case {
    Case {
        key,
        words,
        call: Call::new(Entry::RootAttach, 0, 0),
        old: Aligned::new(STORE, 0, 0),
        outcomes: hub_with(root).0,
    }
}

/// The store that the root attach of this leaves.
fn attached(root: &[At]) -> Aligned {
    let mut new = Aligned::new(STORE, 0, 0);
    let case = root_attach("", "", root);
    let report = run(
        case.call,
        &case.old,
        &mut new,
        &case.outcomes,
        &mut vec![0; LOG],
    );
    assert_eq!((report.answer, report.ended), (0, Ended::Inside));
    new
}

pub fn all() -> Vec<Case> {
    let four = vec![At::Keyboard; 4];
    vec![
        root_attach("root4", "root hub with 4 devices", &four),
        root_attach("nested3", "three nested hubs", &nested()),
        root_attach("full32", "full bus of 32 places", &full()),
        Case {
            key: "scan9",
            words: "scan of 9 hubs without change",
            call: Call::new(Entry::Scan, 0, 0),
            old: attached(&nine_hubs()),
            outcomes: unchanged(&nine_hubs()).0,
        },
        Case {
            key: "port",
            words: "port check without change",
            call: Call::new(Entry::PortCheck, 0, 0),
            old: attached(&four),
            outcomes: unchanged(&four[..1]).0,
        },
    ]
}
