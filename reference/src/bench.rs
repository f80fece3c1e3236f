//! The lines of document 01's bench table, each with the value that the table
//! gives, written by hand.

use crate::layout::RECORD_LENGTH;
use crate::rules;
use crate::script::{BARE_CONFIGURATION, ENDPOINT};
use crate::vectors::FILL;

pub struct Line {
    pub name: &'static str,
    pub expected: String,
    /// What came out; nothing where the Rust cannot answer.
    pub got: Option<String>,
}

fn line(name: &'static str, expected: &str, got: String) -> Line {
    Line {
        name,
        expected: expected.to_string(),
        got: Some(got),
    }
}

/// Walk lines of the table: name, descriptors, answer and what is stored.
pub fn walk_table() -> Vec<(&'static str, Vec<u8>, &'static str)> {
    let bare = BARE_CONFIGURATION;
    let followed = |more: &[u8]| [&bare[..], more].concat();
    let interface = |number: u8| followed(&[9, 4, number, 0, 0, 3, 0, 0, 0]);
    vec![
        (
            "walk of a bare configuration",
            bare.to_vec(),
            "0, stored: none",
        ),
        (
            "walk, an endpoint with no interface",
            followed(&ENDPOINT),
            "-4, stored: none",
        ),
        ("walk, first interface 7", interface(7), "0, stored: 7"),
        ("walk, first interface 8", interface(8), "0, stored: none"),
        ("walk, first interface 9", interface(9), "-10, stored: none"),
    ]
}

/// Answer and stored interfaces of a walk over a record of `FILL`.
fn walked(answer: i32, record: &[u8]) -> String {
    let stored: Vec<String> = (0..8)
        .filter(|number| record[number * 9..][..9] != [FILL; 9])
        .map(|number| number.to_string())
        .collect();
    let endpoints = record[72..].iter().any(|&byte| byte != FILL);
    let stored = if stored.is_empty() {
        "none".to_string()
    } else {
        stored.join(" ")
    };
    format!(
        "{answer}, stored: {stored}{}",
        if endpoints { " and endpoints" } else { "" }
    )
}

/// The walk lines by document 01's rules; they need no original.
pub fn rule_lines() -> Vec<Line> {
    let by_rules = |(name, descriptors, expected): (&'static str, Vec<u8>, &str)| {
        let mut record = [FILL; RECORD_LENGTH];
        let answer = rules::configuration_walk(&descriptors, &mut record);
        line(name, expected, walked(answer, &record))
    };
    walk_table().into_iter().map(by_rules).collect()
}

#[cfg(have_original)]
pub use on_the_original::lines;

#[cfg(have_original)]
mod on_the_original {
    use super::*;
    use crate::call::{Call, Ended, Entry};
    use crate::layout::*;
    use crate::run::{run, run_walk};
    use crate::script::*;

    struct Run {
        answer: i32,
        requests: u64,
        store: Vec<u8>,
        log: Vec<u8>,
    }

    fn calls(call: Call, old: &[u8], outcomes: Script) -> Run {
        let mut store = vec![FILL; STORE];
        let mut log = vec![FILL; LOG];
        let report = run(call, old, &mut store, &outcomes.0, &mut log);
        assert_eq!(
            report.ended,
            Ended::Inside,
            "a bench line is inside the comparison"
        );
        Run {
            answer: report.answer,
            requests: report.requests,
            store,
            log,
        }
    }

    fn root_attach(outcomes: Script) -> Run {
        calls(Call::new(Entry::RootAttach, 0, 0), &[0; STORE], outcomes)
    }

    fn hex(bytes: &[u8]) -> String {
        let text: Vec<String> = bytes.iter().map(|byte| format!("{byte:02x}")).collect();
        text.join(" ")
    }

    /// The table's lines on the original.
    pub fn lines() -> Vec<Line> {
        let mut lines = first_request();
        lines.extend(hub_lines());
        lines.extend(walk_table().into_iter().map(walk_line));
        lines.extend(child_reset_lines());
        lines
    }

    fn first_request() -> Vec<Line> {
        let empty = root_attach(Script::new());
        let logged = empty
            .log
            .iter()
            .rposition(|&byte| byte != FILL)
            .map_or(0, |at| at + 1);
        let answer = |code, error| {
            root_attach(Script::new().outcome(code, error, &[]))
                .answer
                .to_string()
        };
        vec![
            line(
                "no outcomes",
                "-14, 1 request",
                format!("{}, {} request", empty.answer, empty.requests),
            ),
            line(
                "no outcomes, the log",
                "01 00 01 00 03 00 00 00 80 06 00 01 00 00 12 00",
                hex(&empty.log[..logged]),
            ),
            line("error 31", "-8", answer(0, 31)),
            line("error 1", "-4", answer(0, 1)),
            line("submit 5, error 31", "-5", answer(5, 31)),
        ]
    }

    /// Microseconds of the wait after the first port's power.
    fn power_wait(delay: u8) -> String {
        let run = root_attach(hub_attach(1, delay).gives(&port(POWERED, 0)));
        let mut actions = run.log.chunks(ACTION);
        actions
            .find(|action| action[8..12] == [0x23, 3, 8, 0])
            .expect("a powered port");
        let wait = actions.next().expect("an action after it");
        assert_eq!(wait[0], 2);
        word(wait, 8).to_string()
    }

    fn children(ports: u8) -> String {
        let run = root_attach(hub_attach(ports, 1).gives_times(10, &port(POWERED, 0)));
        assert_eq!(run.answer, 0);
        run.store[MAX_CHILDREN].to_string()
    }

    fn hub_lines() -> Vec<Line> {
        let powered = root_attach(hub_attach(1, 1).gives(&port(POWERED, 0)));
        let power = powered
            .log
            .chunks(ACTION)
            .find(|action| action[9] == 3 && action[0] == 1);
        let status = calls(
            Call::new(Entry::PortCheck, 0, 9),
            &powered.store,
            Script::new().gives(&port(POWERED, 0)),
        );
        vec![
            line("PowerGoodDelay 0", "100000", power_wait(0)),
            line("PowerGoodDelay 1", "2000", power_wait(1)),
            line("PowerGoodDelay 255", "510000", power_wait(255)),
            line("PortCount 10", "10", children(10)),
            line("PortCount 11", "10", children(11)),
            line(
                "power on port 0",
                "23 03 08 00 01 00 00 00",
                hex(&power.expect("a power request")[8..]),
            ),
            line(
                "status of port 9",
                "a3 00 00 00 0a 00 04 00",
                hex(&status.log[8..ACTION]),
            ),
        ]
    }

    fn walk_line((name, descriptors, expected): (&'static str, Vec<u8>, &'static str)) -> Line {
        let mut record = [FILL; RECORD_LENGTH];
        let (answer, ended) = run_walk(&descriptors, &mut record);
        let got = (ended == Ended::Inside).then(|| walked(answer, &record));
        Line {
            name,
            expected: expected.to_string(),
            got,
        }
    }

    fn child_reset_lines() -> Vec<Line> {
        let root = root_attach(root_with_keyboard(1));
        assert_eq!(root.answer, 0);
        let reset = |last| {
            let call = Call::new(Entry::ChildReset, 0, 1);
            let run = calls(call, &root.store, late_reset(last));
            format!("{}, {} requests", run.answer, run.requests)
        };
        vec![
            line(
                "child reset, only read 21 shows the change",
                "0, 24 requests",
                reset(port(HIGH, 0x10)),
            ),
            line(
                "child reset, no read shows the change",
                "-8, 24 requests",
                reset(port(0x111, 0)),
            ),
        ]
    }
}
