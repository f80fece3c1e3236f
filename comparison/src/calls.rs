//! One call of the port: what holds of it by document 01 alone, and what the
//! original's report of the same call adds.

use reference::call::{is_stop, most_requests, Call, Ended, Entry, Report};
use reference::layout::*;
use reference::outside::Outside;
use reference::rules::configuration_walk;
use reference::sound::is_sound;
use reference::vectors::FILL;

use crate::lent::{Asked, Lent};
use crate::port::Reply;

/// What the original left of a call.
pub struct Original<'a> {
    pub report: &'a Report,
    pub new: &'a [u8],
    pub log: &'a [u8],
}

/// Runs a call on the port and holds it to the original's. Beside the reply
/// comes the case, where the original is outside the comparison.
pub fn compare(
    lent: &mut Lent,
    asked: &Asked,
    original: &Original,
) -> Result<(Reply, Option<Outside>), String> {
    let reply = lent.call(asked, FILL)?;
    match &original.report.ended {
        Ended::Inside => {
            same(&reply, lent, original)?;
            if !original.report.refused {
                accepted(asked.call, &reply, lent)?;
            }
            Ok((reply, None))
        }
        Ended::Outside(case) => {
            accepted(asked.call, &reply, lent)?;
            goes_on(lent, original)?;
            if let Some(answer) = told_by_cut(asked, original, *case) {
                ends_at_cut(&reply, lent, original, answer)?;
            }
            Ok((reply, Some(*case)))
        }
        Ended::Unexplained(text) => Err(format!("the original panicked in {text}")),
    }
}

/// Answer, requests, new store and log are the original's, to the last byte.
pub fn same(reply: &Reply, lent: &Lent, original: &Original) -> Result<(), String> {
    let Report {
        answer, requests, ..
    } = *original.report;
    if *reply != (Reply { answer, requests }) {
        return Err(format!(
            "{reply:?}, by the original {answer} and {requests}"
        ));
    }
    same_bytes("the log", lent.log(), original.log)?;
    same_bytes("the new store", lent.new_store(), original.new)
}

pub fn same_bytes(what: &str, got: &[u8], expected: &[u8]) -> Result<(), String> {
    if got.len() != expected.len() {
        return Err(format!("{what} has {} bytes", got.len()));
    }
    if got == expected {
        return Ok(());
    }
    let at = got.iter().zip(expected).position(|(a, b)| a != b);
    let at = at.expect("a byte that differs");
    let (is, should) = (got[at], expected[at]);
    let where_to = match what.ends_with("new store") {
        true => format!("place {}, byte {}", at / PLACE, at % PLACE),
        false => format!("action {}, byte {}", at / ACTION, at % ACTION),
    };
    Err(format!(
        "{what}: {where_to} is {is:#04x}, not {should:#04x}"
    ))
}

/// The log begins with what the original logged before it was cut.
fn goes_on(lent: &Lent, original: &Original) -> Result<(), String> {
    let logged = original.report.logged;
    same_bytes(
        "the log before the cut",
        &lent.log()[..logged],
        &original.log[..logged],
    )
}

/// The port's answer, where the cut alone tells it: a connection change on a
/// full bus, a root attach whose walk ends it, a port check whose last clear
/// failed.
fn told_by_cut(asked: &Asked, original: &Original, case: Outside) -> Option<i32> {
    let action = &original.log[..original.report.logged].last_chunk::<ACTION>()?;
    let outcome = last_outcome(asked.outcomes, original.report.requests)?;
    let [hub, port] = asked.call.numbers.map(|number| number as usize);
    match (asked.call.entry, case) {
        (Entry::ConnectionChange, Outside::BusFull) => {
            is_used(asked.old, PLACES - 1).then_some(-11)
        }
        (Entry::PortCheck, Outside::ClearSuspend | Outside::ClearResetChange) => {
            let is_its_own =
                action[1] == place(asked.old, hub)[NUMBER] && usize::from(action[12]) == port + 1;
            is_its_own.then(|| result(outcome))
        }
        (Entry::RootAttach, _) if Outside::WALK.contains(&case) && !is_used(original.new, 1) => {
            let most = usize::from(u16::from_le_bytes([action[14], action[15]]));
            let data = &outcome[4..];
            let descriptors = &data[..most.min(data.len())];
            let answer = configuration_walk(descriptors, &mut [0; RECORD_LENGTH]);
            (answer != 0).then_some(answer)
        }
        _ => None,
    }
}

/// A transfer's result: the submit code, or -8 for error 31, or -4.
fn result(outcome: &[u8]) -> i32 {
    match (outcome[0], outcome[1]) {
        (0, 0) => 0,
        (0, 31) => -8,
        (0, _) => -4,
        (code, _) => -i32::from(code),
    }
}

/// This answer, and no action after those that the original logged.
fn ends_at_cut(reply: &Reply, lent: &Lent, original: &Original, answer: i32) -> Result<(), String> {
    let requests = original.report.requests;
    if *reply != (Reply { answer, requests }) {
        return Err(format!("{reply:?}, by the cut {answer} and {requests}"));
    }
    same_bytes("the log", lent.log(), original.log)
}

/// What document 01 says of every call that is not refused at entry.
pub fn accepted(call: Call, reply: &Reply, lent: &Lent) -> Result<(), String> {
    if !is_stop(reply.answer) && !(-11..=0).contains(&reply.answer) {
        return Err(format!("{} is no answer of an accepted call", reply.answer));
    }
    let store = lent.new_store();
    if store.len() != STORE || !is_sound(store) {
        return Err("the store left is damaged".to_string());
    }
    let requests = requests_in(lent.log())?;
    if reply.requests != requests {
        return Err(format!(
            "{} requests, in the log {requests}",
            reply.requests
        ));
    }
    if call.entry == Entry::Scan && !is_stop(reply.answer) && reply.answer != 0 {
        return Err(format!("a scan answers {}", reply.answer));
    }
    if call.entry == Entry::RootAttach && requests > most_requests(store) {
        return Err(format!("{requests} requests are too many"));
    }
    Ok(())
}

/// What document 01 says of a call that is refused at entry.
pub fn refused(reply: &Reply, lent: &Lent) -> Result<(), String> {
    let is_refusal = matches!(reply.answer, -2 | -4 | -12 | -16);
    let is_as_before = |bytes: &[u8]| bytes.iter().all(|&byte| byte == FILL);
    if !is_refusal || reply.requests != 0 || !is_as_before(lent.log()) {
        return Err(format!("{reply:?} with the new store as before"));
    }
    Ok(())
}

/// Whether the new store is as it was before the call.
pub fn is_untouched(lent: &Lent) -> bool {
    lent.new_store().iter().all(|&byte| byte == FILL)
}

/// The actions at the front of a log that was filled with `FILL`, in bytes.
pub fn logged_in(log: &[u8]) -> usize {
    let is_action = |action: &&[u8]| action.len() == ACTION && action[0] != FILL;
    ACTION * log.chunks(ACTION).take_while(is_action).count()
}

/// The actions of kind 1 in a log in which later bytes are as before.
fn requests_in(log: &[u8]) -> Result<u64, String> {
    let (actions, later) = log.split_at(logged_in(log));
    if later.iter().any(|&byte| byte != FILL) {
        return Err("a byte behind the actions changed".to_string());
    }
    if let Some(other) = actions.chunks(ACTION).find(|action| action[0] > 3) {
        return Err(format!("no action: {other:02x?}"));
    }
    Ok(actions
        .chunks(ACTION)
        .filter(|action| action[0] == 1)
        .count() as u64)
}

/// The outcome that the last of so many requests took.
fn last_outcome(outcomes: &[u8], requests: u64) -> Option<&[u8]> {
    let before = taken(outcomes, requests.checked_sub(1)?);
    Some(&outcomes[before..taken(outcomes, requests)])
}

/// How many bytes of the outcomes so many requests took.
pub fn taken(outcomes: &[u8], requests: u64) -> usize {
    (0..requests).fold(0, |at, _| {
        let length = u16::from_le_bytes([outcomes[at + 2], outcomes[at + 3]]);
        at + 4 + usize::from(length)
    })
}
