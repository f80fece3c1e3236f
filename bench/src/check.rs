//! Every contestant does the same: answer, requests, log and new store are
//! compared before anything is timed.

use comparison::calls::same_bytes;
use comparison::port::{self, Reply};
use reference::call::{Ended, Report};
use reference::layout::{LOG, STORE};
use reference::run::run;
use reference::vectors::FILL;

use crate::cases::Case;
use crate::contestants::{bare_once, batch, Contestant, Lent};

/// What the original left, run as the comparison runs it.
struct Right {
    report: Report,
    new: Vec<u8>,
    log: Vec<u8>,
}

/// The requests of the call, or what differs.
pub fn check(case: &Case) -> Result<u64, String> {
    let (mut new, mut log) = (vec![FILL; STORE], vec![FILL; LOG]);
    let report = run(case.call, &case.old, &mut new, &case.outcomes, &mut log);
    if report.ended != Ended::Inside || report.answer != 0 {
        return Err(format!("the original: {report:?}"));
    }
    let right = Right { report, new, log };
    check_port(case, &right)?;
    check_original(case, &right)?;
    Ok(right.report.requests)
}

fn check_port(case: &Case, right: &Right) -> Result<(), String> {
    let mut lent = Lent::new(FILL);
    let (new, log) = (&mut lent.new, &mut lent.log);
    let reply = port::call(case.call, &case.old, new, &case.outcomes, log);
    let Report {
        answer, requests, ..
    } = right.report;
    if reply != (Reply { answer, requests }) {
        return Err(format!("the port: {reply:?}, not {:?}", right.report));
    }
    same_bytes("the port's log", log, &right.log)?;
    same_bytes("the port's new store", new, &right.new)
}

/// The original as it is timed: without cuts, bare and with images.
fn check_original(case: &Case, right: &Right) -> Result<(), String> {
    let logged = &right.log[..right.report.logged];
    let mut lent = Lent::new(FILL);
    if bare_once(case, &mut lent) != right.report.answer {
        return Err("the original without cuts answers otherwise".to_string());
    }
    same_bytes("the bare log", &lent.actions, logged)?;
    same_bytes("the bare new store", &lent.new, &right.new)?;
    for contestant in [Contestant::Images, Contestant::Call] {
        let mut lent = Lent::new(FILL);
        batch(contestant, case, &mut lent);
        same_bytes("the original's log", &lent.actions, logged)?;
        same_bytes("the original's new store", &lent.new, &right.new)?;
    }
    Ok(())
}
