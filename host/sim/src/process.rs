//! Runs in processes of their own: they share the keys that were grown before, and one that panics,
//! aborts or hangs fails alone.

use std::io::Result;

use crate::node::role_of;
use crate::opened;
use crate::plan::Plan;
use crate::run::{self, Mode, Report};
use crate::sys::{self, Child, Ended};

/// No report is longer.
const MAX_TEXT: usize = 2000;

/// Starts a run. Call it while this process has one thread.
pub fn start(plan: &Plan, mode: Mode) -> Result<Child> {
    // Where that fails, so do the replicas of the run, which says so.
    let _ = opened::fill(&role_of(plan, 0));
    sys::fork(|| {
        let mut report = run::run(plan, mode);
        report.violation = report.violation.map(|it| it.chars().take(MAX_TEXT).collect());
        serde_json::to_vec(&report).unwrap_or_default()
    })
}

/// The report of a run that ended.
pub fn report(ended: &Ended) -> Report {
    let violation = Some(match ended.signal {
        Some(libc::SIGXCPU) => "it hangs".to_owned(),
        Some(signal) => format!("it is ended by signal {signal}"),
        None => "it panics".to_owned(),
    });
    let failed = || Report { violation, ..Report::default() };
    let report = serde_json::from_slice(&ended.bytes).unwrap_or_else(|_| failed());
    Report { used: ended.used, ..report }
}

/// One run.
pub fn run(plan: &Plan, mode: Mode) -> Report {
    let ended = start(plan, mode).and_then(|child| sys::wait(&mut vec![child]));
    match ended {
        Ok((_, ended)) => report(&ended),
        Err(fault) => Report { violation: Some(fault.to_string()), ..Report::default() },
    }
}
