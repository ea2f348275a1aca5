//! Makes a failing run smaller.

use crate::plan::{Edits, Plan};
use crate::process;
use crate::run::Mode;

/// The smallest edits found under which the run of a seed still fails.
pub fn shrink(seed: u64, mode: Mode, start: Edits) -> Edits {
    let fails = |edits: &Edits| process::run(&Plan::new(seed, edits), mode).violation.is_some();
    let all = Edits { drop: Vec::new(), drop_deeds: Vec::new(), txs: None, ..start.clone() };
    let whole = Plan::new(seed, &all);
    let mut best = start;
    for at in 0..whole.faults.len() {
        let mut tried = best.clone();
        tried.drop.push(at);
        keep_if(fails(&tried), tried, &mut best);
    }
    for at in 0..whole.deeds.len() {
        let mut tried = best.clone();
        tried.drop_deeds.push(at);
        keep_if(fails(&tried), tried, &mut best);
    }
    let mut count: usize = whole.submissions.iter().map(|it| it.txs.len()).sum();
    while count > 1 {
        count /= 2;
        let tried = Edits { txs: Some(count), ..best.clone() };
        if !fails(&tried) {
            break;
        }
        best = tried;
    }
    best
}

fn keep_if(is_kept: bool, tried: Edits, best: &mut Edits) {
    if is_kept {
        *best = tried;
    }
}
