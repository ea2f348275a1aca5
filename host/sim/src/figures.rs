//! What a transaction costs in time, where nothing is faulty: five replicas, and the same delay
//! between any two of them. Clients are next to the replicas.

use std::collections::HashMap;
use std::fmt;
use std::time::Duration;

use themis_engine::setting::PaceOptions;
use themis_engine::tx::Tx;
use themis_engine::Time;

use crate::node::Violation;
use crate::plan::{Edits, Plan, Submission};
use crate::world::{at_ms, World};

/// Clients, so that none has more waiting than a replica takes of one.
const CLIENTS: u32 = 16;
const SYNC: Duration = Duration::from_millis(1);
/// When clients start: by then the replicas have heard of each other.
const START_MS: u32 = 1500;
/// For so long clients go on, and for that many delays: a key of a simulated replica has few views.
const SPAN_MS: u32 = 1000;
const SPAN_DELAYS: u32 = 20;
/// With less than one transaction in this time, each comes alone.
const EVERY_MS: u32 = 10;
/// Then so many come.
const LONE: u32 = 12;
/// All has to be final by then.
const END_MS: u32 = 120_000;

/// What is measured.
pub struct Asked {
    /// From any replica to any other one.
    pub delay: Duration,
    /// Transactions a second.
    pub rate: u32,
    /// What it costs a replica to check a seal.
    pub seal_cost: Duration,
}

/// What was measured.
pub struct Figures {
    delay: Duration,
    rate: u32,
    count: usize,
    /// From the submission at all replicas until two have the batch.
    latencies: Vec<Duration>,
    /// From the first submission until all is final.
    took: Duration,
    views: u32,
}

impl fmt::Display for Figures {
    fn fmt(&self, to: &mut fmt::Formatter<'_>) -> fmt::Result {
        let at = |part: usize| self.latencies[self.latencies.len() * part / 100];
        let ms = |it: Duration| it.as_secs_f64() * 1000.0;
        let delays = ms(at(50)) / ms(self.delay).max(0.001);
        write!(
            to,
            "delay {:?}, {} a second: {} final, {:.0} a second, in {} views; latency median {:.0} ms, or \
             {delays:.1} delays; p99 {:.0} ms",
            self.delay,
            self.rate,
            self.count,
            self.count as f64 / self.took.as_secs_f64(),
            self.views,
            ms(at(50)),
            ms(at(99)),
        )
    }
}

/// Runs a cluster, and measures.
pub fn measure(asked: &Asked) -> Result<Figures, Violation> {
    let plan = plan_of(asked);
    let of_submission = |it: &Submission| {
        let at = it.at;
        it.txs.clone().into_iter().map(move |tx| (tx, at_ms(at))).collect::<Vec<_>>()
    };
    let due: HashMap<Tx, Time> = plan.submissions.iter().flat_map(of_submission).collect();
    let mut world = World::new(plan)?;
    while world.nodes.iter().any(|it| it.finals.len() < due.len()) {
        if !world.step()? || world.now > at_ms(END_MS) {
            return Err(Violation("not all is final".to_owned()));
        }
    }
    let mut latencies = Vec::new();
    for (position, txs) in world.nodes[0].batches.iter().enumerate() {
        let mut times: Vec<Time> = world.nodes.iter().map(|it| it.batch_times[position]).collect();
        times.sort_unstable();
        // One more than may be faulty: then a client believes it.
        let final_at = times[world.plan.f as usize];
        latencies.extend(txs.iter().map(|tx| final_at.since(due[tx])));
    }
    latencies.sort_unstable();
    let took = world.now.since(at_ms(START_MS));
    let views = world.nodes[0].views();
    Ok(Figures { delay: asked.delay, rate: asked.rate, count: due.len(), latencies, took, views })
}

/// Clients submit to all replicas at an even rate, where it is high, and otherwise at any moment.
fn plan_of(asked: &Asked) -> Plan {
    let mut plan = Plan::new(0, &Edits::default());
    (plan.n, plan.f, plan.free_views) = (5, 1, PaceOptions::default().free);
    plan.latency = asked.delay;
    plan.sync = SYNC;
    plan.seal_cost = asked.seal_cost;
    plan.is_even = true;
    plan.faults.clear();
    plan.deeds.clear();
    let span = SPAN_MS + SPAN_DELAYS * asked.delay.as_millis() as u32;
    let (every, in_one, count) = match asked.rate * EVERY_MS / 1000 {
        0 => (1000 / asked.rate.max(1), 1, LONE.max(asked.rate * span / 1000)),
        in_one => (EVERY_MS, in_one, span / EVERY_MS),
    };
    let submission = |at: u32| {
        let tx = |it: u32| {
            let number = at * in_one + it;
            Tx { client: 1 + number % CLIENTS, number: 1 + number / CLIENTS, payload: 0 }
        };
        // No timer of a replica has this moment more often than others.
        let shift = at * 7919 % every;
        let txs = (0..in_one).map(tx).collect();
        Submission { at: START_MS + at * every + shift, txs, to: None }
    };
    plan.submissions = (0..count).map(submission).collect();
    plan
}

#[cfg(test)]
mod tests {
    use super::*;

    /// In virtual time, so no machine changes it. A proposal is on its way when the transaction comes,
    /// and each view takes two delays.
    #[test]
    fn a_lone_transaction_takes_some_nine_delays() {
        let delay = Duration::from_millis(20);
        let asked = Asked { delay, rate: 1, seal_cost: Duration::ZERO };
        let figures = measure(&asked).unwrap();
        let median = figures.latencies[figures.latencies.len() / 2];
        assert_eq!(figures.count, LONE as usize);
        assert!(median > delay * 8 && median < delay * 11, "{median:?}");
        // What is checked takes time.
        let slower = measure(&Asked { seal_cost: Duration::from_millis(1), ..asked }).unwrap();
        assert!(slower.latencies[slower.latencies.len() / 2] > median + delay);
    }
}
