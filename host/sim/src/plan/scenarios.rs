//! What makes a run hard in one way, next to what else a seed draws.

use std::time::Duration;

use clap::ValueEnum;
use rand::seq::SliceRandom;
use rand::{Rng, SeedableRng};
use rand_chacha::ChaCha8Rng;
use themis_engine::tx::Tx;

use super::{Fault, FaultKind, Plan, Submission};

/// One hard way. Where nothing is faulty in it, no view may fail.
#[derive(Clone, Copy, Debug, PartialEq, Eq, ValueEnum)]
pub enum Scenario {
    /// Nothing is faulty. One replica is far from all others, and the disk of another one is slow.
    Uneven,
    /// Connections break all the time.
    Flaky,
    /// More than f replicas are down together, and a client submits meanwhile.
    Outage,
    /// One replica is down for seconds, while clients submit.
    Away,
}

/// One run in so many has a scenario.
const ONE_OF: u32 = 12;
/// All but the one that is far are no farther from one another: no view takes as long as a timeout.
const NEAR: Duration = Duration::from_millis(10);
/// The client of scenarios.
const CLIENT: u32 = 96;
/// When all replicas know of an outage, in milliseconds.
const KNOWN_AFTER: u32 = 1400;

impl Plan {
    /// The scenario of the run: one that is wanted, or by chance. All else is as it was drawn.
    pub(super) fn draw_scenario(&mut self, wanted: Option<Scenario>) {
        let mut rng = ChaCha8Rng::seed_from_u64(self.seed ^ 0x7363_656e_6172_696f);
        let drawn = rng.gen_ratio(1, ONE_OF).then(|| Scenario::value_variants().choose(&mut rng));
        match wanted.or(drawn.flatten().copied()) {
            Some(Scenario::Uneven) => self.uneven(&mut rng),
            Some(Scenario::Flaky) => self.flaky(&mut rng),
            Some(Scenario::Outage) => self.outage(&mut rng),
            Some(Scenario::Away) => self.away(&mut rng),
            None => return,
        }
        self.faults.sort_by_key(|it| it.at);
        self.submissions.sort_by_key(|it| it.at);
    }

    fn uneven(&mut self, rng: &mut ChaCha8Rng) {
        self.faults.clear();
        self.deeds.clear();
        self.latency = self.latency.min(NEAR);
        self.far = Some(rng.gen_range(0..self.n));
        self.slow = Some(rng.gen_range(0..self.n));
    }

    fn flaky(&mut self, rng: &mut ChaCha8Rng) {
        self.span = self.span.max(1500); // until all is final, and for a while after
        let mut at = 0;
        while at < self.span {
            at += rng.gen_range(5..30);
            let replica = rng.gen_range(0..self.n);
            let peer = (replica + rng.gen_range(1..self.n)) % self.n;
            self.faults.push(Fault { at, span: 1, replica, kind: FaultKind::Break(peer) });
        }
    }

    fn outage(&mut self, rng: &mut ChaCha8Rng) {
        let count = rng.gen_range(self.f as usize + 1..self.n as usize);
        let (at, span) = (self.span + rng.gen_range(0..1500), rng.gen_range(2000..3500));
        let mut replicas: Vec<u32> = (0..self.n).collect();
        replicas.shuffle(rng);
        for replica in replicas.into_iter().take(count) {
            self.faults.push(Fault { at, span, replica, kind: FaultKind::Crash });
        }
        self.submit_at(at + KNOWN_AFTER, 1);
    }

    fn away(&mut self, rng: &mut ChaCha8Rng) {
        let (span, replica) = (rng.gen_range(2000..3000), rng.gen_range(0..self.n));
        self.faults.push(Fault { at: self.span, span, replica, kind: FaultKind::Crash });
        let (mut at, end) = (self.span, self.span + span);
        while at < end {
            at += rng.gen_range(30..90);
            self.submit_at(at, at);
        }
    }

    /// A transaction that all replicas get.
    fn submit_at(&mut self, at: u32, number: u32) {
        let txs = vec![Tx { client: CLIENT, number, payload: self.seed }];
        self.submissions.push(Submission { at, txs, to: None });
    }
}

#[cfg(test)]
mod tests {
    use super::*;
    use crate::plan::Edits;

    fn plan(scenario: Scenario) -> Plan {
        Plan::new(3, &Edits { scenario: Some(scenario), ..Edits::default() })
    }

    #[test]
    fn nothing_is_faulty_in_an_uneven_cluster() {
        let it = plan(Scenario::Uneven);
        assert!(it.is_calm() && it.far.is_some() && it.latency <= NEAR);
        let slow = it.slow.unwrap();
        assert!(it.sync_of(slow) > it.sync_of((slow + 1) % it.n));
    }

    #[test]
    fn a_client_submits_in_an_outage() {
        let it = plan(Scenario::Outage);
        let client = it.submissions.iter().find(|it| it.txs[0].client == CLIENT).unwrap();
        let is_down = |it: &&Fault| (it.at + KNOWN_AFTER..it.at + it.span).contains(&client.at);
        let down = it.faults.iter().filter(is_down).filter(|it| it.kind == FaultKind::Crash);
        assert!(down.count() > it.f as usize);
    }

    #[test]
    fn clients_submit_while_a_replica_is_away() {
        let it = plan(Scenario::Away);
        let (away, all) = (it.faults.iter().max_by_key(|it| it.span).unwrap(), &it.submissions);
        let is_then = |it: &&Submission| (away.at..away.at + away.span).contains(&it.at);
        assert!(all.iter().filter(is_then).count() > 20);
    }

    #[test]
    fn connections_break_until_all_is_final() {
        let it = plan(Scenario::Flaky);
        let breaks = it.faults.iter().filter(|it| matches!(it.kind, FaultKind::Break(_)));
        assert!(breaks.count() > 50 && it.span >= 1500);
    }
}
