//! What clients submit in a run.

use rand::Rng;
use rand_chacha::ChaCha8Rng;
use themis_engine::tx::Tx;

use super::{
    Fault, FaultKind, Plan, Submission, BURST_CLIENTS, DOUBLE_CLIENT, LONE_CLIENT, MAX_OF_CLIENT,
    OWN_CLIENTS,
};

impl Plan {
    /// Clients that go on for the whole span, each with ascending numbers.
    pub(super) fn draw_traffic(&mut self, rng: &mut ChaCha8Rng) {
        let mut numbers = [0u32; 4];
        let mut at = 0;
        while at < self.span {
            at += rng.gen_range(40..200);
            let client = rng.gen_range(0..numbers.len());
            let to = rng.gen_ratio(1, 12).then(|| rng.gen_range(0..self.n));
            // Bursts come right before an end, so that many wait when the session is cut.
            let is_before_end = self.ends.iter().any(|it| (at..at + 200).contains(it));
            let is_burst = to.is_none() && is_before_end && rng.gen_ratio(1, 4);
            let count = if is_burst { rng.gen_range(100..300) } else { rng.gen_range(1..6) };
            let txs = (0..count).map(|_| {
                numbers[client] += 1;
                Tx { client: client as u32 + 1, number: numbers[client], payload: self.seed }
            });
            let txs = txs.collect();
            self.submissions.push(Submission { at, txs, to });
        }
        self.draw_lonely(rng);
        self.submissions.sort_by_key(|it| it.at);
        // What a replica alone has is lost with its log.
        let loses = |it: &Fault| matches!(it.kind, FaultKind::LoseLog | FaultKind::LoseStore);
        let losing: Vec<u32> =
            self.faults.iter().filter(|it| loses(it)).map(|it| it.replica).collect();
        let is_lost = |it: &Submission| it.to.is_some_and(|to| losing.contains(&to));
        self.submissions.retain(|it| !(it.is_double() && is_lost(it)));
        for it in self.submissions.iter_mut().filter(|it| is_lost(it)) {
            it.to = None;
        }
    }

    pub(super) fn draw_submissions(&mut self, rng: &mut ChaCha8Rng) {
        let mut numbers = [0u32; 4];
        let count = if self.is_long { rng.gen_range(3..8) } else { rng.gen_range(1..3) };
        for number in 0..count {
            let client = rng.gen_range(0..numbers.len());
            // What one replica alone is given arrives slowly, so that is never much.
            let is_for_one = number > 0 && rng.gen_ratio(1, 6);
            let to = is_for_one.then(|| rng.gen_range(0..self.n));
            let is_burst = to.is_none() && self.is_long && rng.gen_ratio(1, 5);
            let count = if is_burst { rng.gen_range(50..400) } else { rng.gen_range(1..8) };
            let txs = (0..count).map(|_| {
                numbers[client] += 1;
                Tx { client: client as u32, number: numbers[client], payload: self.seed }
            });
            let txs = txs.collect();
            self.submissions.push(Submission { at: rng.gen_range(0..self.span), txs, to });
        }
        self.draw_lonely(rng);
        if self.is_long && rng.gen_ratio(1, 5) {
            self.spread(rng.gen_range(130..200));
        }
        self.submissions.sort_by_key(|it| it.at);
    }

    /// A client submits to a replica while it is alone.
    pub(super) fn draw_lonely(&mut self, rng: &mut ChaCha8Rng) {
        let mut number = 0;
        for it in self.faults.iter().filter(|it| it.kind == FaultKind::Alone) {
            let txs = (0..rng.gen_range(1..4)).map(|_| {
                number += 1;
                Tx { client: LONE_CLIENT, number, payload: self.seed }
            });
            let (at, txs, to) = (it.at + it.span / 2, txs.collect(), Some(it.replica));
            self.submissions.push(Submission { at, txs, to });
        }
        self.use_numbers_twice();
    }

    /// A client uses numbers twice. What it submits to a replica that is alone arrives there; what it
    /// submits to the others is final before they hear of that.
    pub fn use_numbers_twice(&mut self) {
        let mut numbers = 1..;
        for it in self.faults.iter().filter(|it| it.kind == FaultKind::Alone) {
            let used: Vec<u32> = numbers.by_ref().take(3).collect();
            for replica in 0..self.n {
                let payload = self.seed.wrapping_add(u64::from(replica == it.replica));
                let made = |number: &u32| Tx { client: DOUBLE_CLIENT, number: *number, payload };
                let (at, txs, to) = (it.at + 1, used.iter().map(made).collect(), Some(replica));
                self.submissions.push(Submission { at, txs, to });
            }
        }
    }

    /// Each replica alone is given so many transactions at the start: more than a local order draws.
    pub(super) fn spread(&mut self, count: u32) {
        for replica in 0..self.n {
            let client = OWN_CLIENTS + replica;
            let made = |number| Tx { client, number, payload: self.seed };
            let txs = (0..count).map(made).collect();
            self.submissions.push(Submission { at: 1, txs, to: Some(replica) });
        }
    }

    /// Many transactions at the start, at all replicas: of as many clients as it needs for each to stay
    /// within what a replica takes of one.
    pub(super) fn burst(&mut self, count: u32) {
        let made = |at| Tx {
            client: BURST_CLIENTS + at / MAX_OF_CLIENT,
            number: 1 + at % MAX_OF_CLIENT,
            payload: self.seed,
        };
        let all: Vec<Tx> = (0..count).map(made).collect();
        let of_clients = all.chunks(MAX_OF_CLIENT as usize);
        let parts = of_clients.map(|txs| Submission { at: 1, txs: txs.to_vec(), to: None });
        self.submissions.splice(0..0, parts);
    }
}
