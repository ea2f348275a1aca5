//! The plan of a run: all that a seed draws.

mod faults;
mod scenarios;
mod traffic;

use std::collections::BTreeSet;
use std::time::Duration;

use rand::seq::SliceRandom;
use rand::{Rng, SeedableRng};
use rand_chacha::ChaCha8Rng;
use themis_deeds::Deed;
use themis_engine::tx::Tx;

use crate::change::Step;
pub use scenarios::Scenario;

/// What may go wrong, at a moment in milliseconds.
#[derive(Clone, Copy, Debug, PartialEq)]
pub struct Fault {
    /// When it starts.
    pub at: u32,
    /// For how long.
    pub span: u32,
    /// The replica.
    pub replica: u32,
    /// What goes wrong.
    pub kind: FaultKind,
}

/// What may go wrong.
#[derive(Clone, Copy, Debug, PartialEq)]
pub enum FaultKind {
    /// The process ends, and is started again later.
    Crash,
    /// The process ends within its next write, of which that part is durable.
    Tear(f64),
    /// The process ends after its next write, before the turns.
    CrashAfterWrite,
    /// A crash; at the start a bit of the log is flipped, which has to be refused. Then it is healed.
    Rot(f64),
    /// No write fits.
    Full,
    /// Each sync takes that many milliseconds.
    Slow(u32),
    /// Nothing goes to the peer or comes from it.
    Cut(u32),
    /// Nothing goes to the peer.
    OneWay(u32),
    /// Nothing goes to any peer or comes from one.
    Alone,
    /// The connection to the peer ends, and with it what is on its way.
    Break(u32),
    /// The process ends at this step of the next change of session: after it, or before.
    CrashAt(Step, bool),
    /// A crash; the log of the session that runs is lost.
    LoseLog,
    /// A crash; the store and all logs are lost. The operator makes the store again.
    LoseStore,
}

/// What a faulty replica may do where sessions follow one another.
const DEEDS_OF_MANY: [Deed; 11] = [
    Deed::EarlyMarker,
    Deed::TwoKeys,
    Deed::FalseHistory,
    Deed::OthersKeys,
    Deed::Boast,
    Deed::Forge,
    Deed::Half,
    Deed::Mute,
    Deed::Reorder,
    Deed::Garbage,
    Deed::Stale,
];

/// In milliseconds. A replica that is away for longer may miss a change of session.
const LONGEST_SHORT_FAULT: u32 = 500;
/// What a sync of a slow disk takes besides.
const SLOW_SYNC: Duration = Duration::from_millis(15);
/// Submits to a replica that is alone.
const LONE_CLIENT: u32 = 98;
/// Uses each number for two transactions, while a replica is alone: one for it, one for the others.
const DOUBLE_CLIENT: u32 = 97;
/// The clients of one replica each have numbers from here on.
const OWN_CLIENTS: u32 = 100;
/// The clients of a burst have numbers from here on.
const BURST_CLIENTS: u32 = 200;
/// A replica takes no more of one client at a time.
pub const MAX_OF_CLIENT: u32 = 1000;

/// Transactions that a client submits to all replicas, or to one.
#[derive(Clone, Debug, PartialEq, Eq)]
pub struct Submission {
    /// In milliseconds.
    pub at: u32,
    /// The transactions.
    pub txs: Vec<Tx>,
    /// The only replica that gets them; all where there is none.
    pub to: Option<u32>,
}

impl Submission {
    /// Whether its numbers are used for other transactions as well. Then replicas may refuse it.
    pub fn is_double(&self) -> bool {
        self.txs.iter().any(|it| it.client == DOUBLE_CLIENT)
    }
}

/// All that a run depends on.
#[derive(Clone, Debug)]
pub struct Plan {
    /// What everything was drawn from.
    pub seed: u64,
    /// How many replicas.
    pub n: u32,
    /// How many may be faulty.
    pub f: u32,
    /// Views of the session.
    pub views: u32,
    /// The greatest latency of a link.
    pub latency: Duration,
    /// How long syncs take.
    pub sync: Duration,
    /// Faults, of any replica.
    pub faults: Vec<Fault>,
    /// The last replica is faulty, and does this.
    pub deeds: Vec<Deed>,
    /// What clients submit.
    pub submissions: Vec<Submission>,
    /// How long faults and submissions go on, in milliseconds.
    pub span: u32,
    /// So many sessions at least follow one another; 0 where there is one alone.
    pub sessions: u32,
    /// When an operator asks all replicas to end their session.
    pub ends: Vec<u32>,
    /// Views in a row that no replica holds back.
    pub free_views: u32,
    /// It is one of the few runs with more faults and transactions.
    pub is_long: bool,
    /// All links have the same latency, which does not vary, and clients are next to the replicas.
    pub is_even: bool,
    /// What it costs a replica to check a seal: virtual time in which it does nothing else.
    pub seal_cost: Duration,
    /// A replica that is far from all others.
    pub far: Option<u32>,
    /// A replica with a slow disk.
    pub slow: Option<u32>,
}

/// What is left of the plan of a seed, to make a failure smaller.
#[derive(Clone, Debug, Default, PartialEq, Eq)]
pub struct Edits {
    /// Faults that are left out, by their position.
    pub drop: Vec<usize>,
    /// Deeds that are left out, by their position.
    pub drop_deeds: Vec<usize>,
    /// At most that many transactions.
    pub txs: Option<usize>,
    /// These deeds, and not those that the seed draws.
    pub deeds: Vec<Deed>,
    /// So many more transactions at the start, at all replicas.
    pub burst: u32,
    /// So many others at each replica alone, at the start.
    pub spread: u32,
    /// So many sessions that follow one another; 0: one alone.
    pub sessions: u32,
    /// One of the runs with more faults and transactions.
    pub long: bool,
    /// What it costs a replica to check a seal, in microseconds.
    pub seal_cost: u32,
    /// A replica loses its store, and none is away otherwise or faulty.
    pub lose_store: bool,
    /// The scenario, and not one by chance.
    pub scenario: Option<Scenario>,
}

impl Plan {
    /// The plan of a seed.
    pub fn new(seed: u64, edits: &Edits) -> Plan {
        let mut rng = ChaCha8Rng::seed_from_u64(seed);
        let is_long = rng.gen_ratio(1, 10) || edits.long;
        let is_large = rng.gen_ratio(1, 80);
        let (n, f) = if is_large { (9, 2) } else { (5, 1) };
        let latency = *[1, 3, 10, 30, 80].choose(&mut rng).unwrap_or(&1);
        let span = if is_long { rng.gen_range(300..900) } else { rng.gen_range(40..250) };
        let mut plan = Plan {
            seed,
            n,
            f,
            views: crate::keys::MAX_VIEWS,
            latency: Duration::from_millis(latency),
            sync: Duration::from_micros(rng.gen_range(100..3000)),
            faults: Vec::new(),
            deeds: Vec::new(),
            submissions: Vec::new(),
            span,
            sessions: edits.sessions,
            ends: Vec::new(),
            free_views: *[2, 4, 12].choose(&mut rng).unwrap_or(&12),
            is_long,
            is_even: false,
            seal_cost: Duration::from_micros(u64::from(edits.seal_cost)),
            far: None,
            slow: None,
        };
        if plan.is_many() {
            // A quarter of the views has to be enough to make a marker final.
            plan.views = rng.gen_range(44..70);
            plan.span = rng.gen_range(1500..3500);
            plan.draw_deeds_of_many(&mut rng);
            plan.draw_faults(&mut rng);
            plan.draw_faults_of_many(&mut rng);
            plan.draw_lost_store(edits.lose_store);
            plan.draw_ends(&mut rng);
            plan.draw_traffic(&mut rng);
        } else {
            plan.draw_deeds(&mut rng);
            plan.draw_faults(&mut rng);
            plan.draw_submissions(&mut rng);
            plan.draw_scenario(edits.scenario);
        }
        plan.edit(edits);
        plan
    }

    /// Whether sessions follow one another.
    pub fn is_many(&self) -> bool {
        self.sessions > 0
    }

    /// Whether a replica is honest.
    pub fn is_honest(&self, replica: u32) -> bool {
        self.deeds.is_empty() || replica + 1 < self.n
    }

    /// The honest replicas.
    pub fn honest(&self) -> impl Iterator<Item = u32> + '_ {
        (0..self.n).filter(|it| self.is_honest(*it))
    }

    /// Whether nothing is faulty.
    pub fn is_calm(&self) -> bool {
        self.faults.is_empty() && self.deeds.is_empty()
    }

    /// What a frame takes at most, unless a replica is far away.
    pub fn longest_delay(&self) -> Duration {
        self.latency.mul_f64(1.5)
    }

    /// At how many moments something is submitted.
    pub fn moments(&self) -> usize {
        self.submissions.iter().map(|it| it.at).collect::<BTreeSet<_>>().len()
    }

    /// How long syncs of a replica take.
    pub fn sync_of(&self, replica: u32) -> Duration {
        if self.slow == Some(replica) {
            self.sync + SLOW_SYNC
        } else {
            self.sync
        }
    }

    /// How many transactions are submitted.
    pub fn count(&self) -> usize {
        self.submissions.iter().map(|it| it.txs.len()).sum()
    }

    fn edit(&mut self, edits: &Edits) {
        if !edits.deeds.is_empty() {
            self.deeds.clone_from(&edits.deeds);
        }
        if edits.burst > 0 {
            self.burst(edits.burst);
        }
        if edits.spread > 0 {
            self.spread(edits.spread);
        }
        let mut at = 0..;
        self.faults.retain(|_| at.next().is_none_or(|it| !edits.drop.contains(&it)));
        // A replica stays faulty without its deeds, so that fewer of them is no other promise.
        let mut at = 0..;
        self.deeds.retain(|_| at.next().is_none_or(|it| !edits.drop_deeds.contains(&it)));
        let mut left = edits.txs.unwrap_or(usize::MAX);
        for it in &mut self.submissions {
            it.txs.truncate(left);
            left -= it.txs.len();
        }
        self.submissions.retain(|it| !it.txs.is_empty());
    }
}
