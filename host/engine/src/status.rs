//! Where a replica stands, for operators and tests.

use crate::core::Core;
use crate::counters::Count;
use crate::engine::Engine;
use crate::time::Time;

/// Where a replica stands, and what it counted in its session since the process started.
#[derive(Clone, Debug)]
pub struct Status {
    /// Its view.
    pub view: u32,
    /// The view of its committed block.
    pub commit: u32,
    /// Final batches.
    pub batches: usize,
    /// Chains all final batches: replicas with equal counts have equal digests.
    pub digest: [u8; 32],
    /// Transactions that arrived.
    pub arrived: usize,
    /// Transactions that are final.
    pub finals: usize,
    /// Transactions that arrived and are not final.
    pub pending: usize,
    /// Transactions that were received and are not final.
    pub queued: usize,
    /// Transactions that were given way.
    pub given: usize,
    /// Replicas that are heard, this one among them.
    pub heard: u32,
    /// Clients have to wait for the next session.
    pub is_over: bool,
    /// No more transactions are taken.
    pub is_closing: bool,
    /// Counts, also those that are 0.
    pub counts: Vec<Count>,
}

/// How much an engine holds in what is bounded.
#[derive(Clone, Copy, Debug, Default, PartialEq, Eq)]
pub struct Sizes {
    /// Messages of peers that wait.
    pub inbox: usize,
    /// Transactions that were received and are not final.
    pub queue: usize,
    /// Transactions that arrived and are not final.
    pub pending: usize,
    /// Submissions that wait for their answers.
    pub clients: usize,
    /// Blocks that peers gave.
    pub given: u32,
}

impl<C: Core> Engine<C> {
    /// Where the replica stands.
    pub fn status(&self, now: Time) -> Status {
        Status {
            view: self.core.view,
            commit: self.core.commit,
            batches: self.finals.taken,
            digest: self.finals.digest,
            arrived: self.intake.arrived(),
            finals: self.intake.finals(),
            pending: self.intake.pending(),
            queued: self.intake.queued(),
            given: self.intake.given(),
            heard: self.peers.count_heard(now),
            is_over: self.is_over(),
            is_closing: self.is_closing,
            counts: self.counters.all(),
        }
    }

    /// How much the engine holds in what is bounded.
    pub fn sizes(&self) -> Sizes {
        Sizes {
            inbox: self.inbox.len(),
            queue: self.intake.queued(),
            pending: self.intake.pending(),
            clients: self.clients.len(),
            given: self.given.count(),
        }
    }
}
