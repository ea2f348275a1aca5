//! What a replica counts in its session since the process started, for its status.

use std::fmt;

use themis::Reason;

const REASONS: usize = 14;

/// Counts of one replica.
#[derive(Clone, Debug)]
pub struct Counters {
    /// Ticks that were asked for.
    pub ticks: u64,
    /// Of these, ticks to a view that an honest peer had reached.
    pub joins: u64,
    /// Events that had to be prepared again.
    pub again: u64,
    /// Requests for blocks.
    pub blocks_asked: u64,
    /// Turns by their reason.
    reasons: [u64; REASONS],
    /// By peer.
    pub peers: Vec<OfPeer>,
}

/// What guards did of one peer, and what the core refused of it.
#[derive(Clone, Debug, Default)]
pub struct OfPeer {
    /// Asks that waited for their view.
    pub asks_held: u64,
    /// Fetches and requests above the budget.
    pub fetches_dropped: u64,
    /// Blocks that nobody asked for, or above the bound.
    pub gives_dropped: u64,
    /// Statuses above the budget.
    pub statuses_dropped: u64,
    /// Frames of receipts above the budget.
    pub receipts_dropped: u64,
    /// Messages that no honest replica sends, and which the core refused.
    pub refused: u64,
    /// Messages that no honest replica sends, and which the core did not get.
    pub unfit: u64,
    /// Proposals that were refused, by reason.
    pub proposals_refused: [u64; REASONS],
}

impl Counters {
    /// All counts are 0.
    pub fn new(n: u32) -> Counters {
        let peers = vec![OfPeer::default(); n as usize];
        Counters { ticks: 0, joins: 0, again: 0, blocks_asked: 0, reasons: [0; REASONS], peers }
    }

    /// Counts a turn.
    pub fn turn(&mut self, reason: Reason) {
        self.reasons[number_of(reason)] += 1;
    }

    /// Counts a refused proposal of a peer.
    pub fn proposal_refused(&mut self, peer: u32, reason: Reason) {
        self.peers[peer as usize].proposals_refused[number_of(reason)] += 1;
    }

    /// All counts.
    pub fn all(&self) -> Vec<Count> {
        let own = [
            ("ticks", self.ticks),
            ("joins", self.joins),
            ("again", self.again),
            ("blocks asked", self.blocks_asked),
        ];
        let none = Count { name: "", peer: None, reason: None, value: 0 };
        let mut out: Vec<Count> =
            own.into_iter().map(|(name, value)| Count { name, value, ..none }).collect();
        out.extend(by_reason(&self.reasons, Count { name: "reason", ..none }));
        for (peer, it) in (0..).zip(&self.peers) {
            out.extend(it.all(Count { peer: Some(peer), ..none }));
        }
        out
    }
}

fn by_reason(counts: &[u64; REASONS], of: Count) -> impl Iterator<Item = Count> + '_ {
    (0..).zip(counts).map(move |(it, value)| Count { reason: Some(it), value: *value, ..of })
}

impl OfPeer {
    fn all(&self, of: Count) -> impl Iterator<Item = Count> + '_ {
        let counts = [
            ("asks held", self.asks_held),
            ("fetches dropped", self.fetches_dropped),
            ("gives dropped", self.gives_dropped),
            ("statuses dropped", self.statuses_dropped),
            ("receipts dropped", self.receipts_dropped),
            ("refused", self.refused),
            ("unfit", self.unfit),
        ];
        let counts = counts.into_iter().map(move |(name, value)| Count { name, value, ..of });
        let refused = Count { name: "proposals refused", ..of };
        counts.chain(by_reason(&self.proposals_refused, refused))
    }
}

/// How often something happened. Its text is its name in the status.
#[derive(Clone, Copy, Debug, PartialEq, Eq)]
pub struct Count {
    /// What happened.
    pub name: &'static str,
    /// The peer that it is counted for.
    pub peer: Option<u32>,
    /// The number in themis.h of the reason of a turn.
    pub reason: Option<u32>,
    /// How often.
    pub value: u64,
}

impl fmt::Display for Count {
    fn fmt(&self, to: &mut fmt::Formatter<'_>) -> fmt::Result {
        to.write_str(self.name)?;
        match (self.peer, self.reason) {
            (Some(peer), Some(reason)) => write!(to, " of {peer} for {reason}"),
            (Some(peer), None) => write!(to, " of {peer}"),
            (None, Some(reason)) => write!(to, " {reason}"),
            (None, None) => Ok(()),
        }
    }
}

/// A reason's number in themis.h; the last one stands for those that this crate does not know.
pub fn number_of(reason: Reason) -> usize {
    match reason {
        Reason::Done => 0,
        Reason::BadWire => 1,
        Reason::Foreign => 2,
        Reason::ViewLimit => 3,
        Reason::NotLeader => 4,
        Reason::OldView => 5,
        Reason::BadSeal => 6,
        Reason::BadCert => 7,
        Reason::Orphan => 8,
        Reason::Misfit => 9,
        Reason::Clash => 10,
        Reason::Unsafe => 11,
        Reason::Repeat => 12,
        Reason::Unknown(_) => REASONS - 1,
    }
}
