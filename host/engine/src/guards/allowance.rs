//! What one peer may cost.

use themis::Reason;

use crate::budget::Budget;
use crate::time::Time;
use crate::wire::{seals_in, Kind};

/// Status frames: an honest peer sends one for each new view, and four a second.
const STATUS_RATE: f64 = 100.0;
/// Frames of receipts: an honest peer sends fifty a second, and four with what it told before.
const RECEIPT_FRAME_RATE: f64 = 200.0;
/// Transactions in them: an honest peer tells 1,024 in each frame at most. What waits on a
/// connection that is slow comes at once.
const RECEIPT_RATE: f64 = 60_000.0;
const RECEIPT_BURST: f64 = 120_000.0;
/// Refused proposals and blocks. Each may cost as much as nine seals to check.
const REFUSAL_RATE: f64 = 2.0;
const REFUSAL_BURST: f64 = 8.0;
/// What another message with a fault costs, compared with a proposal.
const SMALL_REFUSAL: f64 = 0.1;
/// Seals of all refused messages, one for each level of trees. Most refusals are no fault: a replica that
/// is late refuses what it can't use yet, and its peers what it sends. But the seals are checked before,
/// and a faulty peer could send such messages without end. An honest peer sends less in all: at forty
/// views a second its votes, and its part of proposals and Asks, have some 520 seals.
const WASTE_RATE: f64 = 600.0;
const WASTE_BURST: f64 = 3000.0;

/// What a peer may still send, ask for and get wrong.
///
/// Messages of the protocol have no budget: they wait in the peer's inbox, which is bounded, so its
/// connection is read no faster than they are taken. A peer whose proposals are refused is slowed in
/// this way: while its budget is used up, its inbox is not read.
#[derive(Debug)]
pub struct Allowance {
    /// Blocks that Fetches ask for.
    pub fetches: Budget,
    /// Blocks that requests ask for, and the requests.
    pub requests: Budget,
    statuses: Budget,
    receipt_frames: Budget,
    receipts: Budget,
    refusals: Budget,
    wasted: Budget,
}

impl Allowance {
    /// A full allowance, with that many blocks a second, and a burst of so many.
    pub fn new(fetch_rate: f64, fetch_burst: f64) -> Allowance {
        Allowance {
            fetches: Budget::new(fetch_rate, fetch_burst),
            requests: Budget::new(fetch_rate, fetch_burst),
            statuses: Budget::new(STATUS_RATE, STATUS_RATE),
            receipt_frames: Budget::new(RECEIPT_FRAME_RATE, RECEIPT_FRAME_RATE),
            receipts: Budget::new(RECEIPT_RATE, RECEIPT_BURST),
            refusals: Budget::new(REFUSAL_RATE, REFUSAL_BURST),
            wasted: Budget::new(WASTE_RATE, WASTE_BURST),
        }
    }

    /// Whether a status of the peer is read.
    pub fn takes_status(&mut self, now: Time) -> bool {
        self.statuses.take(1.0, now)
    }

    /// Whether a frame with that many receipts is read.
    pub fn takes_receipts(&mut self, count: usize, now: Time) -> bool {
        self.receipt_frames.take(1.0, now) && self.receipts.take(count as f64, now)
    }

    /// The core refused a message of the peer, of that size.
    pub fn refused(&mut self, kind: Option<Kind>, reason: Reason, size: usize, now: Time) {
        let is_block = matches!(kind, Some(Kind::Propose | Kind::Give));
        if is_block && was_late(reason) {
            self.refusals.spend(1.0, now);
        } else if is_fault(reason) {
            self.refusals.spend(SMALL_REFUSAL, now);
        }
        self.wasted.spend(seals_in(size) as f64, now);
    }

    /// Whether messages of the peer wait, as too many of them were refused of late.
    pub fn is_slowed(&mut self, now: Time) -> bool {
        !self.refusals.has_left(now) || !self.wasted.has_left(now)
    }
}

/// Whether a block is refused for this reason only after seals were checked.
fn was_late(reason: Reason) -> bool {
    matches!(
        reason,
        Reason::BadSeal | Reason::BadCert | Reason::Misfit | Reason::Clash | Reason::Unsafe
    )
}

/// Whether no honest replica sends what a turn refuses for this reason.
pub fn is_fault(reason: Reason) -> bool {
    matches!(reason, Reason::BadWire | Reason::Foreign | Reason::BadSeal | Reason::BadCert)
}

#[cfg(test)]
mod tests {
    use super::*;
    use std::time::Duration;

    /// Of a proposal of five replicas.
    const SIZE: usize = 45_000;

    #[test]
    fn a_flood_of_statuses_is_dropped() {
        let (mut it, now) = (Allowance::new(1.0, 1.0), Time::default());
        let taken = (0..10_000).filter(|_| it.takes_status(now)).count();
        assert_eq!(taken, 100);
        let later = now + Duration::from_secs(1);
        assert_eq!((0..10_000).filter(|_| it.takes_status(later)).count(), 100);
    }

    #[test]
    fn receipts_are_bounded_by_frames_and_by_transactions() {
        let (mut it, now) = (Allowance::new(1.0, 1.0), Time::default());
        assert_eq!((0..1000).filter(|_| it.takes_receipts(1, now)).count(), 200);
        let (mut it, now) = (Allowance::new(1.0, 1.0), Time::default());
        assert_eq!((0..200).filter(|_| it.takes_receipts(1000, now)).count(), 120);
    }

    #[test]
    fn a_peer_whose_proposals_are_refused_is_slowed() {
        let (mut it, now) = (Allowance::new(1.0, 1.0), Time::default());
        for _ in 0..20 {
            // What an honest peer's proposal is refused for costs nothing.
            it.refused(Some(Kind::Propose), Reason::OldView, SIZE, now);
            it.refused(Some(Kind::Propose), Reason::Orphan, SIZE, now);
            it.refused(Some(Kind::Vote), Reason::Repeat, SIZE, now);
        }
        assert!(!it.is_slowed(now));
        for _ in 0..8 {
            it.refused(Some(Kind::Propose), Reason::Misfit, SIZE, now);
        }
        assert!(it.is_slowed(now));
        assert!(!it.is_slowed(now + Duration::from_secs(1)));
    }

    #[test]
    fn other_faults_are_cheaper() {
        let (mut it, now) = (Allowance::new(1.0, 1.0), Time::default());
        for _ in 0..60 {
            it.refused(Some(Kind::Vote), Reason::BadSeal, 100, now);
        }
        assert!(!it.is_slowed(now));
        for _ in 0..20 {
            it.refused(None, Reason::BadWire, 100, now);
        }
        assert!(it.is_slowed(now));
    }

    /// How many of these messages, one after the other, are taken within ten seconds.
    fn taken_of_orphans(size: usize) -> usize {
        let (mut it, start) = (Allowance::new(1.0, 1.0), Time::default());
        let moments = (0..100_000).map(|at| start + Duration::from_micros(at * 100));
        let taken = moments.filter(|now| {
            let is_taken = !it.is_slowed(*now);
            if is_taken {
                it.refused(Some(Kind::Propose), Reason::Orphan, size, *now);
            }
            is_taken
        });
        taken.count()
    }

    #[test]
    fn what_is_refused_without_a_fault_is_bounded_by_its_seals() {
        // 9,000 seals: 19 of such a proposal, and one of a short message.
        assert!((470..480).contains(&taken_of_orphans(SIZE)));
        assert!((8_900..9_100).contains(&taken_of_orphans(100)));
    }
}
