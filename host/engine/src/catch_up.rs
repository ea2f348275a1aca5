//! How a replica that fell behind gets the blocks that it misses: it asks its peers for those after
//! its commit, oldest first, so that each can be stored.
//!
//! Each peer is asked separately. What one peer gives, or makes this replica ask for, does not
//! change what is asked of others: a faulty one could otherwise keep a replica from catching up.

use std::time::Duration;

use crate::budget::Budget;
use crate::time::Time;

/// Between requests to a peer.
const ASK_EVERY: Duration = Duration::from_millis(200);
/// For so long an answer may wait before the next peer is asked.
const PATIENCE: Duration = Duration::from_secs(1);
/// Without a commit for so long, others may be ahead.
const BEHIND_AFTER: Duration = Duration::from_millis(400);
/// Views; a replica that is so far behind asks without such a pause.
pub const FAR: u32 = 10;
/// Blocks that a peer gives in answer to a request, at most.
pub const MAX_BLOCKS: usize = 32;
/// Blocks of a peer that are expected at a time: two answers.
const MAX_EXPECTED: usize = 2 * MAX_BLOCKS;
/// Of Fetches to a peer: what they bring can be stored only where a single block is missing.
const FETCH_RATE: f64 = 2.0;
const FETCH_BURST: f64 = 8.0;

/// The requests of one replica for blocks.
#[derive(Debug)]
pub struct CatchUp {
    of_peer: Vec<OfPeer>,
    turn: usize,
    stepped_at: Option<Time>,
    /// The peer that `step` asked last.
    last: Option<u32>,
}

#[derive(Debug)]
struct OfPeer {
    asked_at: Option<Time>,
    /// The greatest view of a block that it gave.
    given: u32,
    fetches: Budget,
    /// Blocks that it was asked for and has not given.
    expected: usize,
}

/// Where this replica stands while it looks for blocks.
#[derive(Debug)]
pub struct Behind {
    /// The view of the committed block.
    pub commit: u32,
    /// When that last changed.
    pub commit_at: Time,
    /// What an honest peer has committed.
    pub reached: u32,
    /// Peers that are ahead.
    pub ahead: Vec<u32>,
}

/// A request: a peer, and the view above which its blocks are wanted.
#[derive(Debug, PartialEq, Eq)]
pub struct Request {
    /// Who is asked.
    pub peer: u32,
    /// Blocks of later views are wanted.
    pub above: u32,
}

impl CatchUp {
    /// Nothing was asked of the n replicas yet.
    pub fn new(n: u32) -> CatchUp {
        let fetches = Budget::new(FETCH_RATE, FETCH_BURST);
        let one = |_| OfPeer { asked_at: None, given: 0, fetches, expected: 0 };
        CatchUp { of_peer: (0..n).map(one).collect(), turn: 0, stepped_at: None, last: None }
    }

    fn is_far(commit: u32, reached: u32) -> bool {
        reached > commit.saturating_add(FAR)
    }

    /// Asks one of the peers that are ahead, each in its turn. Not while the answer of the one
    /// before waits: the next peer would give the same blocks again.
    pub fn step(
        &mut self,
        behind: &Behind,
        is_answer_waiting: impl Fn(u32) -> bool,
        now: Time,
    ) -> Option<Request> {
        let is_far = Self::is_far(behind.commit, behind.reached);
        if behind.ahead.is_empty() || !is_far && now.since(behind.commit_at) <= BEHIND_AFTER {
            return None;
        }
        let is_early = self.stepped_at.is_some_and(|at| now.since(at) < PATIENCE);
        if is_early && self.last.is_some_and(is_answer_waiting) {
            return None;
        }
        self.turn += 1;
        self.stepped_at = Some(now);
        let peer = behind.ahead[self.turn % behind.ahead.len()];
        self.last = Some(peer);
        self.ask(peer, behind.commit, now)
    }

    /// The parent of what a peer sent is missing. The peer is asked for blocks, unless so many are
    /// missing that `step` asks anyway.
    pub fn follow_orphan(
        &mut self,
        peer: u32,
        commit: u32,
        reached: u32,
        now: Time,
    ) -> Option<Request> {
        if Self::is_far(commit, reached) {
            None
        } else {
            self.ask(peer, commit, now)
        }
    }

    /// Asks a peer for blocks, unless it was asked a moment ago.
    fn ask(&mut self, peer: u32, commit: u32, now: Time) -> Option<Request> {
        let it = &mut self.of_peer[peer as usize];
        if it.asked_at.is_some_and(|at| now.since(at) <= ASK_EVERY) {
            return None;
        }
        it.asked_at = Some(now);
        it.expected = (it.expected + MAX_BLOCKS).min(MAX_EXPECTED);
        Some(Request { peer, above: commit.max(it.given) })
    }

    /// A peer gave the block of a view. The next request to it continues from there, or from the
    /// commit, where the block's parent is missing.
    pub fn take(&mut self, peer: u32, view: u32, is_known: bool) {
        let it = &mut self.of_peer[peer as usize];
        it.given = if is_known { it.given.max(view) } else { 0 };
    }

    /// Whether a Fetch of the core goes out.
    pub fn may_fetch(&mut self, peer: u32, now: Time) -> bool {
        let it = &mut self.of_peer[peer as usize];
        let may = it.fetches.take(1.0, now);
        it.expected = (it.expected + usize::from(may)).min(MAX_EXPECTED);
        may
    }

    /// Whether a block that a peer gives was asked for; it counts as given then. An honest peer gives
    /// no others. To check one costs more than any other message, and a faulty peer has any number.
    pub fn expects(&mut self, peer: u32) -> bool {
        let expected = &mut self.of_peer[peer as usize].expected;
        let is_expected = *expected > 0;
        *expected -= usize::from(is_expected);
        is_expected
    }
}

#[cfg(test)]
mod tests {
    use super::*;

    fn behind(ahead: &[u32], reached: u32, now: Time) -> Behind {
        Behind { commit: 5, commit_at: now, reached, ahead: ahead.to_vec() }
    }

    #[test]
    fn each_peer_in_its_turn_and_none_while_an_answer_waits() {
        let (mut it, now) = (CatchUp::new(5), Time::default());
        let far = behind(&[1, 2], 50, now);
        assert_eq!(it.step(&far, |_| false, now), Some(Request { peer: 2, above: 5 }));
        it.take(2, 9, true);
        assert_eq!(it.step(&far, |_| true, now), None);
        assert_eq!(it.step(&far, |_| false, now), Some(Request { peer: 1, above: 5 }));
        let later = now + PATIENCE;
        assert_eq!(it.step(&far, |_| true, later), Some(Request { peer: 2, above: 9 }));
    }

    #[test]
    fn one_that_is_near_asks_after_a_pause_or_for_an_orphan() {
        let (mut it, now) = (CatchUp::new(5), Time::default());
        let near = behind(&[1], 7, now);
        assert_eq!(it.step(&near, |_| false, now + BEHIND_AFTER), None);
        assert_eq!(it.follow_orphan(3, 5, 7, now), Some(Request { peer: 3, above: 5 }));
        assert_eq!(it.follow_orphan(3, 5, 7, now), None);
        assert_eq!(it.follow_orphan(4, 5, 50, now), None);
    }

    #[test]
    fn what_a_peer_gives_says_nothing_of_others() {
        let (mut it, now) = (CatchUp::new(5), Time::default());
        it.take(4, 103, true);
        it.take(2, 30, true);
        let above = |it: &mut CatchUp, peer, now| it.ask(peer, 5, now).map(|it| it.above);
        let found = [1, 2, 3, 4].map(|peer| above(&mut it, peer, now));
        assert_eq!(found, [Some(5), Some(30), Some(5), Some(103)]);
        it.take(2, 60, false); // its parent is missing
        assert_eq!(above(&mut it, 2, now + ASK_EVERY * 2), Some(5));
    }

    #[test]
    fn only_blocks_that_were_asked_for_are_expected() {
        let (mut it, now) = (CatchUp::new(5), Time::default());
        let taken = |it: &mut CatchUp, peer| (0..100).filter(|_| it.expects(peer)).count();
        assert_eq!(taken(&mut it, 1), 0);
        it.ask(1, 5, now);
        assert_eq!((taken(&mut it, 2), taken(&mut it, 1)), (0, MAX_BLOCKS));
        assert!(it.may_fetch(1, now));
        assert_eq!(taken(&mut it, 1), 1);
        for step in 1..9 {
            it.ask(1, 5, now + ASK_EVERY * 2 * step);
        }
        assert_eq!(taken(&mut it, 1), MAX_EXPECTED);
    }

    #[test]
    fn orphans_of_one_peer_keep_no_other_from_being_asked() {
        let (mut it, start) = (CatchUp::new(5), Time::default());
        let near = Behind { commit: 95, commit_at: start, reached: 100, ahead: vec![1, 2, 3, 4] };
        let mut asked = [0; 5];
        for step in 0..2000 {
            let now = start + Duration::from_millis(step * 10);
            it.follow_orphan(4, near.commit, near.reached, now);
            if step % 25 == 0 {
                it.step(&near, |_| false, now).into_iter().for_each(|it| {
                    asked[it.peer as usize] += 1;
                });
            }
        }
        assert!(asked[1..4].iter().all(|it| *it > 5), "{asked:?}");
    }

    #[test]
    fn fetches_of_the_core_go_out_at_a_bounded_rate() {
        let (mut it, start) = (CatchUp::new(5), Time::default());
        let sent =
            (0..1000).filter(|step| it.may_fetch(1, start + Duration::from_millis(step * 10)));
        assert!((26..=29).contains(&sent.count())); // 8 and ten seconds of 2
    }
}
