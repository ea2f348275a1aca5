//! Votes and proposals that came before the block that they need.

use std::collections::BTreeMap;

use bytes::Bytes;

use crate::core::Delivered;
use crate::wire::{self, Kind};

/// What waits for a block: the last vote and the last proposal of each peer.
///
/// A replica that is slower than others gets a vote before it has made the turn on the proposal. The
/// core refuses it as an orphan, and nobody sends it again: where that happens to two votes of five,
/// the view fails. So the last vote of each peer, and its last proposal, waits until a block of that
/// view is stored.
#[derive(Debug, Default)]
pub struct Orphans {
    votes: BTreeMap<u32, (u32, Bytes)>,
    proposals: BTreeMap<u32, (u32, Bytes)>,
}

impl Orphans {
    /// Takes a message that was refused as an orphan, if it is a vote or a proposal.
    pub fn keep(&mut self, it: &Delivered) {
        let Some(view) = wire::needed_view(&it.data) else { return };
        let waiting = match wire::kind_of(&it.data) {
            Some(Kind::Vote) => &mut self.votes,
            _ => &mut self.proposals,
        };
        waiting.insert(it.from, (view, it.data.clone()));
    }

    /// Those that need a block of this view, the proposals first. They wait no more.
    pub fn take(&mut self, view: u32) -> Vec<Delivered> {
        let mut out = take_of(&mut self.proposals, view);
        out.extend(take_of(&mut self.votes, view));
        out
    }
}

fn take_of(from: &mut BTreeMap<u32, (u32, Bytes)>, view: u32) -> Vec<Delivered> {
    let (due, early): (BTreeMap<_, _>, _) =
        std::mem::take(from).into_iter().partition(|(_, (needed, _))| *needed == view);
    *from = early;
    due.into_iter().map(|(from, (_, data))| Delivered { from, data }).collect()
}

#[cfg(test)]
mod tests {
    use super::*;

    fn vote(from: u32, view: u8) -> Delivered {
        Delivered { from, data: Bytes::copy_from_slice(&[2, 5, from as u8, 0, 0, 0, view]) }
    }

    #[test]
    fn a_vote_waits_for_its_block() {
        let mut orphans = Orphans::default();
        orphans.keep(&vote(1, 6));
        orphans.keep(&vote(2, 6));
        orphans.keep(&vote(2, 7)); // the last one of each peer waits
        assert!(orphans.take(5).is_empty());
        assert_eq!(orphans.take(6), [vote(1, 6)]);
        assert!(orphans.take(6).is_empty());
        assert_eq!(orphans.take(7), [vote(2, 7)]);
    }

    #[test]
    fn a_proposal_takes_no_votes_place() {
        let mut orphans = Orphans::default();
        let data = Bytes::from_static(&[2, 4, 1, 0, 0, 0, 7, 0, 0, 0, 6]);
        let proposal = Delivered { from: 1, data };
        orphans.keep(&vote(1, 6));
        orphans.keep(&proposal);
        assert_eq!(orphans.take(6), [proposal, vote(1, 6)]);
    }
}
