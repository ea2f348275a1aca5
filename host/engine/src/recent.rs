//! What the replica saw last of views and of its peers, for operators.

use std::collections::BTreeSet;
use std::time::Duration;

use crate::core::Core;
use crate::engine::Engine;
use crate::frame::Standing;
use crate::time::Time;

/// So many of the last views are remembered.
const MAX_VIEWS: u32 = 240;

/// The views, of the last ones, for which a block was accepted here.
#[derive(Debug, Default)]
pub(crate) struct Blocks(BTreeSet<u32>);

impl Blocks {
    /// A block of a view was accepted. It may be one of long ago, that a peer gave.
    pub fn accepted(&mut self, view: u32) {
        self.0.insert(view);
        if self.0.len() > MAX_VIEWS as usize {
            self.0.pop_first();
        }
    }
}

/// How a view went.
#[derive(Clone, Copy, Debug, PartialEq, Eq)]
pub struct View {
    /// Its number.
    pub number: u32,
    /// The replica that led it.
    pub leader: u32,
    /// A block of this view was accepted here.
    pub has_block: bool,
}

/// What a peer reported last. A faulty one reports anything.
#[derive(Clone, Copy, Debug, PartialEq, Eq)]
pub struct Heard {
    /// The peer.
    pub peer: u32,
    /// How long ago it reported; none where it never did.
    pub age: Option<Duration>,
    /// Whether it counts as heard.
    pub is_heard: bool,
    /// Where it says that it stands.
    pub standing: Standing,
}

impl<C: Core> Engine<C> {
    /// The last views in ascending order, with the one that the replica is in.
    pub fn recent_views(&self) -> Vec<View> {
        let current = self.core.view;
        let first = current.saturating_sub(MAX_VIEWS - 1).max(1);
        let view = |number| View {
            number,
            leader: self.place.leader_of(number),
            has_block: self.blocks.0.contains(&number),
        };
        (first..=current).map(view).collect()
    }

    /// What each peer reported last.
    pub fn peers_heard(&self, now: Time) -> Vec<Heard> {
        self.place.others().map(|it| self.peers.last_of(it, now)).collect()
    }
}

#[cfg(test)]
mod tests {
    use super::*;

    #[test]
    fn only_the_last_views_are_remembered() {
        let mut blocks = Blocks::default();
        for view in 1..=MAX_VIEWS + 5 {
            blocks.accepted(view);
        }
        blocks.accepted(7);
        assert_eq!(blocks.0.len(), MAX_VIEWS as usize);
        assert!(!blocks.0.contains(&5) && blocks.0.contains(&(MAX_VIEWS + 5)));
    }
}
