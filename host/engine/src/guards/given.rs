//! Blocks that peers give.

use std::collections::HashSet;

use sha2::{Digest, Sha256};

/// Which of the blocks that peers give are delivered.
///
/// A given block has no seal of its own. A leader that has the local orders of a quorum can make any
/// number of valid blocks of its view, with another order of its own in each. The core stores them
/// all, so they would fill the log and the memory. A session has one certified block for each view,
/// so as many blocks are taken from each peer as there are views. Above that number, a block is
/// taken only if the core asked for it because a certificate names it.
#[derive(Debug)]
pub struct GivenBlocks {
    views: u32,
    /// By the peer that gave them.
    stored: Vec<u32>,
    known: HashSet<[u8; 32]>,
    /// Digests that the core asked for.
    certified: HashSet<[u8; 32]>,
}

fn digest_of(block: &[u8]) -> [u8; 32] {
    Sha256::digest(block).into()
}

impl GivenBlocks {
    /// No block yet, in a session of n replicas and that many views.
    pub fn new(n: u32, views: u32) -> GivenBlocks {
        GivenBlocks {
            views,
            stored: vec![0; n as usize],
            known: HashSet::new(),
            certified: HashSet::new(),
        }
    }

    /// The core asked for a block that a certificate names.
    pub fn ask(&mut self, digest: [u8; 32]) {
        self.certified.insert(digest);
    }

    /// The core stored a block that a peer gave.
    pub fn store(&mut self, peer: u32, block: &[u8]) {
        if let Some(count) = self.stored.get_mut(peer as usize) {
            *count += 1;
        }
        self.known.insert(digest_of(block));
    }

    /// The core stored a block that its leader proposed.
    pub fn know(&mut self, block: &[u8]) {
        self.known.insert(digest_of(block));
    }

    /// Whether a given block is stored.
    pub fn is_stored(&self, block: &[u8]) -> bool {
        !self.known.is_empty() && self.known.contains(&digest_of(block))
    }

    /// Whether the core asked for a block.
    pub fn was_asked(&self, block: &[u8]) -> bool {
        !self.certified.is_empty() && self.certified.contains(&digest_of(block))
    }

    /// Whether a block of a peer goes to the core.
    pub fn may_take(&self, peer: u32, block: &[u8]) -> bool {
        self.stored[peer as usize] < self.views || self.was_asked(block)
    }

    /// How many blocks the core stored of what peers gave.
    pub fn count(&self) -> u32 {
        self.stored.iter().sum()
    }
}

#[cfg(test)]
mod tests {
    use super::*;

    #[test]
    fn given_blocks_are_bounded() {
        let mut given = GivenBlocks::new(5, 1);
        assert!(given.may_take(1, b"one"));
        given.store(1, b"one");
        assert!(given.is_stored(b"one"));
        assert!(!given.may_take(1, b"two") && given.may_take(2, b"two"));
        given.ask(digest_of(b"two"));
        assert!(given.may_take(1, b"two"));
        given.know(b"three");
        assert!(given.is_stored(b"three") && !given.is_stored(b"two"));
        assert_eq!(given.count(), 1);
    }
}
