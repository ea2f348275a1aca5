//! In which session each peer is, by what it sends. A faulty one says anything.

use std::collections::VecDeque;

use crate::frame::Frame;

/// Frames of a peer that wait for the next session. It holds a slot for each, so they are fewer than
/// those: frames of the session that runs come through in between.
const MAX_EARLY: usize = 32;

/// The greatest session that each peer has named.
#[derive(Debug)]
pub struct PeerSessions {
    of: Vec<Option<u32>>,
}

impl PeerSessions {
    /// Nothing was heard of n replicas.
    pub fn new(n: u32) -> PeerSessions {
        PeerSessions { of: vec![None; n as usize] }
    }

    /// A peer sent a frame of a session.
    pub fn hear(&mut self, peer: u32, session: u32) {
        let of = &mut self.of[peer as usize];
        *of = (*of).max(Some(session));
    }

    /// Peers in a session after this one.
    pub fn after(&self, session: u32) -> impl Iterator<Item = u32> + '_ {
        let numbered = (0..).zip(&self.of);
        numbered.filter(move |(_, of)| **of > Some(session)).map(|(peer, _)| peer)
    }

    /// Whether a peer was heard, and in no session after this one.
    pub fn is_any_within(&self, session: u32) -> bool {
        self.of.iter().flatten().any(|it| *it <= session)
    }

    /// How many peers are in a session after this one.
    pub fn count_after(&self, session: u32) -> u32 {
        self.after(session).count() as u32
    }
}

/// What waited of one peer.
#[derive(Debug)]
pub struct Early {
    /// The peer.
    pub peer: u32,
    /// Its frames of the session, each with the room that its peer's queue had.
    pub frames: Vec<(Frame, usize)>,
    /// How many frames of other sessions there were.
    pub others: u32,
}

/// Frames of peers that are one session ahead.
#[derive(Debug)]
pub struct EarlyFrames {
    of: Vec<VecDeque<(u32, Frame, usize)>>,
}

impl EarlyFrames {
    /// None of n replicas.
    pub fn new(n: u32) -> EarlyFrames {
        EarlyFrames { of: (0..n).map(|_| VecDeque::new()).collect() }
    }

    /// Takes a frame of a session; how many older ones gave way.
    pub fn put(&mut self, peer: u32, session: u32, frame: Frame, room: usize) -> u32 {
        let of = &mut self.of[peer as usize];
        of.push_back((session, frame, room));
        let dropped = of.len().saturating_sub(MAX_EARLY);
        of.drain(..dropped);
        dropped as u32
    }

    /// All that waited, by peer: those of this session, and how many others there were.
    pub fn take(&mut self, session: u32) -> Vec<Early> {
        let mut out = Vec::new();
        for (peer, of) in (0..).zip(&mut self.of) {
            let all = std::mem::take(of);
            let count = all.len();
            let due = all.into_iter().filter(|(of, _, _)| *of == session);
            let frames: Vec<_> = due.map(|(_, frame, room)| (frame, room)).collect();
            let others = (count - frames.len()) as u32;
            out.push(Early { peer, frames, others });
        }
        out
    }
}

#[cfg(test)]
mod tests {
    use super::*;

    #[test]
    fn where_peers_are() {
        let mut peers = PeerSessions::new(4);
        peers.hear(1, 5);
        peers.hear(1, 3);
        peers.hear(2, 4);
        assert_eq!(peers.after(3).collect::<Vec<_>>(), [1, 2]);
        assert_eq!((peers.count_after(4), peers.count_after(5)), (1, 0));
        assert!(peers.is_any_within(4) && !peers.is_any_within(3));
    }

    #[test]
    fn early_frames_wait_and_are_bounded() {
        let mut early = EarlyFrames::new(2);
        let dropped: u32 = (0..40).map(|it| early.put(1, 7, Frame::Blocks(it), 0)).sum();
        assert_eq!(dropped, 8);
        early.put(0, 6, Frame::Blocks(1), 0);
        let taken = early.take(7);
        assert_eq!((taken[0].frames.len(), taken[0].others), (0, 1));
        assert_eq!((taken[1].frames.len(), taken[1].others), (32, 0));
        assert_eq!(taken[1].frames[0].0, Frame::Blocks(8));
        assert!(early.take(7).iter().all(|it| it.frames.is_empty()));
    }
}
