//! A replica whose store was lost and made again: which sessions it sits out.
//!
//! It does not know in which sessions it has sealed, and with its master secret a key of the same
//! session has the same leaves. So it asks its peers in which session they are, and waits for n-f of
//! them. The session after the (f+1)-th greatest that they name is the last in which it may have
//! sealed.
//!
//! *Why*: say that it sealed in session x. Then a quorum voted for the cut of x-1, and at each honest
//! replica of that quorum the log of x-1 was marked before. Of n-f answers at least n-3f, and so more
//! than f, are theirs, and each names x-1 or a later session, because they were given after the loss:
//! a number that is drawn at each start of the replica binds them to its question. So x-1 is at most
//! the (f+1)-th greatest. That one is at most the session of an honest peer, so up to f faulty
//! replicas keep nobody out.

use std::time::Duration;

use crate::core::Core;
use crate::sessions::frames::SessionFrame;
use crate::sessions::requests::{SatOut, SitOut};
use crate::sessions::service::{Sessions, Stage};
use crate::sessions::Output;
use crate::time::Time;

/// Between two questions.
const ASK_EVERY: Duration = Duration::from_millis(500);

/// What the peers have answered.
#[derive(Debug)]
pub struct Returning {
    drawn: u64,
    /// The session that each peer names.
    named: Vec<Option<u32>>,
    asked_at: Option<Time>,
    quorum: usize,
    f: usize,
}

impl Returning {
    /// Nobody has answered. The number binds answers to the questions of this start.
    pub fn new(drawn: u64, n: u32, f: u32) -> Returning {
        let (quorum, f) = ((n - f) as usize, f as usize);
        Returning { drawn, named: vec![None; n as usize], asked_at: None, quorum, f }
    }

    /// The number with which all peers are asked now, if they are.
    pub fn question(&mut self, now: Time) -> Option<u64> {
        if self.asked_at.is_some_and(|at| now.since(at) < ASK_EVERY) {
            return None;
        }
        self.asked_at = Some(now);
        Some(self.drawn)
    }

    /// A peer answers that it is in a session.
    pub fn take(&mut self, peer: u32, drawn: u64, session: u32) {
        if drawn == self.drawn {
            let named = &mut self.named[peer as usize];
            *named = (*named).max(Some(session));
        }
    }

    /// The last session in which the replica may have sealed; none while too few have answered.
    pub fn last_sealed(&self) -> Option<u32> {
        let mut named: Vec<u32> = self.named.iter().flatten().copied().collect();
        if named.len() < self.quorum {
            return None;
        }
        named.sort_unstable_by(|a, b| b.cmp(a));
        Some(named[self.f].saturating_add(1))
    }
}

impl<C: Core> Sessions<C> {
    /// Whether the replica may seal in a session: not where it may have sealed before its store was
    /// lost.
    pub(super) fn may_run(&self, session: u32) -> bool {
        self.sits_out.is_none_or(|through| session > through)
    }

    /// A peer whose store was made again asks in which session this replica is. One whose own store
    /// was lost may have voted in a later session than it is in now: until that is not so any more it
    /// does not answer.
    pub(super) fn hear_session_asked(&mut self, peer: u32, drawn: u64, now: Time) {
        let may_ask = self.asks[peer as usize].take(1.0, now);
        let session = self.history.session;
        if may_ask && !matches!(self.stage, Stage::Returning(_)) && self.may_run(session) {
            let frame = SessionFrame::Session { drawn, session }.encode();
            self.put(Output::Send { to: peer, frame });
        }
    }

    /// A peer is in a session. Once enough are known, it is stored what this replica sits out.
    pub(super) fn hear_session(&mut self, peer: u32, drawn: u64, session: u32) {
        let Stage::Returning(it) = &mut self.stage else { return };
        if self.sits_out.is_some() {
            return; // that is being stored
        }
        it.take(peer, drawn, session);
        if let Some(through) = it.last_sealed() {
            self.sits_out = Some(through);
            self.put(Output::SitOut(SitOut { through }));
        }
    }

    /// Asks all peers, while nothing is known.
    pub(super) fn ask_for_session(&mut self, now: Time) {
        let Stage::Returning(it) = &mut self.stage else { return };
        if self.sits_out.is_none() {
            if let Some(drawn) = it.question(now) {
                self.put(Output::Broadcast(SessionFrame::AskSession(drawn).encode()));
            }
        }
    }

    /// What this replica sits out is durable: it takes the history from the others.
    pub(super) fn sat_out(&mut self, sat_out: &SatOut) {
        if matches!(self.stage, Stage::Returning(_)) {
            self.sits_out = Some(sat_out.through);
            self.begin();
        }
    }
}

#[cfg(test)]
mod tests {
    use super::*;

    const NOW: Time = Time::from_nanos(0);

    fn after(answers: &[(u32, u64, u32)]) -> Option<u32> {
        let mut it = Returning::new(7, 5, 1);
        answers.iter().for_each(|(peer, drawn, session)| it.take(*peer, *drawn, *session));
        it.last_sealed()
    }

    #[test]
    fn a_quorum_of_peers_has_to_answer_this_question() {
        assert_eq!(after(&[(1, 7, 3), (2, 7, 3), (3, 7, 3)]), None);
        assert_eq!(after(&[(1, 7, 3), (2, 7, 3), (3, 7, 3), (3, 7, 3)]), None); // one twice
        assert_eq!(after(&[(1, 7, 3), (2, 7, 3), (3, 7, 3), (4, 6, 3)]), None); // of another start
        assert_eq!(after(&[(1, 7, 3), (2, 7, 3), (3, 7, 3), (4, 7, 3)]), Some(4));
    }

    #[test]
    fn one_peer_neither_keeps_it_out_nor_lets_it_in() {
        assert_eq!(after(&[(1, 7, 3), (2, 7, 3), (3, 7, 3), (4, 7, u32::MAX)]), Some(4));
        assert_eq!(after(&[(1, 7, 3), (2, 7, 3), (3, 7, 3), (4, 7, 0)]), Some(4));
        // Others are already in the next session: it may have been in that one, or one ahead.
        assert_eq!(after(&[(1, 7, 4), (2, 7, 4), (3, 7, 3), (4, 7, 3)]), Some(5));
        let all_lie = [1, 2, 3, 4].map(|peer| (peer, 7, u32::MAX));
        assert_eq!(after(&all_lie), Some(u32::MAX));
    }

    #[test]
    fn it_asks_again_after_a_while() {
        let mut it = Returning::new(7, 5, 1);
        assert_eq!(it.question(NOW), Some(7));
        assert_eq!(it.question(NOW), None);
        assert_eq!(it.question(NOW + ASK_EVERY), Some(7));
    }
}
