//! The store of a replica over sessions: what is durable of those that have ended. Each call is one
//! transaction.

use std::collections::HashSet;
use std::sync::Arc;

use themis_engine::sessions::doubles::{Search, Searched};
use themis_engine::sessions::frames::{fitting, End};
use themis_engine::sessions::history::{Ended, History, MadeAgain, Restart};
use themis_engine::sessions::keys::PublicKeys;
use themis_engine::sessions::requests::{Mark, SitOut, Store};
use themis_engine::sessions::{Found, Read};

/// What is durable.
#[derive(Debug)]
pub struct Durable {
    /// The sessions that have ended, from the first on.
    pub ended: Vec<Arc<Ended>>,
    /// The public keys of the first session.
    first_keys: PublicKeys,
    /// The log of this session was marked.
    pub marked: Option<u32>,
    /// The log of the session before that one is not opened any more.
    gone: Option<u32>,
    /// How many sessions were closed here by the history of others.
    pub closed: u32,
    /// An earlier store was lost.
    is_again: bool,
    /// The sessions up to this one are sat out, once that is known.
    sits_out: Option<u32>,
}

impl Durable {
    /// Nothing has ended.
    pub fn new(first_keys: PublicKeys) -> Durable {
        let (ended, marked, gone, closed) = (Vec::new(), None, None, 0);
        Durable { ended, first_keys, marked, gone, closed, is_again: false, sits_out: None }
    }

    /// What an operator makes where this one was lost.
    pub fn made_again(&self) -> Durable {
        Durable { is_again: true, ..Durable::new(self.first_keys.clone()) }
    }

    /// It is known what is sat out.
    pub fn sit_out(&mut self, it: &SitOut) {
        self.sits_out = Some(it.through());
    }

    /// The session that comes next, or runs.
    pub fn session(&self) -> u32 {
        self.ended.len() as u32
    }

    /// The public keys of a session.
    pub fn keys(&self, session: u32) -> Option<&PublicKeys> {
        match session.checked_sub(1) {
            None => Some(&self.first_keys),
            Some(before) => self.ended.get(before as usize).map(|it| &it.keys),
        }
    }

    /// A session has ended. Again where the answer was lost.
    pub fn store(&mut self, store: &Store) {
        let ended = store.ended();
        if ended.session == self.session() {
            self.ended.push(ended.clone());
            self.closed += u32::from(store.is_closed());
        }
        if store.is_closed() {
            self.retire(ended.session);
        }
    }

    /// The log of a session was opened.
    pub fn mark(&mut self, mark: &Mark) {
        self.marked = Some(mark.session());
    }

    /// The log of a session is not opened any more.
    pub fn retire(&mut self, session: u32) {
        self.gone = Some(session);
    }

    /// What a process starts with. The number is another one at each start.
    pub fn restart(&self, drawn: u64) -> Restart {
        let mut history = History::new(self.first_keys.clone());
        self.ended.iter().for_each(|it| history.extend(it));
        let session = history.session;
        let before = session.checked_sub(1);
        let was_marked = self.marked.is_some() && self.marked >= before;
        let is_helped = before.is_some() && was_marked && self.gone < before;
        let helped = before.filter(|_| is_helped).and_then(|it| self.keys(it)).cloned();
        let made_again = match self.sits_out {
            Some(through) => Some(MadeAgain::SitsOut { through }),
            None => self.is_again.then_some(MadeAgain::Unknown { drawn }),
        };
        Restart { history, is_opened: self.marked == Some(session), helped, made_again }
    }

    /// Which transactions are final in a session that has ended.
    pub fn search(&self, search: Search) -> Searched {
        let asked: HashSet<_> = search.txs().copied().collect();
        let finals = self.ended.iter().flat_map(|it| it.batches.iter().flatten());
        let finals = finals.copied().filter(|it| asked.contains(it)).collect();
        search.searched(&finals)
    }

    /// What a peer asked for.
    pub fn read(&self, read: Read) -> Option<Found> {
        let ended = self.ended.get(read.session as usize)?;
        let end = End { position: ended.end(), digest: ended.digest };
        let from = read.from.checked_sub(ended.first).filter(|_| read.wants_batches);
        let batches =
            from.map_or_else(Vec::new, |it| fitting(ended.batches.iter().skip(it).cloned()));
        Some(Found { read, end, batches })
    }
}
