//! Transactions whose number is final with another transaction.
//!
//! A client may use a number twice, or a faulty replica makes two transactions of it. One of them can
//! arrive at one replica while the others make the other one final. It is carried over there until it
//! is final too, and takes up a place meanwhile. So its peers take it as well. Its number does not say
//! whether it is final, but the store does. Receipts of peers wait here until the store was asked.

use std::collections::HashSet;

use themis::Receipt;

use crate::budget::Budget;
use crate::time::Time;
use crate::tx::Tx;

/// Receipts of one peer that wait. What finds no room is reported again.
const MAX_OF_PEER: usize = 256;
/// Of one peer, the store is asked for that many a second.
const RATE: f64 = 512.0;

/// Receipts of peers that wait, in one session.
#[derive(Clone, Debug)]
pub struct Doubles(Vec<OfPeer>);

#[derive(Clone, Debug)]
struct OfPeer {
    waiting: Vec<Receipt>,
    budget: Budget,
}

impl Doubles {
    /// Nothing waits.
    pub fn new(n: u32) -> Doubles {
        let budget = Budget::new(RATE, MAX_OF_PEER as f64);
        Doubles(vec![OfPeer { waiting: Vec::new(), budget }; n as usize])
    }

    /// A peer reports a transaction whose number is final. Number 0 counts as final, and no honest
    /// replica takes it: its client may have no window, and needs none.
    pub fn put(&mut self, peer: u32, receipt: Receipt) {
        let Some(OfPeer { waiting, .. }) = self.0.get_mut(peer as usize) else { return };
        let is_new = || waiting.iter().all(|it| it.tx != receipt.tx);
        if receipt.tx.number > 0 && waiting.len() < MAX_OF_PEER && is_new() {
            waiting.push(receipt);
        }
    }

    /// What the store is asked now, in a session.
    pub fn search(&mut self, session: u32, now: Time) -> Option<Search> {
        let mut heard = Vec::new();
        for (peer, OfPeer { waiting, budget }) in (0..).zip(&mut self.0) {
            if !waiting.is_empty() && budget.take(waiting.len() as f64, now) {
                heard.extend(waiting.drain(..).map(|receipt| (peer, receipt)));
            }
        }
        (!heard.is_empty()).then_some(Search { session, heard })
    }
}

/// Which of these transactions are final in an ended session?
#[derive(Debug)]
pub struct Search {
    /// The session that runs. The store has all before it.
    session: u32,
    heard: Vec<(u32, Receipt)>,
}

impl Search {
    /// What is asked for.
    pub fn txs(&self) -> impl Iterator<Item = &Tx> {
        self.heard.iter().map(|(_, receipt)| &receipt.tx)
    }

    /// Of what is asked for, the store has these.
    pub fn searched(self, finals: &HashSet<Tx>) -> Searched {
        let open = self.heard.into_iter().filter(|(_, it)| !finals.contains(&it.tx)).collect();
        Searched { session: self.session, open }
    }
}

/// What is final in no session before the one that ran when the store was asked.
#[derive(Debug)]
pub struct Searched {
    session: u32,
    open: Vec<(u32, Receipt)>,
}

impl Searched {
    /// Receipts of peers that may be heard in a session; none in a later one than that of the search,
    /// as their transactions may be final in between.
    pub fn open_in(self, session: u32) -> Vec<(u32, Receipt)> {
        if self.session == session {
            self.open
        } else {
            Vec::new()
        }
    }
}

#[cfg(test)]
mod tests {
    use std::time::Duration;

    use super::*;

    const NOW: Time = Time::from_nanos(0);

    fn receipt(payload: u64) -> Receipt {
        Receipt { tx: Tx { client: 1, number: 1, payload }, stamp: 1 }
    }

    fn count(search: Option<Search>) -> usize {
        search.map_or(0, |it| it.txs().count())
    }

    #[test]
    fn what_the_store_is_asked_for_one_peer_is_bounded() {
        let mut it = Doubles::new(5);
        for payload in 0..1000 {
            it.put(1, receipt(payload));
            it.put(2, receipt(7));
        }
        assert_eq!(count(it.search(0, NOW)), MAX_OF_PEER + 1);
        (0..1000).for_each(|payload| it.put(1, receipt(payload)));
        assert_eq!(count(it.search(0, NOW)), 0);
        assert_eq!(count(it.search(0, NOW + Duration::from_secs(1))), MAX_OF_PEER);
        it.put(9, receipt(1)); // no such replica
        assert_eq!(count(it.search(0, NOW + Duration::from_secs(9))), 0);
    }

    #[test]
    fn an_answer_counts_in_its_session_alone() {
        let answer = || {
            let mut it = Doubles::new(5);
            (0..3).for_each(|payload| it.put(3, receipt(payload)));
            let search = it.search(6, NOW).unwrap();
            let finals = search.txs().copied().filter(|it| it.payload == 1).collect();
            search.searched(&finals)
        };
        assert_eq!(answer().open_in(6), [(3, receipt(0)), (3, receipt(2))]);
        assert!(answer().open_in(7).is_empty());
    }
}
