//! What waits between two sessions: what was received and has not arrived, in its order.

use std::collections::{HashMap, HashSet};

use themis::Tx;

use crate::intake::{Source, Waiting};
use crate::own::Own;

/// Of what a peer alone told of, so many wait over a change. It tells the rest again, and this too.
pub const MAX_TOLD: usize = 1024;

/// What waits.
#[derive(Debug, Default)]
pub struct Between {
    order: Vec<Tx>,
    sources: HashMap<Tx, Source>,
    own: Own,
}

impl Between {
    /// What waited when a session ended. Of each peer, the first that it told of stay.
    pub fn of(waiting: Vec<Waiting>) -> Between {
        let (mut made, mut told) = (Between::default(), HashMap::<u32, usize>::new());
        for Waiting { tx, source } in waiting {
            let is_kept = match source {
                Source::Peer(peer) => {
                    let count = told.entry(peer).or_default();
                    *count += 1;
                    *count <= MAX_TOLD
                }
                Source::Client | Source::Other => true,
            };
            if is_kept {
                made.put(tx, source);
            }
        }
        made
    }

    fn put(&mut self, tx: Tx, source: Source) {
        if source == Source::Client {
            self.own.put(tx);
        }
        if self.sources.insert(tx, source).is_none() {
            self.order.push(tx);
        }
    }

    /// Takes what a client sent, within the bounds of a session; how many are new, or none where the
    /// bounds do not allow it.
    pub fn submit(&mut self, txs: &[Tx], most: usize, most_of_client: usize) -> Option<usize> {
        let is_within =
            self.own.len() + txs.len() <= most && self.own.has_room(txs, most_of_client);
        is_within.then_some(())?;
        let before = self.order.len();
        txs.iter().for_each(|tx| self.put(*tx, Source::Client));
        Some(self.order.len() - before)
    }

    /// These are final.
    pub fn settle(&mut self, finals: &HashSet<&Tx>) {
        self.order.retain(|it| !finals.contains(it));
        self.sources.retain(|it, _| !finals.contains(it));
        finals.iter().for_each(|it| self.own.remove(it));
    }

    /// All that waits, in its order.
    pub fn take(&mut self) -> Vec<Waiting> {
        let Between { order, sources, .. } = std::mem::take(self);
        let source = |tx: &Tx| sources.get(tx).copied().unwrap_or(Source::Other);
        order.into_iter().map(|tx| Waiting { tx, source: source(&tx) }).collect()
    }
}

#[cfg(test)]
mod tests {
    use super::*;

    fn tx(client: u32, number: u32) -> Tx {
        Tx { client, number, payload: 0 }
    }

    fn told(peer: u32, count: u32) -> impl Iterator<Item = Waiting> {
        (0..count).map(move |it| Waiting { tx: tx(peer, it), source: Source::Peer(peer) })
    }

    #[test]
    fn of_what_each_peer_told_the_first_wait_and_all_of_clients() {
        let own = (0..3000).map(|it| Waiting { tx: tx(9, it), source: Source::Client });
        let mut it = Between::of(told(1, 2000).chain(own).chain(told(2, 10)).collect());
        let waiting = it.take();
        let count = |source| waiting.iter().filter(|it| it.source == source).count();
        let counts = [Source::Peer(1), Source::Client, Source::Peer(2)].map(count);
        assert_eq!(counts, [MAX_TOLD, 3000, 10]);
        assert_eq!((waiting[0].tx, waiting[MAX_TOLD].tx), (tx(1, 0), tx(9, 0)));
        assert!(it.take().is_empty());
    }

    #[test]
    fn clients_have_their_bounds_also_between_sessions() {
        let mut it = Between::of(told(1, 100).collect());
        let of = |client, count| (0..count).map(|it| tx(client, it)).collect::<Vec<_>>();
        assert_eq!(it.submit(&of(7, 3), 10, 4), Some(3));
        assert_eq!(it.submit(&of(7, 3)[..1], 10, 4), Some(0), "it is known");
        assert_eq!(it.submit(&of(7, 5)[3..], 10, 4), None, "too many of one client");
        assert_eq!(it.submit(&of(8, 4), 10, 4), Some(4), "another one has room");
        assert_eq!(it.submit(&of(5, 4), 10, 4), None, "too many of all");
        assert_eq!(it.submit(&of(1, 2), 10, 4), Some(0), "a peer told of it before");
        let finals = of(7, 3);
        it.settle(&finals.iter().collect());
        assert_eq!(it.submit(&of(7, 5)[3..], 10, 4), Some(2));
        let waiting = it.take();
        assert_eq!(waiting.len(), 100 + 4 + 2);
        assert_eq!(waiting[0], Waiting { tx: tx(1, 0), source: Source::Client });
    }
}
