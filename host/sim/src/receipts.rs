//! Who received and heard what, and when: for the check that nothing jumps.
//!
//! b jumps over a where every honest replica received b after it had received a and had heard of a
//! from all other honest ones, and b became final in an earlier batch all the same.

use std::collections::{HashMap, HashSet};

use themis_engine::tx::Tx;
use themis_engine::Note;

use crate::node::Violation;

/// What one replica noted of a transaction, by the number of the note.
#[derive(Clone, Copy, Debug, Default)]
struct Noted {
    received: Option<u64>,
    /// It was received again after a start, so its order is not known.
    is_again: bool,
    /// Who is known to have received it.
    by: u16,
    /// When all honest ones were known to have received it.
    all: Option<u64>,
}

/// What honest replicas noted at their desks.
#[derive(Debug)]
pub struct Receipts {
    honest: u16,
    of: HashMap<Tx, Vec<Noted>>,
    n: usize,
    count: u64,
    /// By replica: what it heard since the last frame of receipts came, and of whom.
    heard: Vec<Vec<(u32, Tx)>>,
}

/// When each honest replica received a transaction, and when it had heard of it from all others.
struct Times {
    tx: Tx,
    received: Vec<u64>,
    all: Option<Vec<u64>>,
    /// In the list of final batches; at its end where it is not final.
    batch: usize,
}

impl Times {
    /// Whether another one came after all had heard of this one.
    fn is_before(&self, b: &Times) -> bool {
        let Some(all) = &self.all else { return false };
        all.iter().zip(&b.received).all(|(a, b)| a < b)
    }
}

impl Receipts {
    /// Nothing was received.
    pub fn new(honest: impl Iterator<Item = u32>, n: u32) -> Receipts {
        let honest = honest.fold(0, |mask, it| mask | 1 << it);
        let heard = vec![Vec::new(); n as usize];
        Receipts { honest, of: HashMap::new(), n: n as usize, count: 0, heard }
    }

    /// A frame of receipts comes to a replica.
    pub fn frame_comes(&mut self, at: u32) {
        self.heard[at as usize].clear();
    }

    /// A replica heard what a peer told in the last frame in that order. Where more was heard, its
    /// start has ended with it, up to which earlier frames waited.
    pub fn check_told(&self, at: u32, peer: u32, told: &[Tx]) -> Result<(), Violation> {
        let heard = &self.heard[at as usize];
        if heard.len() > told.len() || heard.iter().any(|(by, _)| *by != peer) {
            return Ok(());
        }
        let mut left = told.iter();
        if heard.iter().all(|(_, tx)| left.any(|it| it == tx)) {
            Ok(())
        } else {
            Err(Violation(format!("replica {at} hears in another order what {peer} tells")))
        }
    }

    /// A replica received a transaction, or heard that another one did.
    pub fn note(&mut self, at: u32, note: Note) {
        if self.honest >> at & 1 == 0 {
            return;
        }
        self.count += 1;
        let (tx, by) = match note {
            Note::Received(tx) => (tx, at),
            Note::Heard(peer, tx) => {
                self.heard[at as usize].push((peer, tx));
                (tx, peer)
            }
        };
        let places = self.of.entry(tx).or_insert_with(|| vec![Noted::default(); self.n]);
        let noted = &mut places[at as usize];
        if by == at {
            noted.is_again = noted.received.is_some();
            noted.received = Some(self.count);
        }
        noted.by |= 1 << by;
        if noted.by & self.honest == self.honest && noted.all.is_none() {
            noted.all = Some(self.count);
        }
    }

    /// The pairs (a, b) of which b jumps over a, in a list of final batches, as far as an order was
    /// promised.
    pub fn jumps(
        &self,
        batches: &[Vec<Tx>],
        is_promised: impl Fn(&Tx, &Tx) -> bool,
    ) -> Vec<(Tx, Tx)> {
        let numbered = batches.iter().enumerate();
        let batch_of: HashMap<Tx, usize> =
            numbered.flat_map(|(at, txs)| txs.iter().map(move |tx| (*tx, at))).collect();
        let end = batches.len();
        let times = |(tx, places): (&Tx, &Vec<Noted>)| {
            let batch = batch_of.get(tx).copied().unwrap_or(end);
            let received = self.of_honest(places, |it| it.received.filter(|_| !it.is_again))?;
            Some(Times { tx: *tx, received, all: self.of_honest(places, |it| it.all), batch })
        };
        let mut all: Vec<Times> = self.of.iter().filter_map(times).collect();
        all.sort_unstable_by_key(|it| (it.batch, it.tx));
        let mut out = Vec::new();
        for (at, a) in all.iter().enumerate() {
            let before = all[..at].iter().filter(|b| b.batch < a.batch && a.is_before(b));
            out.extend(before.filter(|b| is_promised(&a.tx, &b.tx)).map(|b| (a.tx, b.tx)));
        }
        out
    }

    /// How many transactions all honest replicas received, in an order that is known.
    pub fn common(&self) -> usize {
        let is_known = |it: &Noted| it.received.filter(|_| !it.is_again);
        self.of.values().filter(|it| self.of_honest(it, is_known).is_some()).count()
    }

    fn of_honest(&self, places: &[Noted], at: impl Fn(&Noted) -> Option<u64>) -> Option<Vec<u64>> {
        (0..self.n).filter(|it| self.honest >> it & 1 == 1).map(|it| at(&places[it])).collect()
    }
}

/// In which block a final transaction was proposed, as far as counting tells.
#[derive(Clone, Copy, Debug, PartialEq, Eq)]
pub struct Proposed {
    /// The view of the block.
    pub view: u32,
    /// n-2f of its lists held it.
    pub is_solid: bool,
}

/// Where the final transactions of a chain were proposed, by the counts of each block's lists. One
/// that f+1 lists of several blocks held, and n-2f of none, may be in any of their proposals.
pub fn proposals(
    (n, f): (u32, u32),
    chain: &[(u32, HashMap<Tx, u32>)],
    finals: &HashSet<Tx>,
) -> HashMap<Tx, Proposed> {
    let mut found: HashMap<Tx, Vec<Proposed>> = HashMap::new();
    for (view, counts) in chain {
        for (tx, count) in counts.iter().filter(|(tx, count)| **count > f && finals.contains(tx)) {
            let proposed = Proposed { view: *view, is_solid: *count >= n - 2 * f };
            found.entry(*tx).or_default().push(proposed);
        }
    }
    let known = |of: Vec<Proposed>| {
        let solid = of.iter().find(|it| it.is_solid).copied();
        solid.or_else(|| of.first().filter(|_| of.len() == 1).copied())
    };
    found.into_iter().filter_map(|(tx, of)| Some((tx, known(of)?))).collect()
}

/// Whether it is promised that a comes no later than b where it was received first: b was solid when
/// it was proposed, or is in a's proposal.
pub fn is_promised(known: &HashMap<Tx, Proposed>, a: &Tx, b: &Tx) -> bool {
    let Some(of_b) = known.get(b) else { return false };
    of_b.is_solid || known.get(a).is_some_and(|it| it.view == of_b.view)
}

#[cfg(test)]
mod tests {
    use super::*;

    fn tx(number: u32) -> Tx {
        Tx { client: 1, number, payload: 0 }
    }

    fn receives_and_hears(it: &mut Receipts, at: u32, number: u32) {
        it.note(at, Note::Received(tx(number)));
        it.note(at, Note::Heard(1 - at, tx(number)));
    }

    #[test]
    fn a_jump_is_seen() {
        let mut it = Receipts::new(0..2, 3);
        for at in 0..2 {
            receives_and_hears(&mut it, at, 1);
            it.note(at, Note::Received(tx(2)));
            it.note(at, Note::Heard(2, tx(2))); // a liar, and not all honest ones
        }
        let (one, two) = (vec![tx(1)], vec![tx(2)]);
        let all = |_: &Tx, _: &Tx| true;
        assert_eq!(it.jumps(&[two.clone(), one.clone()], all), [(tx(1), tx(2))]);
        assert!(it.jumps(&[two.clone(), one.clone()], |_, _| false).is_empty());
        let without_one = std::slice::from_ref(&two);
        assert_eq!(it.jumps(without_one, all), [(tx(1), tx(2))]);
        assert!(it.jumps(&[one, two], all).is_empty());
        assert!(it.jumps(&[vec![tx(1), tx(2)]], all).is_empty());
        assert_eq!(it.common(), 2);
    }

    #[test]
    fn what_comes_before_all_were_heard_is_no_jump() {
        let mut it = Receipts::new(0..2, 3);
        receives_and_hears(&mut it, 0, 1);
        it.note(1, Note::Received(tx(1)));
        it.note(1, Note::Received(tx(2)));
        it.note(1, Note::Heard(0, tx(1)));
        it.note(0, Note::Received(tx(2)));
        let batches = [vec![tx(2)], vec![tx(1)]];
        assert!(it.jumps(&batches, |_, _| true).is_empty());
        it.note(1, Note::Received(tx(2))); // again, so its order is not known
        assert!(it.jumps(&batches, |_, _| true).is_empty());
        assert_eq!(it.common(), 1);
    }

    #[test]
    fn what_a_peer_tells_is_heard_in_its_order() {
        let told = [tx(1), tx(2), tx(3)];
        let is_fine = |heard: &[(u32, u32)]| {
            let mut it = Receipts::new(0..2, 3);
            it.note(0, Note::Heard(1, tx(3))); // earlier
            it.frame_comes(0);
            heard.iter().for_each(|(peer, number)| it.note(0, Note::Heard(*peer, tx(*number))));
            it.check_told(0, 1, &told).is_ok()
        };
        assert!(is_fine(&[(1, 1), (1, 2), (1, 3)]));
        assert!(is_fine(&[(1, 1), (1, 3)])); // there was no room for one
        assert!(!is_fine(&[(1, 3), (1, 1)]));
        assert!(is_fine(&[(2, 3), (1, 1), (1, 2)])); // what waited at a start
    }

    #[test]
    fn where_transactions_were_proposed() {
        let counts = |of: &[(u32, u32)]| of.iter().map(|(at, n)| (tx(*at), *n)).collect();
        let chain =
            [(3, counts(&[(1, 2), (2, 2), (3, 3), (4, 1)])), (4, counts(&[(2, 2), (4, 2)]))];
        let finals: HashSet<Tx> = (1..5).map(tx).collect();
        let known = proposals((5, 1), &chain, &finals);
        let proposed = |view, is_solid| Proposed { view, is_solid };
        assert_eq!(known.get(&tx(1)), Some(&proposed(3, false)));
        assert_eq!(known.get(&tx(2)), None);
        assert_eq!(known.get(&tx(3)), Some(&proposed(3, true)));
        assert_eq!(known.get(&tx(4)), Some(&proposed(4, false)));
        assert!(is_promised(&known, &tx(2), &tx(3)) && is_promised(&known, &tx(3), &tx(1)));
        assert!(!is_promised(&known, &tx(1), &tx(4)) && !is_promised(&known, &tx(1), &tx(2)));
    }
}
