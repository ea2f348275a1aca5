//! What an engine knows of the session that it runs, where sessions follow one another: where it is
//! cut, how the transactions of the service itself arrive, and which numbers of clients are taken.

use std::collections::BTreeMap;
use std::time::Duration;

use themis::{Error, Receipt, Standing, Tx};

use crate::core::Desk;
use crate::intake::MAX_TAKEN;
use crate::sessions::doubles::{Doubles, Search, Searched};
use crate::sessions::history::History;
use crate::sessions::keys::{
    announced, announcement, is_past_part, AgreedKeys, PublicKey, PublicKeys, PARTS,
};
use crate::sessions::reserved::{announcing, is_reserved, marker};
use crate::setting::Place;
use crate::time::Time;
use crate::window::{Check, Windows};

/// Once the session may end, for so long the keys of all replicas are waited for. Then those of a
/// quorum are enough, of replicas that do not say that they are out.
const KEY_PATIENCE: Duration = Duration::from_secs(5);
/// A session in which a replica has no part lasts for so long at least. Then it ends for that replica,
/// which counts among the f meanwhile, once its next key is agreed.
const REJOIN_AFTER: Duration = Duration::from_secs(60);
/// Parts of keys of earlier sessions that are taken from one peer in a session.
const MAX_STALE: usize = 8 * PARTS;

/// One session of many.
#[derive(Clone, Debug)]
pub struct Session {
    number: u32,
    place: Place,
    marker: Tx,
    /// The final batches, up to the one with the marker.
    batches: Vec<Vec<Tx>>,
    is_cut: bool,
    /// What has arrived, in its order.
    arrived: Vec<Tx>,
    windows: Windows,
    agreed: AgreedKeys,
    /// Transactions of the service that are to arrive.
    direct: Vec<Tx>,
    /// Of each replica, which parts of its next key it has reported.
    reported: Vec<[bool; PARTS]>,
    /// Of each peer, how many parts of keys of earlier sessions were taken from it.
    stale: Vec<usize>,
    /// Receipts of transactions whose number is final.
    doubles: Doubles,
    /// Receipts of the service's transactions, by peer, until the transaction is received here.
    heard: BTreeMap<Tx, Vec<(u32, u64)>>,
    /// Which peers have reported that they received the marker: bit i for replica i.
    marked_by: u16,
    is_end_wanted: bool,
    due_since: Option<Time>,
    /// A replica has no key in this session.
    lacks_a_replica: bool,
    /// Replicas that say that they have no part in it: bit i for replica i.
    out: u16,
    /// When the end was first thought of.
    began: Option<Time>,
}

/// How far a session is used up.
#[derive(Clone, Copy, Debug)]
pub struct Used {
    /// The view of the committed block.
    pub commit: u32,
    /// Transactions that arrived.
    pub arrived: usize,
}

impl Session {
    /// The session that follows what a replica has. `known` is any public key.
    pub fn new(place: Place, history: &History, known: &PublicKey) -> Session {
        let number = history.session;
        Session {
            number,
            place,
            marker: marker(number),
            batches: Vec::new(),
            is_cut: false,
            arrived: Vec::new(),
            windows: history.windows.clone(),
            agreed: AgreedKeys::new(place.n, number + 1, known),
            direct: Vec::new(),
            reported: vec![[false; PARTS]; place.n as usize],
            stale: vec![0; place.n as usize],
            doubles: Doubles::new(place.n),
            heard: BTreeMap::new(),
            marked_by: 0,
            is_end_wanted: false,
            due_since: None,
            lacks_a_replica: history.keys.iter().any(Option::is_none),
            out: 0,
            began: None,
        }
    }

    /// Its number.
    pub fn number(&self) -> u32 {
        self.number
    }

    // ---- what is final

    /// Takes the next final batch. It is the last one if it holds the marker.
    pub fn take_batch(&mut self, txs: &[Tx]) {
        self.is_cut = txs.contains(&self.marker);
        self.agreed.take(txs);
        for tx in txs {
            self.windows.settle(tx);
        }
        self.batches.push(txs.to_vec());
    }

    /// Whether the batch with the marker is final. What comes after it is void.
    pub fn is_cut(&self) -> bool {
        self.is_cut
    }

    /// The final batches.
    pub fn batches(&self) -> &[Vec<Tx>] {
        &self.batches
    }

    /// The keys of the next session that are agreed.
    pub fn next_keys(&self) -> PublicKeys {
        self.agreed.keys()
    }

    /// Whether a number of a client may be taken.
    pub fn check(&self, tx: &Tx) -> Check {
        if is_reserved(tx.client) {
            return Check::Reserved;
        }
        self.windows.check(tx)
    }

    // ---- what arrives

    /// These transactions have arrived.
    pub fn has_arrived(&mut self, txs: &[Tx]) {
        self.arrived.extend_from_slice(txs);
    }

    /// What has arrived, in its order.
    pub fn arrived(&self) -> &[Tx] {
        &self.arrived
    }

    /// The operator wants the session to end.
    pub fn want_end(&mut self) {
        self.is_end_wanted = true;
    }

    /// A peer says that it has no part in this session.
    pub fn note_out(&mut self, peer: u32) {
        self.out |= 1 << peer;
    }

    /// The own public key of the next session is to be announced.
    pub fn announce(&mut self, key: &PublicKey) {
        let txs = announcement(self.place.me, self.number + 1, key);
        self.direct.extend(txs);
    }

    /// The receipts of a peer that go to the library. Those of the service's own transactions are
    /// taken apart: a part of a key only from its replica itself, and the marker from no peer alone.
    /// What is new here is taken only if its client's window allows it. If its number is final, the
    /// store is asked first whether it is final itself.
    pub fn sift(
        &mut self,
        desk: &mut impl Desk,
        peer: u32,
        receipts: Vec<Receipt>,
    ) -> Result<Vec<Receipt>, Error> {
        let mut out = Vec::with_capacity(receipts.len());
        for it in receipts {
            if is_reserved(it.tx.client) {
                if self.is_stale(&it.tx) && desk.standing(&it.tx)? == Standing::Unknown {
                    self.take_stale(peer, it);
                }
                self.hear_service(peer, it);
                continue;
            }
            match self.windows.check(&it.tx) {
                Check::New => out.push(it),
                _ if desk.standing(&it.tx)? != Standing::Unknown => out.push(it),
                Check::Repeat | Check::BelowWindow => self.doubles.put(peer, it),
                Check::TooFarAhead | Check::TooManyClients | Check::Reserved => {}
            }
        }
        Ok(out)
    }

    /// What the store is asked now.
    pub fn search(&mut self, now: Time) -> Option<Search> {
        self.doubles.search(self.number, now)
    }

    /// Receipts that go to the library after all: their transactions are not final.
    pub fn take_searched(&mut self, searched: Searched) -> Vec<(u32, Receipt)> {
        let mut out = Vec::new();
        for (peer, it) in searched.open_in(self.number) {
            if is_reserved(it.tx.client) {
                self.put_stale(peer, it.tx);
            } else {
                out.push((peer, it));
            }
        }
        out
    }

    /// Whether it announces a key of this or an earlier session. It came too late: the marker had
    /// arrived almost everywhere; or it is another value of a part. Now it says nothing; but where it
    /// has arrived it is carried over until it is final, and takes up a place. A cluster that continues
    /// another one may have fewer replicas, so it may be of a replica that is not there any more.
    fn is_stale(&self, tx: &Tx) -> bool {
        announcing(tx.client).is_some() && is_past_part(tx, self.number)
    }

    /// One that is not final is taken. Where the window does not say that it is not, the store does.
    fn take_stale(&mut self, peer: u32, it: Receipt) {
        if self.windows.is_open(&it.tx) {
            self.put_stale(peer, it.tx);
        } else {
            self.doubles.put(peer, it);
        }
    }

    /// Such a part is taken from any peer, so that it arrives everywhere and becomes final; few of
    /// each peer, since a faulty one can make some up.
    fn put_stale(&mut self, peer: u32, tx: Tx) {
        let Some(count) = self.stale.get_mut(peer as usize) else { return };
        if *count < MAX_STALE && !self.direct.contains(&tx) {
            *count += 1;
            self.direct.push(tx);
        }
    }

    fn hear_service(&mut self, peer: u32, it: Receipt) {
        if it.tx == self.marker {
            self.marked_by |= 1 << peer;
        } else if let Some((replica, part)) = announced(&it.tx, self.number + 1) {
            let Some(parts) = self.reported.get_mut(replica as usize) else { return };
            if replica == peer && !std::mem::replace(&mut parts[part], true) {
                self.direct.push(it.tx);
            }
        } else {
            return;
        }
        self.keep_stamp(peer, it);
    }

    /// A stamp of a transaction that is not received here yet. An honest peer reports few.
    fn keep_stamp(&mut self, peer: u32, it: Receipt) {
        let of_peer = self.heard.values().flatten().filter(|(by, _)| *by == peer).count();
        if of_peer > PARTS * self.place.n as usize {
            return;
        }
        let stamps = self.heard.entry(it.tx).or_default();
        if stamps.iter().all(|(by, _)| *by != peer) {
            stamps.push((peer, it.stamp));
        }
    }

    /// Transactions of the service that arrive now, past what else waits.
    pub fn arrive(
        &mut self,
        desk: &mut impl Desk,
        used: Used,
        now: Time,
    ) -> Result<Vec<Tx>, Error> {
        let mut out = Vec::new();
        if self.is_ending(desk)? {
            self.direct.clear();
        } else if self.is_due(used, now) {
            self.direct.push(self.marker);
        }
        for tx in std::mem::take(&mut self.direct) {
            // What a block has named arrives with its block.
            if desk.standing(&tx)? == Standing::Unknown {
                desk.restore(&tx)?;
                out.push(tx);
            }
        }
        self.pass_stamps(desk)?;
        Ok(out)
    }

    /// Stamps of what is received by now go to the library.
    fn pass_stamps(&mut self, desk: &mut impl Desk) -> Result<(), Error> {
        for (tx, stamps) in std::mem::take(&mut self.heard) {
            if desk.standing(&tx)? == Standing::Unknown {
                self.heard.insert(tx, stamps);
                continue;
            }
            for (peer, stamp) in stamps {
                desk.hear(peer, &Receipt { tx, stamp })?;
            }
        }
        Ok(())
    }

    /// Whether the marker has arrived. Then nothing arrives any more but what blocks propose.
    pub fn is_ending(&self, desk: &mut impl Desk) -> Result<bool, Error> {
        let standing = desk.standing(&self.marker)?;
        Ok(self.is_cut || matches!(standing, Standing::Arrived | Standing::Final))
    }

    /// Whether the marker is to arrive: the session is used up by half, or its operator wants that,
    /// and enough keys are agreed; or a replica that has no part in it can have one in the next; or
    /// more than f peers have received it.
    fn is_due(&mut self, used: Used, now: Time) -> bool {
        let Place { n, f, views, .. } = self.place;
        if self.marked_by.count_ones() > f {
            return true;
        }
        let age = now.since(*self.began.get_or_insert(now));
        let count = self.agreed.count();
        if age > REJOIN_AFTER && self.can_let_others_in(count) {
            return true;
        }
        // Above three quarters of what a session takes.
        let is_used = used.commit > views / 2 || used.arrived > MAX_TAKEN / 4 * 3;
        if !is_used && !self.is_end_wanted {
            return false;
        }
        let since = *self.due_since.get_or_insert(now);
        let is_late = now.since(since) > KEY_PATIENCE || used.commit > views / 4 * 3;
        count == n || is_late && self.count_of_others() >= self.place.quorum()
    }

    /// How many keys are agreed of replicas that do not say that they are out. One that has lost its
    /// store may have announced a key before that, and have no part in the next session all the same.
    fn count_of_others(&self) -> u32 {
        (0..self.place.n).filter(|it| !self.is_out(*it) && self.agreed.has(*it)).count() as u32
    }

    fn is_out(&self, replica: u32) -> bool {
        self.out >> replica & 1 == 1
    }

    /// Whether a replica has no part in this session, and could have one in the next: its own key is
    /// agreed; or it is here, and those of all others are. One that lost its store may have to sit out
    /// the next session too, and announces no key for it.
    fn can_let_others_in(&self, count: u32) -> bool {
        let Place { n, .. } = self.place;
        let has_all_others = (0..n).all(|it| self.is_out(it) || self.agreed.has(it));
        self.lacks_a_replica && count == n
            || self.out != 0 && has_all_others && count >= self.place.quorum()
    }
}

#[cfg(test)]
#[path = "running_tests.rs"]
mod tests;
