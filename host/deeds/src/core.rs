//! The core of a faulty replica: it receives in another order, equivocates, or seals anything.

use std::collections::VecDeque;

use themis::{Error, Height, Message, Replica, Standing};
use themis_engine::core::{Core, Delivered, Desk, Event, Turn};
use themis_engine::sessions::reserved::marker;
use themis_engine::tx::Tx;

use crate::deed::Deed;
use crate::second_head::SecondHead;
use crate::sends::OWN_CLIENT;
use crate::signer::Signer;

/// Whose core it is, and of which session.
pub struct Owner {
    /// The replica.
    pub me: u32,
    /// The session.
    pub session: u32,
    /// Of its key.
    pub height: Height,
    /// Its secret of that session.
    pub secret: [u8; 48],
}

/// A core, and what the replica's deeds do to it. An honest one has none, and is not changed.
pub struct Faulty<C> {
    core: C,
    deeds: Vec<Deed>,
    /// It equivocates.
    second: Option<SecondHead>,
    /// What the second head has yet to take.
    prepared: VecDeque<Event>,
    /// Where a deed needs it: a large key takes a moment to grow.
    signer: Option<Signer>,
    session: u32,
    /// The marker has arrived.
    is_marked: bool,
}

impl<C: Core> Faulty<C> {
    /// The core of a session. `open` opens the same core once more, for a replica that equivocates.
    pub fn new(
        core: C,
        deeds: &[Deed],
        owner: &Owner,
        open: impl FnOnce() -> Result<Replica, Error>,
    ) -> Result<Faulty<C>, Error> {
        let is_double = deeds.contains(&Deed::TwoHeads);
        let second = is_double.then(open).transpose()?.map(|it| SecondHead::new(owner.me, it));
        let is_signing = deeds.iter().any(|it| it.seals());
        Ok(Faulty {
            core,
            deeds: deeds.to_vec(),
            second,
            prepared: VecDeque::new(),
            signer: is_signing.then(|| Signer::new(owner.height, &owner.secret)),
            session: owner.session,
            is_marked: false,
        })
    }

    /// The core below.
    pub fn inner(&mut self) -> &mut C {
        &mut self.core
    }

    /// Its session.
    pub fn session(&self) -> u32 {
        self.session
    }

    /// A statement with its seal; the statement alone where no deed needs seals.
    pub fn sealed(&self, statement: &[u8]) -> Vec<u8> {
        self.signer.as_ref().map_or_else(|| statement.to_vec(), |it| it.sealed(statement))
    }

    fn twisted(&mut self, event: &Event) -> Result<Event, Error> {
        let Event::Arrived(txs) = event else { return Ok(event.clone()) };
        let mut txs = ordered(&self.deeds, txs);
        if self.deeds.contains(&Deed::EarlyMarker) {
            let marker = marker(self.session);
            txs.retain(|it| *it != marker);
            if !self.is_marked && !self.has_arrived(&marker)? {
                txs.insert(0, marker);
            }
            self.is_marked = true;
        }
        Ok(Event::Arrived(txs))
    }

    /// Whether a transaction arrived before the log was opened again.
    fn has_arrived(&mut self, tx: &Tx) -> Result<bool, Error> {
        let standing = self.core.desk().standing(tx)?;
        Ok(matches!(standing, Standing::Arrived | Standing::Final))
    }
}

/// Transactions in the order in which they arrive at a replica with these deeds.
fn ordered(deeds: &[Deed], txs: &[Tx]) -> Vec<Tx> {
    let mut out = txs.to_vec();
    if deeds.contains(&Deed::Reorder) {
        out.reverse();
    }
    if deeds.contains(&Deed::FrontRun) {
        out.sort_by_key(|it| it.client != OWN_CLIENT);
    }
    out
}

impl<C: Core> Core for Faulty<C> {
    type Desk = C::Desk;

    fn desk(&mut self) -> &mut C::Desk {
        self.core.desk()
    }

    fn prepare(&mut self, event: &Event) -> Result<Vec<u8>, Error> {
        let event = self.twisted(event)?;
        let record = self.core.prepare(&event)?;
        if self.second.is_some() {
            self.prepared.push_back(event);
        }
        Ok(record)
    }

    fn would_change(&mut self, it: &Delivered) -> Result<bool, Error> {
        self.core.would_change(it)
    }

    fn act(&mut self) -> Result<Turn, Error> {
        let turn = self.core.act()?;
        if let (Some(second), Some(event)) = (&mut self.second, self.prepared.pop_front()) {
            second.take(&event);
        }
        Ok(turn)
    }

    fn sends(&mut self) -> Result<Vec<Message>, Error> {
        let sends = self.core.sends()?;
        Ok(match &mut self.second {
            Some(second) => second.mixed(sends),
            None => sends,
        })
    }

    fn batch_count(&mut self) -> Result<usize, Error> {
        self.core.batch_count()
    }

    fn batch(&mut self, at: usize) -> Result<Vec<Tx>, Error> {
        self.core.batch(at)
    }

    fn views(&mut self) -> Result<(u32, u32), Error> {
        self.core.views()
    }

    fn give_count(&mut self, above: u32) -> Result<usize, Error> {
        self.core.give_count(above)
    }

    fn give(&mut self, above: u32, at: usize) -> Result<Vec<u8>, Error> {
        self.core.give(above, at)
    }
}

#[cfg(test)]
mod tests {
    use themis::{public_key, Role};

    use super::*;
    use crate::signer::leaf_of;

    const HEIGHT: Height = Height::H5;
    const SESSION: u32 = 3;

    fn made(client: u32) -> Tx {
        Tx { client, number: 1, payload: 0 }
    }

    /// The core of replica 4 with that deed.
    fn opened(deed: Deed) -> Faulty<Replica> {
        let me = 4;
        let secret = |replica: u32| [replica as u8; 48];
        let keys: Vec<_> = (0..5).map(|it| public_key(HEIGHT, &secret(it)).unwrap()).collect();
        let role = Role { n: 5, f: 1, p: 1, q: 1, views: 6, me, height: HEIGHT };
        let open = || Ok(Replica::open(&role, &secret(me), &keys, &[])?.0);
        let owner = Owner { me, session: SESSION, height: HEIGHT, secret: secret(me) };
        Faulty::new(open().unwrap(), &[deed], &owner, open).unwrap()
    }

    #[test]
    fn what_a_deed_needs() {
        let (asks, doubles) = (opened(Deed::Leap), opened(Deed::TwoHeads));
        assert_eq!(leaf_of(&asks.sealed(b"any")[5..], HEIGHT), Some(31));
        assert_eq!(doubles.sealed(b"any"), b"any");
        assert!(asks.second.is_none() && doubles.second.is_some());
    }

    #[test]
    fn in_which_order_transactions_arrive() {
        let order = |deed| -> Vec<u32> {
            let txs = ordered(&[deed], &[made(1), made(OWN_CLIENT), made(2)]);
            txs.iter().map(|it| it.client).collect()
        };
        assert_eq!(order(Deed::Mute), [1, OWN_CLIENT, 2]);
        assert_eq!(order(Deed::Reorder), [2, OWN_CLIENT, 1]);
        assert_eq!(order(Deed::FrontRun), [OWN_CLIENT, 1, 2]);
    }

    #[test]
    fn an_early_marker_arrives_first_and_once() {
        let (first, marker) = (made(1), marker(SESSION));
        let arrived = |it: &mut Faulty<Replica>, txs: &[Tx]| {
            let Ok(Event::Arrived(txs)) = it.twisted(&Event::Arrived(txs.to_vec())) else {
                return Vec::new();
            };
            txs
        };
        let mut it = opened(Deed::EarlyMarker);
        assert_eq!(arrived(&mut it, &[first]), [marker, first]);
        assert_eq!(arrived(&mut it, &[made(2), marker]), [made(2)]);
        // After a crash the library knows that it has arrived.
        let mut again = opened(Deed::EarlyMarker);
        assert!(again.desk().restore(&marker).is_ok());
        assert_eq!(arrived(&mut again, &[first]), [first]);
    }
}
