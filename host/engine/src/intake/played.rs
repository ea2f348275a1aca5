//! A desk that a test plays, in place of the library: everything arrives in the order of receipt, as
//! far as blocks make room.

use std::collections::HashSet;

use bytes::Bytes;
use themis::{Arrivals, Error, Held, Receipt, Standing, Taken, Tx};

use super::Desk;
use crate::{tx, wire};

/// How many arrive after a block.
pub const ROOM: usize = 96;

/// What the desk was called for.
#[derive(Clone, Copy, Debug, PartialEq, Eq)]
pub enum Call {
    /// A client's transaction.
    Submit(Tx),
    /// A peer's receipt.
    Hear(u32, Tx),
    /// A peer's clock.
    Clock(u32, u64),
    /// One that arrived.
    Restore(Tx),
    /// How many are final.
    Settle(usize),
    /// The view of a block.
    Accepted(u32),
    /// What arrives.
    Arrive,
    /// What arrives of what blocks propose.
    ArriveProposed,
}

/// A desk that notes its calls.
#[derive(Debug)]
pub struct PlayedDesk {
    /// The calls that change it.
    pub calls: Vec<Call>,
    held: Vec<(Receipt, bool)>,
    finals: HashSet<Tx>,
    clock: u64,
    room: usize,
    /// How many more of own clients it takes.
    pub own_room: usize,
}

impl Default for PlayedDesk {
    fn default() -> PlayedDesk {
        let (calls, held, finals) = (Vec::new(), Vec::new(), HashSet::new());
        PlayedDesk { calls, held, finals, clock: 0, room: ROOM, own_room: 16_384 }
    }
}

impl PlayedDesk {
    fn receive(&mut self, tx: Tx) -> Taken {
        match self.standing(&tx) {
            Ok(Standing::Unknown) => {
                self.clock += 1;
                self.held.push((Receipt { tx, stamp: self.clock }, false));
                Taken::New
            }
            Ok(Standing::Final) => Taken::Final,
            _ => Taken::Held,
        }
    }
}

impl Desk for PlayedDesk {
    fn submit(&mut self, tx: &Tx) -> Result<Taken, Error> {
        self.calls.push(Call::Submit(*tx));
        if self.standing(tx)? == Standing::Unknown {
            if self.own_room == 0 {
                return Ok(Taken::Full);
            }
            self.own_room -= 1;
        }
        Ok(self.receive(*tx))
    }

    fn hear(&mut self, peer: u32, receipt: &Receipt) -> Result<Taken, Error> {
        self.calls.push(Call::Hear(peer, receipt.tx));
        Ok(self.receive(receipt.tx))
    }

    fn hear_clock(&mut self, peer: u32, clock: u64) -> Result<(), Error> {
        self.calls.push(Call::Clock(peer, clock));
        Ok(())
    }

    fn restore(&mut self, tx: &Tx) -> Result<Taken, Error> {
        self.calls.push(Call::Restore(*tx));
        let taken = self.receive(*tx);
        let mut held = self.held.iter_mut();
        if let Some((_, has_arrived)) = held.find(|(it, _)| it.tx == *tx) {
            *has_arrived = true;
        }
        Ok(taken)
    }

    fn settle(&mut self, txs: &[Tx]) -> Result<(), Error> {
        self.calls.push(Call::Settle(txs.len()));
        self.finals.extend(txs);
        self.held.retain(|(it, _)| !self.finals.contains(&it.tx));
        Ok(())
    }

    fn accepted(&mut self, block: &[u8]) -> Result<bool, Error> {
        let Some(views) = wire::block_views(block) else { return Ok(false) };
        self.calls.push(Call::Accepted(views.view));
        for tx in wire::fresh_lists(block).into_iter().flat_map(|it| it.txs) {
            self.receive(tx);
        }
        self.room = ROOM;
        Ok(true)
    }

    fn arrive(&mut self) -> Result<Arrivals, Error> {
        self.calls.push(Call::Arrive);
        let waiting = self.held.iter_mut().filter(|(_, has_arrived)| !has_arrived);
        let txs: Vec<Tx> = waiting
            .take(self.room)
            .map(|(it, has_arrived)| {
                *has_arrived = true;
                it.tx
            })
            .collect();
        self.room -= txs.len();
        Ok(Arrivals { txs, given: 0 })
    }

    fn arrive_proposed(&mut self) -> Result<Vec<Tx>, Error> {
        self.calls.push(Call::ArriveProposed);
        Ok(Vec::new())
    }

    fn receipts(&mut self, after: u64, most: usize) -> Result<Vec<Receipt>, Error> {
        let later = self.held.iter().map(|(it, _)| *it).filter(|it| it.stamp > after);
        Ok(later.take(most).collect())
    }

    fn standing(&mut self, tx: &Tx) -> Result<Standing, Error> {
        let held = self.held.iter().find(|(it, _)| it.tx == *tx);
        Ok(match held {
            Some((_, true)) => Standing::Arrived,
            Some((_, false)) => Standing::Waiting,
            None if self.finals.contains(tx) => Standing::Final,
            None => Standing::Unknown,
        })
    }

    fn clock(&mut self) -> Result<u64, Error> {
        Ok(self.clock)
    }

    fn held(&mut self) -> Result<Held, Error> {
        let waiting = self.held.iter().filter(|(_, has_arrived)| !has_arrived).count();
        Ok(Held { all: self.held.len(), waiting, own: 0 })
    }
}

/// The start of a proposal, as far as a host reads it: its view, and the list of each replica.
pub fn proposal_of(view: u32, lists: &[&[Tx]]) -> Bytes {
    let mut out = vec![2, 4, 1];
    out.extend(view.to_be_bytes());
    out.extend((view - 1).to_be_bytes());
    out.extend([0; 32]);
    out.extend([0, lists.len() as u8]); // no votes
    for (replica, txs) in (0..).zip(lists) {
        out.extend([3, replica]);
        out.extend(view.to_be_bytes());
        out.extend([0; 32]);
        out.extend((txs.len() as u16).to_be_bytes());
        txs.iter().for_each(|it| tx::put(it, &mut out));
        out.extend([0, 0, 0, 0]);
    }
    Bytes::from(out)
}
