//! What arrives at the core: the library decides what arrives when, and so who comes first
//! (`themis.h`, "Receipt"; [`Desk`]). Here is what the host decides:
//!
//! - After a start, receipts wait until enough peers have reported their clocks.
//! - The core accepts a block in its turn, which draws the next local order. The library hears of the
//!   block right before that, so that what it proposes makes room.
//! - A session takes no more transactions than a trace. Near that, only what blocks propose arrives.
//! - So it is once the session ends, except while nothing becomes final.
//! - For tests, what was received and heard is noted.

mod desk;
mod receiving;

use std::collections::{HashMap, HashSet, VecDeque};

use bytes::Bytes;
use themis::{Arrivals, Error, Held, Receipt, Standing, Tx};

use crate::own::Own;
use crate::setting::Place;
use crate::wire;
pub use desk::Desk;

/// Of a session: a trace takes no more, so the audit could not check it.
const MAX_ARRIVED: usize = 65_536;
/// Of these, for what blocks propose.
const MAX_NAMED: usize = 4096;
/// So many arrive by their receipts; above it, only what blocks propose does.
pub const MAX_TAKEN: usize = MAX_ARRIVED - MAX_NAMED;
/// The library lets no more arrive in one call.
const MAX_ARRIVALS: usize = 480;
/// Of a session that ends: once so many views were committed without anything final, others arrive.
const STUCK_AFTER: u32 = 4;
/// Blocks that wait at a start.
const MAX_EARLY_BLOCKS: usize = 256;
/// What one block can name, and more.
const MAX_NOTED: usize = 4096;

/// The library holds no more of own clients.
const MAX_OWN: usize = 16_384;

/// Who brought what waits.
#[derive(Clone, Copy, Debug, PartialEq, Eq)]
pub enum Source {
    /// An own client alone, or first.
    Client,
    /// This peer, and no own client.
    Peer(u32),
    /// A block, or an own client after a peer.
    Other,
}

/// One that was received and has not arrived.
#[derive(Clone, Copy, Debug, PartialEq, Eq)]
pub struct Waiting {
    /// The transaction.
    pub tx: Tx,
    /// Who brought it.
    pub source: Source,
}

/// What a replica received or heard, for a test: in this order it decides who comes first.
#[derive(Clone, Copy, Debug, PartialEq, Eq)]
pub enum Note {
    /// It received a transaction.
    Received(Tx),
    /// It heard that a peer did.
    Heard(u32, Tx),
}

/// What a host decides of receipts and arrivals.
#[derive(Debug)]
pub struct Intake {
    place: Place,
    /// What the library holds, as it said last.
    held: Held,
    /// Transactions that arrived at the core in this session.
    arrived: usize,
    /// Transactions that became final in this session.
    finals: usize,
    /// Transactions that arrived as exceptions.
    given: usize,
    /// Whether something may arrive that might not before.
    may_arrive: bool,
    /// Peers that reported their clocks: bit i for replica i.
    heard: u16,
    /// What came before receipts were stamped, by its source.
    early: Vec<(u32, Vec<Receipt>)>,
    /// Blocks of that time.
    early_blocks: VecDeque<Bytes>,
    /// Receipts are stamped.
    is_open: bool,
    /// What each client has waiting here.
    pub own: Own,
    /// What only this peer brought, until it is final.
    told: HashMap<Tx, u32>,
    /// Of these, what the library holds as one of an own client: it waited over a change of session.
    lent: HashSet<Tx>,
    /// What the library had no room for since the last call of `take_full`.
    full: HashSet<Tx>,
    /// What was received since the last call of `take_received`.
    received: Vec<Tx>,
    /// The session ends.
    is_ending: bool,
    /// Something became final since it was last asked what arrives.
    has_finals: bool,
    /// The committed view at which something last became final, or the session began to end.
    final_at: u32,
    /// Only where a test wants them.
    notes: Option<Vec<Note>>,
}

impl Intake {
    /// No transaction yet.
    pub fn new(place: Place, is_noted: bool) -> Intake {
        Intake {
            place,
            held: Held { all: 0, waiting: 0, own: 0 },
            arrived: 0,
            finals: 0,
            given: 0,
            may_arrive: true,
            heard: 0,
            early: Vec::new(),
            early_blocks: VecDeque::new(),
            is_open: place.quorum() <= 1,
            own: Own::default(),
            told: HashMap::new(),
            lent: HashSet::new(),
            full: HashSet::new(),
            received: Vec::new(),
            is_ending: false,
            has_finals: false,
            final_at: 0,
            notes: is_noted.then(Vec::new),
        }
    }

    /// Arrived transactions that are not final.
    pub fn pending(&self) -> usize {
        self.held.all - self.held.waiting
    }

    /// Received transactions that are not final.
    pub fn queued(&self) -> usize {
        self.held.all
    }

    /// Those of them that came from the own clients.
    pub fn of_clients(&self) -> usize {
        self.held_as_own().saturating_sub(self.lent.len())
    }

    fn held_as_own(&self) -> usize {
        self.held.own as usize + self.early_of(|it| it == self.place.me)
    }

    /// How many more of own clients the library can hold.
    pub fn own_room(&self) -> usize {
        MAX_OWN.saturating_sub(self.held_as_own())
    }

    /// Transactions that arrived.
    pub fn arrived(&self) -> usize {
        self.arrived
    }

    /// Transactions that became final in this session.
    pub fn finals(&self) -> usize {
        self.finals
    }

    /// Transactions that arrived as exceptions, since the chain was stuck.
    pub fn given(&self) -> usize {
        self.given
    }

    /// Whether nothing more arrives in this session, but for what a block proposes.
    pub fn is_full(&self) -> bool {
        self.arrived >= MAX_TAKEN
    }

    /// The session ends: from now on only what a block proposes arrives, unless the chain is stuck.
    pub fn end(&mut self) {
        self.is_ending = true;
    }

    // ---- what is restored, and what leaves

    /// Transactions that arrived before a restart. Call it after `finalised`.
    pub fn restore(&mut self, desk: &mut impl Desk, txs: &[Tx]) -> Result<(), Error> {
        self.arrived += txs.len();
        for tx in txs {
            desk.restore(tx)?;
        }
        Ok(())
    }

    /// Transactions that the host lets arrive by itself.
    pub fn brought(&mut self, desk: &mut impl Desk, txs: &[Tx]) -> Result<(), Error> {
        if !txs.is_empty() {
            self.arrived += txs.len();
            self.held = desk.held()?;
        }
        Ok(())
    }

    /// A block of the log, after what arrived by the log is restored. The library hears of it once
    /// receipts are stamped, if it names something new.
    pub fn restore_block(&mut self, desk: &mut impl Desk, data: &Bytes) -> Result<(), Error> {
        if self.names_new(desk, data)? {
            self.keep_early(data);
        }
        Ok(())
    }

    fn keep_early(&mut self, data: &Bytes) {
        if self.early_blocks.len() == MAX_EARLY_BLOCKS {
            self.early_blocks.pop_front();
        }
        self.early_blocks.push_back(data.clone());
    }

    /// All is restored.
    pub fn restored(&mut self, desk: &mut impl Desk) -> Result<(), Error> {
        self.held = desk.held()?;
        Ok(())
    }

    /// Final transactions leave.
    pub fn finalised(&mut self, desk: &mut impl Desk, txs: &[Tx]) -> Result<(), Error> {
        self.may_arrive = true;
        self.has_finals |= !txs.is_empty();
        self.finals += txs.len();
        desk.settle(txs)?;
        txs.iter().for_each(|it| self.forget(it));
        self.held = desk.held()?;
        Ok(())
    }

    /// It is not held any more.
    fn forget(&mut self, tx: &Tx) {
        self.own.remove(tx);
        self.told.remove(tx);
        self.lent.remove(tx);
    }

    // ---- what blocks say

    /// The core accepts a block, or will in its next turn. An older one than the last says nothing of
    /// what is proposed next, and the library knows that.
    pub fn block_accepted(&mut self, desk: &mut impl Desk, data: &Bytes) -> Result<(), Error> {
        if !self.is_open {
            self.keep_early(data);
            return Ok(());
        }
        self.may_arrive = true;
        self.receiving(desk, |desk| desk.accepted(data))?;
        Ok(())
    }

    /// Whether more than f lists of a block have a transaction that is not received. The lists of
    /// faulty replicas alone name nothing.
    fn names_new(&self, desk: &mut impl Desk, data: &[u8]) -> Result<bool, Error> {
        let mut counts = HashMap::new();
        for tx in wire::fresh_lists(data).into_iter().flat_map(|it| it.txs) {
            let count = counts.entry(tx).or_insert(0);
            *count += 1;
            if *count == self.place.f + 1 && desk.standing(&tx)? == Standing::Unknown {
                return Ok(true);
            }
        }
        Ok(false)
    }

    /// The highest chain may have changed.
    pub fn chain_changed(&mut self) {
        self.may_arrive = true;
    }

    // ---- what arrives

    /// The transactions that arrive now, in this order, at this committed view.
    pub fn arrivals(&mut self, desk: &mut impl Desk, commit: u32) -> Result<Vec<Tx>, Error> {
        let is_stuck = self.is_stuck(commit);
        let has_room = self.arrived + MAX_ARRIVALS <= MAX_ARRIVED;
        if !self.is_open || !has_room || !std::mem::take(&mut self.may_arrive) {
            return Ok(Vec::new());
        }
        let is_full = self.is_full() || self.is_ending && !is_stuck;
        let Arrivals { txs, given } = self.receiving(desk, |desk| {
            if is_full {
                Ok(Arrivals { txs: desk.arrive_proposed()?, given: 0 })
            } else {
                desk.arrive()
            }
        })?;
        self.arrived += txs.len();
        self.given += given;
        Ok(txs)
    }

    /// Whether the end of the session waits for what may not arrive. A list has the first 128 that
    /// arrived and are not proposed. If those are on too few lists to be proposed, the marker of the
    /// session, which arrived after them, is on none.
    fn is_stuck(&mut self, commit: u32) -> bool {
        if std::mem::take(&mut self.has_finals) || !self.is_ending {
            self.final_at = commit;
        }
        commit >= self.final_at.saturating_add(STUCK_AFTER)
    }

    /// A call in which the library may receive what blocks name.
    fn receiving<D: Desk, T>(
        &mut self,
        desk: &mut D,
        call: impl FnOnce(&mut D) -> Result<T, Error>,
    ) -> Result<T, Error> {
        let before = desk.clock()?;
        let out = call(desk)?;
        if let Some(notes) = &mut self.notes {
            let new = desk.receipts(before, MAX_NOTED)?;
            notes.extend(new.into_iter().map(|it| Note::Received(it.tx)));
        }
        self.held = desk.held()?;
        Ok(out)
    }

    // ---- notes

    /// What a client or a peer brought first, since the last call.
    pub fn take_received(&mut self) -> Vec<Tx> {
        std::mem::take(&mut self.received)
    }

    /// What the library had no room for, since the last call.
    pub fn take_full(&mut self) -> HashSet<Tx> {
        std::mem::take(&mut self.full)
    }

    fn note(&mut self, note: Note) {
        if let Some(notes) = &mut self.notes {
            notes.push(note);
        }
    }

    /// What was received and heard since the last call, where a test wants it.
    pub fn take_notes(&mut self) -> Vec<Note> {
        self.notes.as_mut().map(std::mem::take).unwrap_or_default()
    }
}

#[cfg(test)]
pub(crate) mod played;
#[cfg(test)]
mod tests;
