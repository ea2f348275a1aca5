//! The core of a simulated replica, which notes what the checks need.

use std::cell::RefCell;
use std::collections::{BTreeMap, HashMap, VecDeque};
use std::rc::Rc;

use sha2::{Digest, Sha256};
use themis::{Error, Message, Reason, Replica};
use themis_deeds::parts::own_parts;
use themis_deeds::signer::leaf_of;
use themis_deeds::Faulty;
use themis_engine::core::{Core, Delivered, Event, Turn};
use themis_engine::tx::Tx;
use themis_engine::wire::{kind_of, seals_in, Kind};

use crate::keys::HEIGHT;

/// One logged event, and what its turn returned.
#[derive(Debug)]
pub struct Entry {
    /// The event.
    pub event: Event,
    /// Why the turn did what it did.
    pub reason: Reason,
    /// Transactions that had arrived by then.
    pub known: u32,
    /// The statements that it sealed.
    pub sealed: Vec<Vec<u8>>,
}

/// What one replica did, over all its incarnations.
#[derive(Debug, Default)]
pub struct Journal {
    /// Its logged events.
    pub entries: Vec<Entry>,
    /// How many bytes of the log it has acted on.
    pub acted: usize,
    /// The records of the last of these, for a check.
    pub last: Vec<u8>,
    /// What each leaf sealed, of what was sent.
    leaves: HashMap<u32, [u8; 32]>,
    /// A leaf that sealed two statements.
    pub reused: Option<u32>,
    /// It asked for a view since that was asked.
    pub has_ticked: bool,
    /// What the core did since that was asked, counted in seals that are checked.
    pub work: u32,
    /// Seals of messages that it refused, by their sender.
    pub wasted: BTreeMap<u32, usize>,
}

impl Journal {
    /// Notes what the core does with an event. A seal is made in the time of two that are checked.
    fn works_on(&mut self, me: u32, event: &Event) {
        let Event::Delivered(it) = event else { return };
        // The orders and votes in an own message were checked when they came.
        let checked = if it.from == me { 0 } else { seals_in(it.data.len()).div_ceil(2) };
        // A proposal is answered by a vote and a local order.
        let made = if kind_of(&it.data) == Some(Kind::Propose) { 2 } else { 0 };
        self.work += checked as u32 + 2 * made;
    }

    /// Notes what a turn refused.
    fn refused(&mut self, event: &Event) {
        if let Event::Delivered(it) = event {
            *self.wasted.entry(it.from).or_default() += seals_in(it.data.len());
        }
    }

    /// Notes the seals of a message that was sent.
    fn sent(&mut self, message: &[u8]) {
        for part in own_parts(message) {
            let Some(leaf) = leaf_of(part.seal, HEIGHT) else { continue };
            let digest: [u8; 32] = Sha256::digest(part.statement).into();
            if *self.leaves.entry(leaf).or_insert(digest) != digest {
                self.reused = Some(leaf);
            }
        }
    }
}

/// A replica of the library, and its journal.
pub struct Tapped {
    me: u32,
    replica: Replica,
    prepared: VecDeque<(Event, Vec<u8>)>,
    journal: Rc<RefCell<Journal>>,
}

/// The core of a simulated replica, which may be faulty.
pub type Played = Faulty<Tapped>;

impl Tapped {
    /// A replica that was opened.
    pub fn new(me: u32, replica: Replica, journal: Rc<RefCell<Journal>>) -> Tapped {
        Tapped { me, replica, prepared: VecDeque::new(), journal }
    }
}

impl Core for Tapped {
    type Desk = Replica;

    fn desk(&mut self) -> &mut Replica {
        &mut self.replica
    }

    fn prepare(&mut self, event: &Event) -> Result<Vec<u8>, Error> {
        let record = self.replica.prepare(event)?;
        let mut journal = self.journal.borrow_mut();
        journal.works_on(self.me, event);
        journal.has_ticked |= matches!(event, Event::Tick(_));
        self.prepared.push_back((event.clone(), record.clone()));
        Ok(record)
    }

    fn would_change(&mut self, it: &Delivered) -> Result<bool, Error> {
        Core::would_change(&mut self.replica, it)
    }

    fn act(&mut self) -> Result<Turn, Error> {
        let turn = Core::act(&mut self.replica)?;
        let Some((event, record)) = self.prepared.pop_front() else { return Err(Error::Unready) };
        if !matches!(turn, Turn::Again | Turn::Made(Reason::Done)) {
            self.journal.borrow_mut().refused(&event);
        }
        if let (Turn::Made(reason), false) = (turn, record.is_empty()) {
            let (known, sealed) = (self.replica.known()?, self.replica.sealed()?);
            let mut journal = self.journal.borrow_mut();
            journal.entries.push(Entry { event, reason, known, sealed });
            journal.acted += record.len();
            journal.last.extend(record);
        }
        Ok(turn)
    }

    fn sends(&mut self) -> Result<Vec<Message>, Error> {
        let sends = self.replica.sends()?;
        let mut journal = self.journal.borrow_mut();
        let mut last: &[u8] = &[];
        for it in &sends {
            if it.bytes != last {
                journal.sent(&it.bytes);
                last = &it.bytes;
            }
        }
        Ok(sends)
    }

    fn batch_count(&mut self) -> Result<usize, Error> {
        self.replica.batch_count()
    }

    fn batch(&mut self, at: usize) -> Result<Vec<Tx>, Error> {
        self.replica.batch(at)
    }

    fn views(&mut self) -> Result<(u32, u32), Error> {
        self.replica.views()
    }

    fn give_count(&mut self, above: u32) -> Result<usize, Error> {
        self.replica.give_count(above)
    }

    fn give(&mut self, above: u32, at: usize) -> Result<Vec<u8>, Error> {
        self.replica.give(above, at)
    }
}
