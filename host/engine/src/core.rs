//! The core as the engine calls it: events as values, and what it said last.

use bytes::Bytes;
use themis::{Error, Message, Reason, Replica, Tx};

pub use crate::intake::Desk;

/// What the core takes.
#[derive(Clone, Debug, PartialEq, Eq)]
pub enum Event {
    /// Transactions that this replica received, in this order. Each arrives once.
    Arrived(Vec<Tx>),
    /// A message of a replica.
    Delivered(Delivered),
    /// Asks for a view above the replica's own and above this floor.
    Tick(u32),
}

/// A message that a replica sent.
#[derive(Clone, Debug, PartialEq, Eq)]
pub struct Delivered {
    /// The replica.
    pub from: u32,
    /// The bytes of the message.
    pub data: Bytes,
}

/// What came of an event.
#[derive(Clone, Copy, Debug, PartialEq, Eq)]
pub enum Turn {
    /// A turn was made, and why it did what it did.
    Made(Reason),
    /// The event had no record, and would change the replica now: prepare it once more.
    Again,
}

/// The calls of a replica of the library. A test or a simulator may put something in its place.
pub trait Core {
    /// What holds the replica's receipts.
    type Desk: Desk;
    /// What the replica received and heard.
    fn desk(&mut self) -> &mut Self::Desk;
    /// Prepares an event, and returns its record; no bytes where it needs none.
    fn prepare(&mut self, event: &Event) -> Result<Vec<u8>, Error>;
    /// Whether the turn on a message would change the replica now, with its seals checked.
    fn would_change(&mut self, it: &Delivered) -> Result<bool, Error>;
    /// The turn on the event that was prepared first.
    fn act(&mut self) -> Result<Turn, Error>;
    /// What the last turn sends.
    fn sends(&mut self) -> Result<Vec<Message>, Error>;
    /// How many batches are final.
    fn batch_count(&mut self) -> Result<usize, Error>;
    /// A final batch.
    fn batch(&mut self, at: usize) -> Result<Vec<Tx>, Error>;
    /// The view, and the view of the committed block.
    fn views(&mut self) -> Result<(u32, u32), Error>;
    /// How many stored blocks are above a view.
    fn give_count(&mut self, above: u32) -> Result<usize, Error>;
    /// One of these blocks, as a Give.
    fn give(&mut self, above: u32, at: usize) -> Result<Vec<u8>, Error>;
}

impl Core for Replica {
    type Desk = Replica;

    fn desk(&mut self) -> &mut Replica {
        self
    }

    fn prepare(&mut self, event: &Event) -> Result<Vec<u8>, Error> {
        match event {
            Event::Arrived(txs) => self.prepare_arrived(txs),
            Event::Delivered(it) => self.prepare_deliver(it.from, &it.data),
            Event::Tick(floor) => self.prepare_tick(*floor),
        }
    }

    fn would_change(&mut self, it: &Delivered) -> Result<bool, Error> {
        self.would_change(it.from, &it.data)
    }

    fn act(&mut self) -> Result<Turn, Error> {
        match self.act() {
            Ok(reason) => Ok(Turn::Made(reason)),
            Err(Error::Again) => Ok(Turn::Again),
            Err(fault) => Err(fault),
        }
    }

    fn sends(&mut self) -> Result<Vec<Message>, Error> {
        self.sends()
    }

    fn batch_count(&mut self) -> Result<usize, Error> {
        self.batch_count()
    }

    fn batch(&mut self, at: usize) -> Result<Vec<Tx>, Error> {
        self.batch(at)
    }

    fn views(&mut self) -> Result<(u32, u32), Error> {
        self.views()
    }

    fn give_count(&mut self, above: u32) -> Result<usize, Error> {
        self.give_count(above)
    }

    fn give(&mut self, above: u32, at: usize) -> Result<Vec<u8>, Error> {
        self.give(above, at)
    }
}

/// The core, and what the engine remembers of its answers.
#[derive(Debug)]
pub struct Watched<C> {
    /// The core.
    pub core: C,
    /// Its view.
    pub view: u32,
    /// The view of its committed block.
    pub commit: u32,
}

impl<C: Core> Watched<C> {
    /// A core as it stands.
    pub fn new(mut core: C) -> Result<Watched<C>, Error> {
        let (view, commit) = core.views()?;
        Ok(Watched { core, view, commit })
    }

    /// Asks for the views anew; whether they have changed.
    pub fn look(&mut self) -> Result<bool, Error> {
        let views = self.core.views()?;
        let has_moved = views != (self.view, self.commit);
        (self.view, self.commit) = views;
        Ok(has_moved)
    }
}

/// The events' bytes of the whole records of a log that starts with a header of that size. The
/// library has read the log before, and made sure of it.
pub fn records(log: &[u8], header: usize) -> impl Iterator<Item = &[u8]> {
    const CHECK: usize = 8;
    let mut rest = log.get(header..).unwrap_or_default();
    std::iter::from_fn(move || {
        let size = u32::from_be_bytes(rest.get(..4)?.try_into().ok()?) as usize;
        let start = 4 + CHECK;
        let body = rest.get(start..start + size)?;
        rest = rest.get(start + size + CHECK..)?;
        Some(body)
    })
}

/// The event of a record's body.
pub fn event_of(body: &[u8]) -> Option<Event> {
    match body {
        [1, _, _, _, _, txs @ ..] => Some(Event::Arrived(crate::tx::txs_of(txs).collect())),
        [2, from, data @ ..] => {
            let data = Bytes::copy_from_slice(data);
            Some(Event::Delivered(Delivered { from: u32::from(*from), data }))
        }
        [3, floor @ ..] => Some(Event::Tick(u32::from_be_bytes(floor.try_into().ok()?))),
        _ => None,
    }
}

#[cfg(test)]
pub(crate) mod tests {
    use super::*;

    /// A log with records of these bodies.
    pub(crate) fn log_of(header: usize, bodies: &[&[u8]]) -> Vec<u8> {
        let mut log = vec![9; header];
        for body in bodies {
            log.extend((body.len() as u32).to_be_bytes());
            log.extend([0; 8]);
            log.extend(*body);
            log.extend([0; 8]);
        }
        log
    }

    #[test]
    fn records_of_a_log() {
        let mut log = log_of(72, &[&[3, 0, 0, 0, 7], &[2, 1, 5, 5]]);
        let events: Vec<_> = records(&log, 72).filter_map(event_of).collect();
        let delivered = Delivered { from: 1, data: Bytes::from_static(&[5, 5]) };
        assert_eq!(events, [Event::Tick(7), Event::Delivered(delivered)]);
        log.pop();
        assert_eq!(records(&log, 72).count(), 1);
    }
}
