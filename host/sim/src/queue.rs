//! What is to happen, in the order of its moments.

use std::cmp::Reverse;
use std::collections::BinaryHeap;

use bytes::Bytes;
use themis_engine::Time;

/// Something that happens to a replica.
#[derive(Clone, Debug)]
pub enum Happening {
    /// Its engine has to be called.
    Wake,
    /// A frame arrives over a connection.
    Arrive {
        /// Who sent it.
        from: u32,
        /// The connection.
        epoch: u32,
        /// The frame, with its length.
        frame: Bytes,
    },
    /// It has a new connection to a peer.
    Connected(u32),
    /// Its operator ends the session.
    End,
    /// Its records are durable.
    Synced,
    /// What its engine asked for with this number is done.
    Done(u64),
    /// A client submits to it.
    Submit(usize),
    /// A fault of the plan starts.
    Fault(usize),
    /// It ends.
    Heal(usize),
    /// It is started, if it does not run.
    Start,
    /// A faulty replica sends something of its own.
    Deed,
}

#[derive(Debug)]
struct Entry {
    at: Time,
    number: u64,
    replica: u32,
    incarnation: u32,
    what: Happening,
}

impl PartialEq for Entry {
    fn eq(&self, other: &Entry) -> bool {
        (self.at, self.number) == (other.at, other.number)
    }
}

impl Eq for Entry {}

impl PartialOrd for Entry {
    fn partial_cmp(&self, other: &Entry) -> Option<std::cmp::Ordering> {
        Some(self.cmp(other))
    }
}

impl Ord for Entry {
    fn cmp(&self, other: &Entry) -> std::cmp::Ordering {
        (self.at, self.number).cmp(&(other.at, other.number))
    }
}

/// All that is to happen.
#[derive(Debug, Default)]
pub struct Queue {
    heap: BinaryHeap<Reverse<Entry>>,
    count: u64,
}

impl Queue {
    /// Something will happen to an incarnation of a replica.
    pub fn put(&mut self, at: Time, replica: u32, incarnation: u32, what: Happening) {
        let number = self.count;
        self.count += 1;
        self.heap.push(Reverse(Entry { at, number, replica, incarnation, what }));
    }

    /// What happens next: when, to whom, to which incarnation.
    pub fn pop(&mut self) -> Option<(Time, u32, u32, Happening)> {
        let Reverse(Entry { at, replica, incarnation, what, .. }) = self.heap.pop()?;
        Some((at, replica, incarnation, what))
    }

    /// How much has been put in.
    pub fn count(&self) -> u64 {
        self.count
    }
}
