//! The core, with the time that its calls take.

use std::time::{Duration, Instant};

use themis::{Arrivals, Error, Held, Message, Receipt, Replica, Standing, Taken};
use themis_engine::core::{Core, Delivered, Desk, Event, Turn};
use themis_engine::tx::Tx;

use crate::seal_threads::SealThreads;

/// How often something was done, and how long that took.
#[derive(Clone, Copy, Debug, Default)]
pub struct Spent {
    /// How often.
    pub calls: u64,
    /// How long in all.
    pub took: Duration,
}

impl Spent {
    /// Does something, and adds the time.
    pub fn time<T>(&mut self, work: impl FnOnce() -> T) -> T {
        let start = Instant::now();
        let out = work();
        self.calls += 1;
        self.took += start.elapsed();
        out
    }

    /// The time in microseconds.
    pub fn micros(&self) -> u64 {
        self.took.as_micros() as u64
    }
}

/// A replica of the library, and the time of its calls by kind.
pub struct Timed {
    replica: Replica,
    seals: SealThreads,
    verify: Spent,
    prepare: Spent,
    foresee: Spent,
    turn: Spent,
    sends: Spent,
    batches: Spent,
    receive: Spent,
    arrive: Spent,
    gives: Spent,
}

impl Timed {
    /// A replica whose calls took no time yet, with the threads that check seals for it.
    pub fn new(replica: Replica, seals: SealThreads) -> Timed {
        let none = Spent::default();
        Timed {
            replica,
            seals,
            verify: none,
            prepare: none,
            foresee: none,
            turn: none,
            sends: none,
            batches: none,
            receive: none,
            arrive: none,
            gives: none,
        }
    }

    /// The times, with their names in the status.
    pub fn all(&self) -> [(&'static str, Spent); 9] {
        [
            ("verify", self.verify),
            ("prepare", self.prepare),
            ("foresee", self.foresee),
            ("turn", self.turn),
            ("sends", self.sends),
            ("batches", self.batches),
            ("receive", self.receive),
            ("arrive", self.arrive),
            ("gives", self.gives),
        ]
    }

    /// The threads that check seals.
    #[cfg(test)]
    pub fn seals(&mut self) -> &mut SealThreads {
        &mut self.seals
    }

    /// Lets threads check the seals of a message that has enough of them.
    fn verify(&mut self, it: &Delivered) -> Result<(), Error> {
        if !self.seals.are_for(it) {
            return Ok(());
        }
        self.verify.time(|| self.seals.check(&mut self.replica, it))
    }
}

impl Core for Timed {
    type Desk = Timed;

    fn desk(&mut self) -> &mut Timed {
        self
    }

    fn prepare(&mut self, event: &Event) -> Result<Vec<u8>, Error> {
        if let Event::Delivered(it) = event {
            self.verify(it)?;
        }
        self.prepare.time(|| self.replica.prepare(event))
    }

    fn would_change(&mut self, it: &Delivered) -> Result<bool, Error> {
        self.verify(it)?;
        self.foresee.time(|| Core::would_change(&mut self.replica, it))
    }

    fn act(&mut self) -> Result<Turn, Error> {
        self.turn.time(|| Core::act(&mut self.replica))
    }

    fn sends(&mut self) -> Result<Vec<Message>, Error> {
        self.sends.time(|| self.replica.sends())
    }

    fn batch_count(&mut self) -> Result<usize, Error> {
        self.batches.time(|| self.replica.batch_count())
    }

    fn batch(&mut self, at: usize) -> Result<Vec<Tx>, Error> {
        self.batches.time(|| self.replica.batch(at))
    }

    fn views(&mut self) -> Result<(u32, u32), Error> {
        self.replica.views()
    }

    fn give_count(&mut self, above: u32) -> Result<usize, Error> {
        self.gives.time(|| self.replica.give_count(above))
    }

    fn give(&mut self, above: u32, at: usize) -> Result<Vec<u8>, Error> {
        self.gives.time(|| self.replica.give(above, at))
    }
}

impl Desk for Timed {
    fn submit(&mut self, tx: &Tx) -> Result<Taken, Error> {
        self.receive.time(|| self.replica.submit(tx))
    }

    fn hear(&mut self, peer: u32, receipt: &Receipt) -> Result<Taken, Error> {
        self.receive.time(|| self.replica.hear(peer, receipt))
    }

    fn hear_clock(&mut self, peer: u32, clock: u64) -> Result<(), Error> {
        self.replica.hear_clock(peer, clock)
    }

    fn restore(&mut self, tx: &Tx) -> Result<Taken, Error> {
        self.receive.time(|| self.replica.restore(tx))
    }

    fn settle(&mut self, txs: &[Tx]) -> Result<(), Error> {
        self.arrive.time(|| self.replica.settle(txs))
    }

    fn accepted(&mut self, block: &[u8]) -> Result<bool, Error> {
        self.arrive.time(|| self.replica.accepted(block))
    }

    fn arrive(&mut self) -> Result<Arrivals, Error> {
        self.arrive.time(|| self.replica.arrive())
    }

    fn arrive_proposed(&mut self) -> Result<Vec<Tx>, Error> {
        self.arrive.time(|| self.replica.arrive_proposed())
    }

    fn receipts(&mut self, after: u64, most: usize) -> Result<Vec<Receipt>, Error> {
        self.receive.time(|| self.replica.receipts(after, most))
    }

    fn standing(&mut self, tx: &Tx) -> Result<Standing, Error> {
        self.replica.standing(tx)
    }

    fn clock(&mut self) -> Result<u64, Error> {
        self.replica.clock()
    }

    fn held(&mut self) -> Result<Held, Error> {
        self.arrive.time(|| self.replica.held())
    }
}
