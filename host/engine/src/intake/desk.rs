//! The calls of the library for what a replica received and heard, and for what arrives when.

use themis::{Arrivals, Error, Held, Receipt, Replica, Standing, Taken, Tx};

/// What a replica received and heard. The library decides what arrives when (`themis.h`, "Receipt").
/// A test may put something in its place.
pub trait Desk {
    /// A transaction of an own client.
    fn submit(&mut self, tx: &Tx) -> Result<Taken, Error>;
    /// A receipt that a peer reports, in the order in which it does.
    fn hear(&mut self, peer: u32, receipt: &Receipt) -> Result<Taken, Error>;
    /// The clock that a peer reports.
    fn hear_clock(&mut self, peer: u32, clock: u64) -> Result<(), Error>;
    /// A transaction that arrived before a restart.
    fn restore(&mut self, tx: &Tx) -> Result<Taken, Error>;
    /// Transactions that are final.
    fn settle(&mut self, txs: &[Tx]) -> Result<(), Error>;
    /// The message of a block that the core stores; whether it is one.
    fn accepted(&mut self, block: &[u8]) -> Result<bool, Error>;
    /// What arrives now.
    fn arrive(&mut self) -> Result<Arrivals, Error>;
    /// What arrives while nothing more is to be received: what blocks name and the chain proposes.
    fn arrive_proposed(&mut self) -> Result<Vec<Tx>, Error>;
    /// The own receipts with a greater stamp, in order, at most that many.
    fn receipts(&mut self, after: u64, most: usize) -> Result<Vec<Receipt>, Error>;
    /// What is known of a transaction.
    fn standing(&mut self, tx: &Tx) -> Result<Standing, Error>;
    /// The own clock.
    fn clock(&mut self) -> Result<u64, Error>;
    /// How many transactions are received and not final. It counts them anew.
    fn held(&mut self) -> Result<Held, Error>;
}

impl Desk for Replica {
    fn submit(&mut self, tx: &Tx) -> Result<Taken, Error> {
        self.submit(tx)
    }

    fn hear(&mut self, peer: u32, receipt: &Receipt) -> Result<Taken, Error> {
        self.hear(peer, receipt)
    }

    fn hear_clock(&mut self, peer: u32, clock: u64) -> Result<(), Error> {
        self.hear_clock(peer, clock)
    }

    fn restore(&mut self, tx: &Tx) -> Result<Taken, Error> {
        self.restore(tx)
    }

    fn settle(&mut self, txs: &[Tx]) -> Result<(), Error> {
        self.settle(txs)
    }

    fn accepted(&mut self, block: &[u8]) -> Result<bool, Error> {
        self.accepted(block)
    }

    fn arrive(&mut self) -> Result<Arrivals, Error> {
        self.arrive()
    }

    fn arrive_proposed(&mut self) -> Result<Vec<Tx>, Error> {
        self.arrive_proposed()
    }

    fn receipts(&mut self, after: u64, most: usize) -> Result<Vec<Receipt>, Error> {
        self.receipts(after, most)
    }

    fn standing(&mut self, tx: &Tx) -> Result<Standing, Error> {
        self.standing(tx)
    }

    fn clock(&mut self) -> Result<u64, Error> {
        self.clock()
    }

    fn held(&mut self) -> Result<Held, Error> {
        self.held()
    }
}
