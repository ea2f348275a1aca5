//! What a replica received, and what of it arrives.

use crate::c::{self, standing, taken};
use crate::{Error, Replica, Tx};

/// A transaction that a replica received, with the stamp of its clock.
pub use crate::c::CReceipt as Receipt;

/// The answer to a transaction.
#[derive(Clone, Copy, Debug, PartialEq, Eq)]
pub enum Taken {
    /// It is received now.
    New,
    /// It was received before.
    Held,
    /// It is final.
    Final,
    /// Its source has as many held as it may: it is not received.
    Full,
    /// A peer's stamp is one that no honest clock reaches: nothing was changed.
    Beyond,
    /// A number that this crate does not know: the library is newer.
    Unknown(u32),
}

impl From<u32> for Taken {
    fn from(number: u32) -> Taken {
        match number {
            taken::NEW => Taken::New,
            taken::HELD => Taken::Held,
            taken::FINAL => Taken::Final,
            taken::FULL => Taken::Full,
            taken::BEYOND => Taken::Beyond,
            number => Taken::Unknown(number),
        }
    }
}

/// What is known of a transaction.
#[derive(Clone, Copy, Debug, PartialEq, Eq)]
pub enum Standing {
    /// Nothing.
    Unknown,
    /// It is received, and has not arrived.
    Waiting,
    /// It has arrived, and is not final.
    Arrived,
    /// It is final.
    Final,
}

impl From<u32> for Standing {
    fn from(number: u32) -> Standing {
        match number {
            standing::WAITING => Standing::Waiting,
            standing::ARRIVED => Standing::Arrived,
            standing::SETTLED => Standing::Final,
            standing::UNKNOWN | 4.. => Standing::Unknown,
        }
    }
}

/// What arrives now.
#[derive(Clone, Debug, PartialEq, Eq)]
pub struct Arrivals {
    /// In the order in which they arrive.
    pub txs: Vec<Tx>,
    /// The last ones of them are exceptions: they arrive because the chain was stuck.
    pub given: usize,
}

/// How many transactions are received and not final.
#[derive(Clone, Copy, Debug, PartialEq, Eq)]
pub struct Held {
    /// In all.
    pub all: usize,
    /// Those that have not arrived.
    pub waiting: usize,
    /// Those of the own clients.
    pub own: u64,
}

/// No call lets more arrive.
const MAX_ARRIVALS: usize = 480;

impl Replica {
    /// A transaction of an own client. Fails with `NoMemory`.
    pub fn submit(&mut self, tx: &Tx) -> Result<Taken, Error> {
        let mut taken = 0;
        // SAFETY: the pointers lead to a transaction and a number.
        Error::check(unsafe { c::themis_submit(&mut self.handle, tx, &mut taken) })?;
        Ok(taken.into())
    }

    /// A receipt that a peer reports, in the order in which it does. Fails with `BadNumber`,
    /// `NoMemory`.
    pub fn hear(&mut self, peer: u32, receipt: &Receipt) -> Result<Taken, Error> {
        let mut taken = 0;
        // SAFETY: the pointers lead to a receipt and a number.
        Error::check(unsafe { c::themis_hear(&mut self.handle, peer, receipt, &mut taken) })?;
        Ok(taken.into())
    }

    /// The clock that a peer reports. Fails with `BadNumber`.
    pub fn hear_clock(&mut self, peer: u32, clock: u64) -> Result<(), Error> {
        // SAFETY: the handle holds a replica.
        Error::check(unsafe { c::themis_hear_clock(&mut self.handle, peer, clock) })
    }

    /// A transaction that arrived before the replica was opened. It does not arrive again. Fails with
    /// `NoMemory`.
    pub fn restore(&mut self, tx: &Tx) -> Result<Taken, Error> {
        let mut taken = 0;
        // SAFETY: the pointers lead to a transaction and a number.
        Error::check(unsafe { c::themis_restore(&mut self.handle, tx, &mut taken) })?;
        Ok(taken.into())
    }

    /// Transactions that are final. They are not received again. Fails with `NoMemory`.
    pub fn settle(&mut self, txs: &[Tx]) -> Result<(), Error> {
        // SAFETY: the pointer leads to that many transactions.
        Error::check(unsafe { c::themis_settle(&mut self.handle, txs.as_ptr(), txs.len()) })
    }

    /// The message of a block that a turn stored: a Propose or a Give. Whether it is one. Fails with
    /// `NoMemory`.
    pub fn accepted(&mut self, bytes: &[u8]) -> Result<bool, Error> {
        let (at, size) = (bytes.as_ptr(), bytes.len());
        // SAFETY: the pointer leads to that many bytes.
        match unsafe { c::themis_accepted(&mut self.handle, at, size) } {
            c::NONE => Ok(false),
            status => Error::check(status).map(|()| true),
        }
    }

    /// What arrives now. Pass it to [`Replica::prepare_arrived`] at the next event. Fails with
    /// `NoMemory`.
    pub fn arrive(&mut self) -> Result<Arrivals, Error> {
        let mut txs = vec![Tx::default(); MAX_ARRIVALS];
        let (mut count, mut given) = (0, 0);
        // SAFETY: the buffer has the room passed.
        Error::check(unsafe {
            let (into, room) = (txs.as_mut_ptr(), txs.len());
            c::themis_arrive(&mut self.handle, into, room, &mut count, &mut given)
        })?;
        txs.truncate(count);
        Ok(Arrivals { txs, given })
    }

    /// What arrives while a session is closing, where nothing more is to be received: only what blocks
    /// name and the certified chain proposes, with all that wait and have smaller keys. Fails with
    /// `NoMemory`.
    pub fn arrive_proposed(&mut self) -> Result<Vec<Tx>, Error> {
        let mut txs = vec![Tx::default(); MAX_ARRIVALS];
        let mut count = 0;
        // SAFETY: the buffer has the room passed.
        Error::check(unsafe {
            let (into, room) = (txs.as_mut_ptr(), txs.len());
            c::themis_arrive_proposed(&mut self.handle, into, room, &mut count)
        })?;
        txs.truncate(count);
        Ok(txs)
    }

    /// The own receipts of held transactions with a greater stamp, in their order, at most `most`.
    /// Fails with `NoMemory`.
    pub fn receipts(&mut self, after: u64, most: usize) -> Result<Vec<Receipt>, Error> {
        let mut receipts = vec![Receipt::default(); most];
        let mut count = 0;
        // SAFETY: the buffer has the room passed.
        Error::check(unsafe {
            let (into, room) = (receipts.as_mut_ptr(), receipts.len());
            c::themis_receipts(&mut self.handle, after, into, room, &mut count)
        })?;
        receipts.truncate(count);
        Ok(receipts)
    }

    /// What is known of a transaction.
    pub fn standing(&mut self, tx: &Tx) -> Result<Standing, Error> {
        let mut standing = 0;
        // SAFETY: the pointers lead to a transaction and a number.
        Error::check(unsafe { c::themis_standing(&mut self.handle, tx, &mut standing) })?;
        Ok(standing.into())
    }

    /// The replica's clock: the stamp of its last receipt.
    pub fn clock(&mut self) -> Result<u64, Error> {
        let mut clock = 0;
        // SAFETY: the pointer leads to a number.
        Error::check(unsafe { c::themis_clock(&mut self.handle, &mut clock) })?;
        Ok(clock)
    }

    /// How many transactions are received and not final.
    pub fn held(&mut self) -> Result<Held, Error> {
        let (mut all, mut waiting, mut own) = (0, 0, 0);
        // SAFETY: the pointers lead to numbers.
        Error::check(unsafe {
            c::themis_held(&mut self.handle, &mut all, &mut waiting, &mut own)
        })?;
        Ok(Held { all, waiting, own })
    }
}
