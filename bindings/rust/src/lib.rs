//! One replica of Themis: a safe wrapper of the C interface (`bindings/c/themis.h`).
//!
//! A replica is a state machine without sockets, clock, files or threads. A host gives it one event
//! at a time, logs each event before the replica acts on it, and sends the messages that the turn
//! returns:
//!
//! ```no_run
//! # fn append(_: &[u8]) {}
//! # fn send(_: u32, _: &[u8]) {}
//! # use themis::{Error, Replica, Role};
//! # fn host(role: Role, secret: [u8; 48], keys: &[[u8; 60]], log: &[u8]) -> Result<(), Error> {
//! let (mut replica, used) = Replica::open(&role, &secret, keys, log)?;
//! // Truncate the log file to `used` bytes.
//! if used == 0 {
//!     append(&replica.header()?);
//! }
//! let record = replica.prepare_tick(0)?;
//! append(&record); // and make it durable
//! replica.act()?;
//! for message in replica.sends()? {
//!     send(message.to, &message.bytes);
//! }
//! # Ok(())
//! # }
//! ```
//!
//! No proof covers this crate. It keeps promises 1 to 3 and 5 of `themis.h` by its types; promises
//! 4 and 6 are the host's: above all, that the record of an event is durable before the turn on it.

mod c;
mod error;
mod history;
mod receipts;
mod values;
mod verifier;

pub use error::Error;
pub use history::History;
pub use receipts::{Arrivals, Held, Receipt, Standing, Taken};
pub use values::{Audited, Finding, Height, Message, Place, Reason, Role, Run, Tx};
pub use verifier::Verifier;

use std::ptr::null_mut;

const FIRST_ROOM: usize = 4096;

/// The public key of the key that grows from a secret: bytes 0 to 15 are its identifier, which the
/// public key and the seals show, and 16 to 47 its secret seed. Growing a tree of 10 levels takes a
/// second or so. Fails with `NoMemory`.
pub fn public_key(height: Height, secret: &[u8; 48]) -> Result<[u8; 60], Error> {
    let mut key = [0; 60];
    // SAFETY: the pointers lead to arrays of 48 and 60 bytes.
    Error::check(unsafe {
        c::themis_public_key(height as u32, secret.as_ptr(), key.as_mut_ptr())
    })?;
    Ok(key)
}

/// A replica, which is freed when it is dropped. It may move to another thread.
pub struct Replica {
    handle: c::CReplica,
    prepared: usize,
}

// SAFETY: a handle shares nothing with another, and may be used in any thread, one call at a time.
// `Send` of the library's handle is proved (crate `themis_c`).
unsafe impl Send for Replica {}

impl Drop for Replica {
    fn drop(&mut self) {
        // SAFETY: the handle is the library's own, and is not used after this.
        unsafe { c::themis_free(&mut self.handle) }
    }
}

impl Replica {
    /// A replica that stands where its turns on the events of the log lead, and how many bytes of
    /// the log its header and its whole records are: truncate the log there. Where these are 0, the
    /// log is new, and `header` is written first.
    ///
    /// `log` is the whole log, and `public_keys` are those of all replicas. What the turns on the
    /// log send is not sent again.
    pub fn open(
        role: &Role,
        secret: &[u8; 48],
        public_keys: &[[u8; 60]],
        log: &[u8],
    ) -> Result<(Replica, usize), Error> {
        let mut replica = Replica {
            handle: c::CReplica { at: null_mut() },
            prepared: 0,
        };
        let mut used = 0;
        // SAFETY: each pointer leads to a value or to a slice of the length passed, and the handle
        // is vacant.
        let status = unsafe {
            c::themis_open(
                &mut replica.handle,
                &role.for_c(),
                secret.as_ptr(),
                public_keys.as_ptr().cast(),
                public_keys.len(),
                log.as_ptr(),
                log.len(),
                &mut used,
            )
        };
        if status == c::CORRUPT_LOG {
            return Err(Error::CorruptLog { at: used });
        }
        Error::check(status)?;
        Ok((replica, used))
    }

    /// The header of the replica's log: it says whose log it is.
    pub fn header(&mut self) -> Result<[u8; 76], Error> {
        let mut header = [0; 76];
        let mut size = 0;
        // SAFETY: the buffer has the room passed.
        let status = unsafe {
            c::themis_header(
                &mut self.handle,
                header.as_mut_ptr(),
                header.len(),
                &mut size,
            )
        };
        Error::check(status)?;
        Ok(header)
    }

    /// Prepares the event that these transactions arrived, and returns its record, which is
    /// appended to the log and made durable before the turn. An empty record stands for none: the
    /// event changes nothing. Fails with `TooLong`, `Halted`, `NoMemory`.
    pub fn prepare_arrived(&mut self, txs: &[Tx]) -> Result<Vec<u8>, Error> {
        // SAFETY: the pointer leads to that many transactions.
        let status =
            unsafe { c::themis_prepare_arrived(&mut self.handle, txs.as_ptr(), txs.len()) };
        self.prepared_with(status)
    }

    /// Prepares the event that replica `from` sent these bytes; as `prepare_arrived`.
    pub fn prepare_deliver(&mut self, from: u32, bytes: &[u8]) -> Result<Vec<u8>, Error> {
        // SAFETY: the pointer leads to that many bytes.
        let status = unsafe {
            c::themis_prepare_deliver(&mut self.handle, from, bytes.as_ptr(), bytes.len())
        };
        self.prepared_with(status)
    }

    /// Whether the turn on these bytes, from replica `from`, would change the replica now. Nothing is prepared. The
    /// seals are checked, and remembered for the turn.
    pub fn would_change(&mut self, from: u32, bytes: &[u8]) -> Result<bool, Error> {
        let mut yes = 0;
        let (data, size) = (bytes.as_ptr(), bytes.len());
        // SAFETY: the pointers lead to that many bytes, and to a number.
        let status =
            unsafe { c::themis_would_change(&mut self.handle, from, data, size, &mut yes) };
        Error::check(status)?;
        Ok(yes != 0)
    }

    /// Prepares a tick: the pacemaker asks for a view above the replica's own and above `floor`; as
    /// `prepare_arrived`.
    pub fn prepare_tick(&mut self, floor: u32) -> Result<Vec<u8>, Error> {
        // SAFETY: the handle is the library's own.
        let status = unsafe { c::themis_prepare_tick(&mut self.handle, floor) };
        self.prepared_with(status)
    }

    /// How many events are prepared.
    pub fn prepared(&self) -> usize {
        self.prepared
    }

    /// The record of a prepared event; at position 0 is the one that the replica acts on next.
    /// Fails with `NoneThere`.
    pub fn record(&mut self, position: usize) -> Result<Vec<u8>, Error> {
        let handle = &mut self.handle;
        // SAFETY: the buffer has the room passed.
        copied(|into, size| unsafe {
            c::themis_record(handle, position, into.as_mut_ptr(), into.len(), size)
        })
    }

    /// The turn on the event that was prepared first. Fails with `Unready`, `Again`, `Halted`,
    /// `NoMemory`.
    pub fn act(&mut self) -> Result<Reason, Error> {
        let mut reason = 0;
        // SAFETY: the pointer leads to a number.
        let status = unsafe { c::themis_act(&mut self.handle, &mut reason) };
        if matches!(status, c::OK | c::AGAIN | c::HALTED) {
            self.prepared = self.prepared.saturating_sub(1);
        }
        Error::check(status)?;
        Ok(Reason::from(reason))
    }

    /// The messages that the last turn sends, in their order. Messages to the replica itself are
    /// among them, and are delivered like others.
    pub fn sends(&mut self) -> Result<Vec<Message>, Error> {
        let mut count = 0;
        // SAFETY: the pointer leads to a number.
        Error::check(unsafe { c::themis_sends(&mut self.handle, &mut count) })?;
        (0..count).map(|position| self.send(position)).collect()
    }

    fn send(&mut self, position: usize) -> Result<Message, Error> {
        let mut to = 0;
        let handle = &mut self.handle;
        // SAFETY: the buffer has the room passed, and `to` is a number.
        let bytes = copied(|into, size| unsafe {
            c::themis_send(
                handle,
                position,
                &mut to,
                into.as_mut_ptr(),
                into.len(),
                size,
            )
        })?;
        Ok(Message { to, bytes })
    }

    /// The statements that the last turn sealed, in their order.
    pub fn sealed(&mut self) -> Result<Vec<Vec<u8>>, Error> {
        let mut count = 0;
        // SAFETY: the pointer leads to a number.
        Error::check(unsafe { c::themis_sealed(&mut self.handle, &mut count) })?;
        let handle = &mut self.handle;
        (0..count)
            .map(|position| {
                // SAFETY: the buffer has the room passed.
                copied(|into, size| unsafe {
                    c::themis_statement(handle, position, into.as_mut_ptr(), into.len(), size)
                })
            })
            .collect()
    }

    /// How many batches are final. Their list only grows while at most f replicas are faulty.
    pub fn batch_count(&mut self) -> Result<usize, Error> {
        let mut count = 0;
        // SAFETY: the pointer leads to a number.
        Error::check(unsafe { c::themis_batches(&mut self.handle, &mut count) })?;
        Ok(count)
    }

    /// The final batch at a position. The order of its transactions says nothing. Fails with
    /// `NoneThere`, `NoMemory`.
    pub fn batch(&mut self, position: usize) -> Result<Vec<Tx>, Error> {
        let handle = &mut self.handle;
        // SAFETY: the buffer has the room passed.
        copied(|into, count| unsafe {
            c::themis_batch(handle, position, into.as_mut_ptr(), into.len(), count)
        })
    }

    /// The replica's view, and the view of its committed block.
    pub fn views(&mut self) -> Result<(u32, u32), Error> {
        let (mut view, mut commit_view) = (0, 0);
        // SAFETY: the pointers lead to numbers.
        Error::check(unsafe { c::themis_views(&mut self.handle, &mut view, &mut commit_view) })?;
        Ok((view, commit_view))
    }

    /// How many transactions arrived at the replica.
    pub fn known(&mut self) -> Result<u32, Error> {
        let mut known = 0;
        // SAFETY: the pointer leads to a number.
        Error::check(unsafe { c::themis_known(&mut self.handle, &mut known) })?;
        Ok(known)
    }

    /// Whether the blocks up to the one of the highest certificate propose the transaction.
    pub fn is_proposed(&mut self, tx: &Tx) -> Result<bool, Error> {
        let mut yes = 0;
        // SAFETY: the pointers lead to a transaction and a number.
        Error::check(unsafe { c::themis_is_proposed(&mut self.handle, tx, &mut yes) })?;
        Ok(yes != 0)
    }

    /// How many stored blocks have a view above this one.
    pub fn give_count(&mut self, above: u32) -> Result<usize, Error> {
        let mut count = 0;
        // SAFETY: the pointer leads to a number.
        Error::check(unsafe { c::themis_gives(&mut self.handle, above, &mut count) })?;
        Ok(count)
    }

    /// The Give message of one of these blocks, the oldest at position 0. Such messages bring a
    /// replica level that fell behind, and change nothing here. Fails with `NoneThere`, `NoMemory`.
    pub fn give(&mut self, above: u32, position: usize) -> Result<Vec<u8>, Error> {
        let handle = &mut self.handle;
        // SAFETY: the buffer has the room passed.
        copied(|into, size| unsafe {
            c::themis_give(handle, above, position, into.as_mut_ptr(), into.len(), size)
        })
    }

    /// The record of the event that was prepared with this status.
    fn prepared_with(&mut self, status: u32) -> Result<Vec<u8>, Error> {
        Error::check(status)?;
        self.prepared += 1;
        self.record(self.prepared - 1)
    }
}

/// Checks a trace of the second form, of any length, by the run and the public keys that the auditor
/// expects. Fails with `BadSetting`, `BadTrace`, `OtherKeys`, `OtherRun`, `NoMemory`.
pub fn audit(trace: &[u8], run: &Run, public_keys: &[[u8; 60]]) -> Result<Audited, Error> {
    let (mut found, expected) = (c::CFinding::default(), run.for_c());
    // SAFETY: each pointer leads to a value or to a slice of the length passed.
    let status = unsafe {
        c::themis_audit(
            trace.as_ptr(),
            trace.len(),
            &expected,
            public_keys.as_ptr().cast(),
            public_keys.len(),
            &mut found,
        )
    };
    found.audited(status)
}

/// What a call copies into a buffer, which is made longer where it is too small.
fn copied<T: Copy + Default>(
    mut call: impl FnMut(&mut [T], &mut usize) -> u32,
) -> Result<Vec<T>, Error> {
    let mut buffer = vec![T::default(); FIRST_ROOM / size_of::<T>()];
    let mut size = 0;
    let mut status = call(&mut buffer, &mut size);
    if status == c::SHORT {
        buffer.resize(size, T::default());
        status = call(&mut buffer, &mut size);
    }
    Error::check(status)?;
    buffer.truncate(size);
    Ok(buffer)
}
