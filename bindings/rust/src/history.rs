//! The history of a chain of sessions.

use crate::c;
use crate::error::Error;
use crate::values::Tx;
use std::ptr::null_mut;

/// What is final in a chain of sessions, by which an auditor checks whether replicas carried over by
/// the rules. A call that fails leaves it as it was. It is freed when it is dropped, and may move to
/// another thread.
///
/// ```no_run
/// # use themis::{Error, History, Tx};
/// # type Session = (Vec<(Vec<Tx>, Vec<Tx>)>, Vec<Vec<Tx>>);
/// # fn audit(sessions: &[Session]) -> Result<(), Error> {
/// let mut history = History::new();
/// for (session, (lists, batches)) in (0..).zip(sessions) {
///     for (before, arrived) in lists { // of each replica that is not faulty
///         history.check(session, before, arrived)?;
///     }
///     for batch in batches { // of a replica that has ended the session
///         if history.add(session, batch)? {
///             break;
///         }
///     }
/// }
/// # Ok(())
/// # }
/// ```
pub struct History {
    handle: c::CHistory,
}

// SAFETY: a handle shares nothing with another, and may be used in any thread, one call at a time.
// `Send` of the library's handle is proved (crate `themis_c`).
unsafe impl Send for History {}

impl Drop for History {
    fn drop(&mut self) {
        // SAFETY: the handle is the library's own, and is not used after this.
        unsafe { c::themis_history_free(&mut self.handle) }
    }
}

impl Default for History {
    fn default() -> History {
        History::new()
    }
}

impl History {
    /// A history in which nothing is final.
    #[must_use]
    pub fn new() -> History {
        History {
            handle: c::CHistory { at: null_mut() },
        }
    }

    /// Adds a final batch of a session. Whether it holds the session's marker, and so is the last
    /// that counts. Fails with `AlreadyFinal`, `NoMemory`.
    pub fn add(&mut self, session: u32, batch: &[Tx]) -> Result<bool, Error> {
        let (mut ended, mut at) = (0, 0);
        // SAFETY: the slice has the length passed, and the pointers lead to numbers.
        let status = unsafe {
            c::themis_history_add(
                &mut self.handle,
                session,
                batch.as_ptr(),
                batch.len(),
                &mut ended,
                &mut at,
            )
        };
        Error::check_at(status, at)?;
        Ok(ended != 0)
    }

    /// Checks what arrived at a replica in a session. `before` is what arrived at it in the session
    /// before; it is empty where the replica was not in that session, or this is not known. Fails
    /// with `AlreadyFinal`, `OtherMarker`, `NotCarried`, `NoMemory`.
    pub fn check(&mut self, session: u32, before: &[Tx], arrived: &[Tx]) -> Result<(), Error> {
        let mut at = 0;
        // SAFETY: each slice has the length passed, and the pointer leads to a number.
        let status = unsafe {
            c::themis_history_check(
                &mut self.handle,
                session,
                before.as_ptr(),
                before.len(),
                arrived.as_ptr(),
                arrived.len(),
                &mut at,
            )
        };
        Error::check_at(status, at)
    }

    /// What a replica carries over, of what arrived at it in the session that was added last, in its
    /// order. Fails with `NoMemory`.
    pub fn carried(&mut self, arrived: &[Tx]) -> Result<Vec<Tx>, Error> {
        let handle = &mut self.handle;
        // SAFETY: the slice and the buffer have the lengths passed.
        crate::copied(|into, count| unsafe {
            c::themis_history_carried(
                handle,
                arrived.as_ptr(),
                arrived.len(),
                into.as_mut_ptr(),
                into.len(),
                count,
            )
        })
    }
}
