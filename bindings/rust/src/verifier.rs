//! Seals that are checked ahead, on another thread.

use crate::c;
use crate::error::Error;
use crate::values::Height;
use crate::Replica;
use std::ptr::null_mut;

/// Checks the seals of messages on a thread of its own, and holds no secret. Several verifiers share
/// the seals of one message; the replica takes what they accepted, and does not check it again. A
/// verifier is freed when it is dropped, and may move to another thread.
///
/// ```no_run
/// # use themis::{Error, Replica, Verifier};
/// # fn deliver(replica: &mut Replica, two: &mut [Verifier; 2], from: u32, bytes: &[u8]) -> Result<(), Error> {
/// let (view, _) = replica.views()?;
/// std::thread::scope(|threads| {
///     for (share, verifier) in (0..).zip(&mut *two) {
///         threads.spawn(move || verifier.verify(view, from, bytes, (share, 2)));
///     }
/// });
/// for verifier in two {
///     replica.take_verified(verifier)?;
/// }
/// replica.prepare_deliver(from, bytes)?;
/// # Ok(())
/// # }
/// ```
pub struct Verifier {
    handle: c::CVerifier,
}

// SAFETY: a handle shares nothing with another, and may be used in any thread, one call at a time.
// `Send` of the library's handle is proved (crate `themis_c`).
unsafe impl Send for Verifier {}

impl Drop for Verifier {
    fn drop(&mut self) {
        // SAFETY: the handle is the library's own, and is not used after this.
        unsafe { c::themis_verifier_free(&mut self.handle) }
    }
}

impl Verifier {
    /// Checks by the public keys of all replicas, of this height: key i is that of replica i. Fails
    /// with `NoMemory`.
    pub fn new(height: Height, public_keys: &[[u8; 60]]) -> Result<Verifier, Error> {
        let mut verifier = Verifier {
            handle: c::CVerifier { at: null_mut() },
        };
        // SAFETY: the slice has the length passed, and the handle is vacant.
        Error::check(unsafe {
            c::themis_verifier_new(
                &mut verifier.handle,
                height as u32,
                public_keys.as_ptr().cast(),
                public_keys.len(),
            )
        })?;
        Ok(verifier)
    }

    /// Checks a share of the seals of a message that replica `from` sent, for a replica in this
    /// view: with `(k, shares)`, those whose number modulo `shares` is k. It keeps those that fit
    /// until it checks the next message, and returns how many these are. It stops at one that does
    /// not fit, and checks nothing of a message that is too old for the view or names another
    /// sender.
    pub fn verify(
        &mut self,
        view: u32,
        from: u32,
        bytes: &[u8],
        (share, shares): (u32, u32),
    ) -> Result<usize, Error> {
        let mut kept = 0;
        // SAFETY: the slice has the length passed, and the pointer leads to a number.
        Error::check(unsafe {
            c::themis_verify(
                &mut self.handle,
                view,
                from,
                bytes.as_ptr(),
                bytes.len(),
                share,
                shares,
                &mut kept,
            )
        })?;
        Ok(kept)
    }
}

impl Replica {
    /// Remembers the seals that a verifier keeps, so that `prepare_deliver` and `would_change` of
    /// their message do not check them again. Fails with `OtherVerifier`, where it has other public
    /// keys or keys of another height.
    pub fn take_verified(&mut self, verifier: &mut Verifier) -> Result<(), Error> {
        // SAFETY: both handles are the library's own, and none of their calls runs.
        Error::check(unsafe { c::themis_take_verified(&mut self.handle, &mut verifier.handle) })
    }
}
