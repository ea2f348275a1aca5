//! What a change of session asks of the host, one step after the other.
//!
//! The order is in the types: each answer is made of its request, and only the engine makes requests.
//! So no log is opened before the cut is stored, and nothing is sealed in it before it is marked.
//! A request that was not answered when the process ended is made again after the start, and each
//! step may be repeated.
//!
//! | Request | What the host does | Answer |
//! |---|---|---|
//! | [`Store`] | one durable transaction: batches, digest, keys, carried, windows | [`Stored`] |
//! | [`OpenLog`] | makes the log of the session: header, sync of file and folder. One that is there without a record, whole or torn, is made again | [`Opened`] |
//! | [`Mark`] | one durable transaction: the log of the session was opened | [`Marked`] |
//! | [`Recover`] | opens a log that was marked. Where it is missing, it is lost | [`Recovered`] |
//! | [`SitOut`] | one durable transaction: which sessions the replica sits out, as its store was lost | [`SatOut`] |

use std::sync::Arc;

use crate::sessions::history::Ended;
use crate::sessions::keys::PublicKeys;

/// Store how a session ended.
#[derive(Debug)]
#[must_use = "the change of session waits until this is durable"]
pub struct Store {
    pub(super) ended: Arc<Ended>,
    /// Its core seals no more: never open its log again.
    pub(super) is_closed: bool,
}

impl Store {
    /// What is stored.
    pub fn ended(&self) -> &Arc<Ended> {
        &self.ended
    }

    /// Whether the log of the session is given up with this: its history was taken from others.
    pub fn is_closed(&self) -> bool {
        self.is_closed
    }

    /// It is durable.
    pub fn stored(self) -> Stored {
        Stored { session: self.ended.session }
    }
}

/// The end of a session is durable.
#[derive(Debug)]
pub struct Stored {
    pub(super) session: u32,
}

/// Make the log of the next session.
#[derive(Debug)]
#[must_use = "the change of session waits until this log is durable"]
pub struct OpenLog {
    pub(super) session: u32,
    pub(super) keys: PublicKeys,
}

impl OpenLog {
    /// The session.
    pub fn session(&self) -> u32 {
        self.session
    }

    /// Its public keys.
    pub fn keys(&self) -> &PublicKeys {
        &self.keys
    }

    /// The header of its log is durable, and so is its name in the folder. The core is a new one.
    pub fn opened<C>(self, core: C) -> Opened<C> {
        Opened { session: self.session, core: Some(core) }
    }

    /// The agreed key is not that of the own secret, so no log is made: the replica has no part in
    /// the session. An honest replica's key is agreed as it announced it; its secret has changed.
    pub fn other_key<C>(self) -> Opened<C> {
        Opened { session: self.session, core: None }
    }
}

/// The log of a session is durable, and has no record yet.
#[derive(Debug)]
pub struct Opened<C> {
    pub(super) session: u32,
    pub(super) core: Option<C>,
}

/// Mark the log of a session as opened: from now on a log that is missing was lost.
#[derive(Debug)]
#[must_use = "nothing is sealed in a session before its log is marked"]
pub struct Mark {
    pub(super) session: u32,
}

impl Mark {
    /// The session.
    pub fn session(&self) -> u32 {
        self.session
    }

    /// The mark is durable.
    pub fn marked(self) -> Marked {
        Marked { session: self.session }
    }
}

/// The log of a session is marked.
#[derive(Debug)]
pub struct Marked {
    pub(super) session: u32,
}

/// Open the log of a session that was marked, after a start.
#[derive(Debug)]
#[must_use = "the replica waits for its log"]
pub struct Recover {
    pub(super) session: u32,
    pub(super) keys: PublicKeys,
}

impl Recover {
    /// The session.
    pub fn session(&self) -> u32 {
        self.session
    }

    /// Its public keys.
    pub fn keys(&self) -> &PublicKeys {
        &self.keys
    }

    /// The core stands where the log leads. `log` is what the core used of it, and `header` the size
    /// of its header.
    pub fn recovered<C>(self, core: C, log: Vec<u8>, header: usize) -> Recovered<C> {
        Recovered { session: self.session, core: Some((core, log, header)) }
    }

    /// The log is missing, or shorter than its beginning: it was lost, and is never made again.
    pub fn lost<C>(self) -> Recovered<C> {
        Recovered { session: self.session, core: None }
    }
}

/// A log that was marked is open, or lost.
#[derive(Debug)]
pub struct Recovered<C> {
    pub(super) session: u32,
    pub(super) core: Option<(C, Vec<u8>, usize)>,
}

/// Store which sessions are sat out: the replica may have sealed there before its store was lost.
#[derive(Debug)]
#[must_use = "no log is opened before this is durable"]
pub struct SitOut {
    pub(super) through: u32,
}

impl SitOut {
    /// The last of these sessions.
    pub fn through(&self) -> u32 {
        self.through
    }

    /// It is durable.
    pub fn stored(self) -> SatOut {
        SatOut { through: self.through }
    }
}

/// It is durable which sessions are sat out.
#[derive(Debug)]
pub struct SatOut {
    pub(super) through: u32,
}
