//! Sessions without end: one engine after the other, each with its own keys and log, and one list of
//! batches over all of them.
//!
//! `docs/SESSIONS.md` has the protocol: states, messages, rules, and why each is safe.

mod behind;
mod between;
mod change;
pub mod doubles;
mod ending;
pub mod frames;
mod hearing;
pub mod history;
pub mod keys;
mod last;
mod old;
mod peers;
pub mod requests;
pub mod reserved;
mod returning;
pub mod running;
pub mod secret;
mod service;
mod status;
mod submitting;
mod turns;

use bytes::Bytes;

use crate::clients::{Answer, Ticket};
use crate::intake::Note;
use crate::turns::Pending;
use crate::tx::Tx;
pub use behind::chained;
pub use ending::NotEnded;
pub use service::Sessions;
pub use status::Status;

use doubles::{Search, Searched};
use frames::{End, SessionFrame};
use keys::{PublicKey, PublicKeys};
use requests::{Mark, Marked, OpenLog, Opened, Recover, Recovered, SatOut, SitOut, Store, Stored};

/// What happened.
#[derive(Debug)]
pub enum Input<C> {
    /// A peer sent a frame. Each takes up one of the peer's slots, until [`Output::Freed`].
    Frame {
        /// The peer.
        peer: u32,
        /// What it sent.
        frame: SessionFrame,
        /// Bytes that can be queued for the peer before older ones are dropped.
        room: usize,
    },
    /// There is a new connection to a peer, for what this replica sends.
    Connected(u32),
    /// A client submitted transactions, and waits for the answer.
    Submit {
        /// Names the submission.
        ticket: Ticket,
        /// What it submitted.
        txs: Vec<Tx>,
    },
    /// The client of a submission has gone.
    Gone(Ticket),
    /// The own public key of a session, as [`Output::GrowKey`] asked for it.
    Key {
        /// The session.
        session: u32,
        /// The key.
        key: PublicKey,
    },
    /// The answer to [`Output::Read`].
    Found(Found),
    /// The answer to [`Output::Search`].
    Searched(Searched),
    /// The answer to [`Output::Store`].
    Stored(Stored),
    /// The answer to [`Output::OpenLog`].
    Opened(Opened<C>),
    /// The answer to [`Output::Mark`].
    Marked(Marked),
    /// The answer to [`Output::Recover`].
    Recovered(Recovered<C>),
    /// The answer to [`Output::SitOut`].
    SatOut(SatOut),
}

/// What is to be done.
#[derive(Debug)]
pub enum Output {
    /// Send a frame to a peer.
    Send {
        /// The peer.
        to: u32,
        /// The frame, with its length.
        frame: Bytes,
    },
    /// Send a frame to each peer.
    Broadcast(Bytes),
    /// Answer a client.
    Answer(Ticket, Answer),
    /// A batch became final. After a start those of the session that runs come again.
    Batch {
        /// Its position in the list of all sessions.
        position: usize,
        /// Its transactions.
        txs: Vec<Tx>,
    },
    /// Transactions that were received here.
    Received(Vec<Tx>),
    /// So many slots of a peer are free again.
    Freed(u32, u32),
    /// Something was received or heard, where a test wants to know.
    Noted(Note),
    /// Make the own public key of a session from the master secret. It takes a moment, and may be
    /// done aside.
    GrowKey(u32),
    /// Open the core of the next session ahead, and make its log, if that helps: the first seal of a
    /// core takes long. These are the keys with which [`Output::OpenLog`] will come.
    OpenAhead(u32, PublicKeys),
    /// Read how a session ended, for a peer that is behind.
    Read(Read),
    /// Search the store for transactions.
    Search(Search),
    /// Store how a session ended.
    Store(Store),
    /// Make the log of the next session.
    OpenLog(OpenLog),
    /// Mark the log of a session as opened.
    Mark(Mark),
    /// Open a log that was marked.
    Recover(Recover),
    /// Store which sessions this replica sits out, after its store was lost.
    SitOut(SitOut),
    /// No replica needs the log of this session any more: do not open it again.
    Retired(u32),
}

/// What a peer that is behind wants to know.
#[derive(Clone, Copy, Debug, PartialEq, Eq)]
pub struct Read {
    /// The peer.
    pub peer: u32,
    /// The session, which has ended here.
    pub session: u32,
    /// Batches from this position on.
    pub from: usize,
    /// Whether batches are wanted at all: then as many as [`frames::fitting`] takes.
    pub wants_batches: bool,
}

/// What the store has of it.
#[derive(Clone, Debug, PartialEq, Eq)]
pub struct Found {
    /// What was asked.
    pub read: Read,
    /// Where the session ended.
    pub end: End,
    /// Its batches from the position on, as many as fit.
    pub batches: Vec<Vec<Tx>>,
}

/// Events of one session whose records are appended to its log and made durable together.
#[derive(Debug)]
#[must_use = "the engine waits until these records are durable"]
pub struct Group {
    session: u32,
    pending: Pending,
}

impl Group {
    /// The session whose log takes the records.
    pub fn session(&self) -> u32 {
        self.session
    }

    /// What is appended; no bytes where nothing has to be durable.
    pub fn records(&self) -> &[u8] {
        self.pending.records()
    }
}

#[cfg(test)]
mod tests;
