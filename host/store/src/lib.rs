//! What a replica keeps of the sessions that have ended: one list of batches over all of them, which
//! numbers of clients are final, and with what the next session starts. One file of SQLite.
//!
//! - [`Store`] writes: the end of a session in one transaction, that a log is opened, that a session
//!   is closed. Each call may be repeated, and each error but one leaves the file as it was.
//! - [`Reader`] answers, on a connection of its own: batches from a position, how a session ended,
//!   the position of a transaction, the digest of a prefix.
//!
//! **What it costs.** Nothing is read whole at a start: [`Store::last`] and [`Store::history`] read the
//! rows of two sessions, what was carried over, and the windows, which are bounded. The file grows by
//! some 55 bytes for each final transaction where a batch has three of them (`tests/figures.rs`).
//!
//! **What is checked.** The digest of a batch chains all batches up to it, so two replicas compare a
//! prefix in one step. Whatever is read is checked against such a digest, or against the check of
//! its row. A file that was changed is noticed where it is read; the whole file is never checked. That
//! no batch has a transaction can't be checked in this way: there SQLite is believed. A file that is
//! older than it was, or whose WAL is lost, looks right here: its host compares it with the logs.
//!
//! No proof covers this crate. Its tests crash between any two steps, tear the file and fill the disk.

#![forbid(unsafe_code)]

mod before;
mod carried;
mod error;
mod origin;
mod read;
mod rows;
mod schema;
mod sessions;
mod store;
mod windows;

pub use before::Before;
pub use error::Error;
pub use origin::Origin;
pub use read::{Batch, Reader};
pub use rows::{chain, PublicKeys, Sha};
pub use schema::Identity;
pub use sessions::{Session, State};
pub use store::{Ended, History, Store};

#[cfg(test)]
mod tests;
