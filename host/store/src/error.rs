//! Why a store can't be used, or did not take what it was given.

use std::fmt;

use rusqlite::ErrorCode;
use themis_engine::tx::{self, Tx};

/// A cause. After each but `Corrupt` the store is as it was.
#[derive(Clone, Debug, PartialEq, Eq)]
pub enum Error {
    /// There is no file. It may have been lost, so no start makes one.
    Missing,
    /// There is a file already.
    Exists,
    /// The file is no store.
    NotAStore,
    /// A later version of this program wrote it, in a format of this number.
    Newer(i64),
    /// It is the store of this replica.
    OtherReplica(u32),
    /// It is the store of another cluster.
    OtherCluster,
    /// What was read is not what was written.
    Corrupt(String),
    /// The disk is full.
    Full,
    /// The file can't be read or written.
    Disk(String),
    /// A session was stored, marked or closed that is not the one whose turn it is.
    OutOfTurn {
        /// The session.
        session: u32,
        /// The last session that the store knows.
        last: u32,
    },
    /// A session that has ended here is said to have ended in another way.
    OtherEnd(u32),
    /// The batches do not lead to the digest that was given with them.
    OtherDigest(u32),
    /// It does not have the list that a new store is to continue.
    OtherList,
    /// The transaction is final already.
    Twice(Tx),
    /// It is the replica's first store, so it sits nothing out for a lost one.
    NeverLost,
}

impl fmt::Display for Error {
    fn fmt(&self, to: &mut fmt::Formatter<'_>) -> fmt::Result {
        match self {
            Error::Missing => {
                to.write_str("there is no store. One that was lost is not made again")
            }
            Error::Exists => to.write_str("there is a store already"),
            Error::NotAStore => to.write_str("this file is no store"),
            Error::Newer(version) => write!(to, "a newer program wrote it, in format {version}"),
            Error::OtherReplica(replica) => write!(to, "this is the store of replica {replica}"),
            Error::OtherCluster => to.write_str("this is the store of another cluster"),
            Error::Corrupt(what) => write!(to, "the store is corrupt: {what}"),
            Error::Full => to.write_str("the disk is full"),
            Error::Disk(cause) => to.write_str(cause),
            Error::OutOfTurn { session, last } => {
                write!(to, "session {session} is not in turn: the last one is {last}")
            }
            Error::OtherEnd(session) => write!(to, "session {session} has ended in another way"),
            Error::OtherDigest(session) => {
                write!(to, "the batches of session {session} do not lead to its digest")
            }
            Error::OtherList => to.write_str("it does not have the list that is continued"),
            Error::Twice(tx) => {
                let mut text = String::new();
                tx::write(tx, &mut text);
                write!(to, "transaction {text} is final already")
            }
            Error::NeverLost => to.write_str("no earlier store of this replica was lost"),
        }
    }
}

impl std::error::Error for Error {}

impl From<rusqlite::Error> for Error {
    fn from(error: rusqlite::Error) -> Error {
        match error.sqlite_error_code() {
            Some(ErrorCode::DiskFull) => Error::Full,
            Some(ErrorCode::NotADatabase) => Error::NotAStore,
            Some(
                ErrorCode::CannotOpen
                | ErrorCode::DatabaseBusy
                | ErrorCode::DatabaseLocked
                | ErrorCode::FileLockingProtocolFailed
                | ErrorCode::NoLargeFileSupport
                | ErrorCode::OutOfMemory
                | ErrorCode::PermissionDenied
                | ErrorCode::ReadOnly
                | ErrorCode::SystemIoFailure,
            ) => Error::Disk(error.to_string()),
            // SQLite says so, or the tables, their columns or their values are not those of a store.
            _ => Error::Corrupt(error.to_string()),
        }
    }
}

/// Something is not what was written.
pub(crate) fn corrupt<T>(what: impl Into<String>) -> Result<T, Error> {
    Err(Error::Corrupt(what.into()))
}
