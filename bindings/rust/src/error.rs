//! Why a call failed.

use crate::c;
use std::fmt;

/// A call that failed. It left the replica as it was, except for `Halted` and `Again`.
#[derive(Clone, Copy, Debug, PartialEq, Eq)]
pub enum Error {
    /// The handle holds no replica.
    Vacant,
    /// An allocation failed. Nothing was changed, and the call may be made again.
    NoMemory,
    /// n, f, p and q are no valid setting.
    BadSetting,
    /// The height is none of the four.
    BadHeight,
    /// The replica's number is not below n.
    BadNumber,
    /// The keys have fewer than 5 seals for each view.
    FewSeals,
    /// There is not one public key for each replica.
    KeyCount,
    /// The public key of the secret is not the one at the replica's number.
    WrongSecret,
    /// At this byte of the log stands a whole record that is no event's.
    CorruptLog {
        /// Counted from the first byte of the log.
        at: usize,
    },
    /// The event does not fit a record: 2^28 transactions, a sender above 255, or 4 GB.
    TooLong,
    /// No event is prepared.
    Unready,
    /// Memory ran out in a turn. Drop the replica, and open it again from its log.
    Halted,
    /// There is none at this position.
    NoneThere,
    /// The buffer is too small.
    Short,
    /// The log begins with no header.
    NoHeader,
    /// The log has the header of another setting, other views, another replica or other keys.
    OtherLog,
    /// The replica did not act, and dropped the event, which had no record: prepare it again.
    Again,
    /// The bytes are no trace.
    BadTrace {
        /// Where the first faulty field starts, counted from the first byte of the trace.
        at: u64,
    },
    /// The trace's public keys are not those of the auditor.
    OtherKeys,
    /// The trace has the auditor's public keys, and another setting, other views or another height.
    OtherRun,
    /// A transaction is final already.
    AlreadyFinal {
        /// Its position in the list.
        at: usize,
    },
    /// A transaction is of client 0, and not the marker of the session.
    OtherMarker {
        /// Its position in the list.
        at: usize,
    },
    /// What is carried over does not arrive first, in its order.
    NotCarried,
    /// The verifier has other public keys than the replica, or keys of another height.
    OtherVerifier,
    /// A status that this crate does not know: the library is newer.
    Unknown(u32),
}

impl Error {
    /// The error of a status, or none where it is OK.
    pub(crate) fn check(status: u32) -> Result<(), Error> {
        match status {
            c::OK => Ok(()),
            c::VACANT => Err(Error::Vacant),
            c::NO_MEMORY => Err(Error::NoMemory),
            c::BAD_SETTING => Err(Error::BadSetting),
            c::BAD_HEIGHT => Err(Error::BadHeight),
            c::BAD_NUMBER => Err(Error::BadNumber),
            c::FEW_SEALS => Err(Error::FewSeals),
            c::KEY_COUNT => Err(Error::KeyCount),
            c::WRONG_SECRET => Err(Error::WrongSecret),
            c::LONG => Err(Error::TooLong),
            c::UNREADY => Err(Error::Unready),
            c::HALTED => Err(Error::Halted),
            c::NONE => Err(Error::NoneThere),
            c::SHORT => Err(Error::Short),
            c::NO_HEADER => Err(Error::NoHeader),
            c::OTHER_LOG => Err(Error::OtherLog),
            c::AGAIN => Err(Error::Again),
            c::OTHER_KEYS => Err(Error::OtherKeys),
            c::OTHER_RUN => Err(Error::OtherRun),
            c::NOT_CARRIED => Err(Error::NotCarried),
            c::OTHER_VERIFIER => Err(Error::OtherVerifier),
            status => Err(Error::Unknown(status)),
        }
    }

    /// The error of a status about a list, where `at` is the position that it means.
    pub(crate) fn check_at(status: u32, at: usize) -> Result<(), Error> {
        match status {
            c::ALREADY_FINAL => Err(Error::AlreadyFinal { at }),
            c::OTHER_MARKER => Err(Error::OtherMarker { at }),
            status => Error::check(status),
        }
    }
}

impl fmt::Display for Error {
    fn fmt(&self, to: &mut fmt::Formatter<'_>) -> fmt::Result {
        match self {
            Error::Vacant => to.write_str("the handle holds no replica"),
            Error::NoMemory => to.write_str("out of memory: nothing was changed"),
            Error::BadSetting => to.write_str("n, f, p and q are no valid setting"),
            Error::BadHeight => to.write_str("the height is none of the four"),
            Error::BadNumber => to.write_str("the replica's number is not below n"),
            Error::FewSeals => to.write_str("the keys have fewer than 5 seals for each view"),
            Error::KeyCount => to.write_str("there is not one public key for each replica"),
            Error::WrongSecret => {
                to.write_str("the secret's public key is not the one at the replica's number")
            }
            Error::CorruptLog { at } => write!(to, "the log has a corrupt record at byte {at}"),
            Error::TooLong => to.write_str("the event does not fit a record"),
            Error::Unready => to.write_str("no event is prepared"),
            Error::Halted => {
                to.write_str("memory ran out in a turn: open the replica again from its log")
            }
            Error::NoneThere => to.write_str("there is none at this position"),
            Error::Short => to.write_str("the buffer is too small"),
            Error::NoHeader => to.write_str("the log begins with no header"),
            Error::OtherLog => to.write_str("the log has the header of another"),
            Error::Again => {
                to.write_str("the event would change the replica now: prepare it again")
            }
            Error::BadTrace { at } => write!(to, "the bytes are no trace, at byte {at}"),
            Error::OtherKeys => to.write_str("the trace has other public keys"),
            Error::OtherRun => {
                to.write_str("the trace has another setting, other views or another height")
            }
            Error::AlreadyFinal { at } => {
                write!(to, "the transaction at position {at} is final already")
            }
            Error::OtherMarker { at } => write!(
                to,
                "the transaction at position {at} is of client 0, and not the session's marker"
            ),
            Error::NotCarried => to.write_str("what is carried over does not arrive first"),
            Error::OtherVerifier => {
                to.write_str("the verifier has other public keys, or keys of another height")
            }
            Error::Unknown(status) => write!(to, "status {status}"),
        }
    }
}

impl std::error::Error for Error {}
