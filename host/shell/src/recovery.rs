//! What a start finds, and what it does about it.
//!
//! A change of session has four steps, each durable before the next: the end of the session is
//! stored, the log of the next one is made, it is marked as opened, and only then is anything
//! sent in it. A crash leaves one of these states. Each step may be made again.
//!
//! | Store | Log | What happened | The start |
//! |---|---|---|---|
//! | none | any | the store is lost, or was never made | is refused: status 5 (`rejoin` makes another one) |
//! | made again, and it is not known what is sat out | none | its first start | opens no log before the others have said where they are |
//! | s runs (marked) | whole | a crash while session s ran | replays it |
//! | s runs | a torn record at its end | a crash in a write | truncates the record, and replays the rest |
//! | s runs | a corrupt record | the disk changed it | is refused: status 5 |
//! | s runs | missing, or shorter than its beginning | it is lost | never makes it again: the replica sits session s out |
//! | s runs | of s+1, with its beginning alone | it was made ahead | makes it again, ahead |
//! | s comes next | none, or one that was being made | a crash after the end of s-1 was stored | makes it |
//! | s comes next | its beginning, whole or torn | a crash before the mark | makes it again, and marks it |
//! | s comes next | with more | the store is older than it was | is refused: status 5 |
//! | s comes next | of another replica or session | files were mixed up | is refused: status 5 |
//! | s-1 has ended | of s-1, whole or torn at its end | | replays it once a peer is behind |
//! | s-1 has ended | of s-1, missing or corrupt | it is lost | helps nobody with s-1 |
//! | s-1 is closed | of s-1 | no replica needs it, or its history was taken from others | does not open it; exports its account and removes it, unless `keep_logs` |
//! | s is the last | of a later session | the store is older than it was | is refused: status 5 |
//! | s comes next, or runs | any | `last_session` is below s-1, or s runs and it is s-1 | is refused: status 3 |
//! | s comes next | none, or its beginning | `last_session` is s-1: the cluster ends | opens no log |
//! | corrupt, newer, or of another replica or cluster | any | | is refused by name: status 5 |
//! | in use | any | another process has the replica | is refused: status 4 |

use std::fs::{File, OpenOptions};
use std::path::{Path, PathBuf};

use themis_store::{Before, Error, History, Identity, PublicKeys, State, Store};

use crate::exit::{Exit, Failure};
use crate::session_logs::SessionLogs;
use crate::sys;

/// What a start found.
pub struct Found {
    /// The store.
    pub store: Store,
    /// Where the replica stands.
    pub history: History,
    /// Its logs.
    pub logs: SessionLogs,
    /// Keeps a second process out, as long as it is there.
    pub lock: Lock,
}

/// This process alone has the replica.
#[derive(Debug)]
pub struct Lock {
    _file: File,
}

impl Lock {
    /// Takes the lock of a replica.
    ///
    /// It is a file of its own: SQLite would lose its locks on the store once another descriptor of
    /// that file is closed.
    pub fn take(folder: &Path, replica: u32) -> Result<Lock, Failure> {
        let path = folder.join(format!("{replica}.lock"));
        let text = |cause: &dyn std::fmt::Display| format!("{}: {cause}", path.display());
        let opened = OpenOptions::new().write(true).create(true).truncate(false).open(&path);
        let file = opened.map_err(|it| Failure::new(Exit::Disk, text(&it)))?;
        if sys::lock(&file) {
            Ok(Lock { _file: file })
        } else {
            Err(Failure::new(Exit::LogInUse, text(&"another process uses this replica")))
        }
    }
}

/// The file of a replica's store.
pub fn store_path(folder: &Path, replica: u32) -> PathBuf {
    folder.join(format!("{replica}.store"))
}

/// Why a store can't be used.
pub fn store_failure(path: &Path, error: &Error) -> Failure {
    let exit = match error {
        Error::Full | Error::Disk(_) => Exit::Disk,
        Error::Missing
        | Error::Exists
        | Error::NotAStore
        | Error::Newer(_)
        | Error::OtherReplica(_)
        | Error::OtherCluster
        | Error::Corrupt(_)
        | Error::OutOfTurn { .. }
        | Error::OtherEnd(_)
        | Error::OtherDigest(_)
        | Error::OtherList
        | Error::Twice(_)
        | Error::NeverLost => Exit::LogRefused,
    };
    Failure::new(exit, format!("{}: {error}", path.display()))
}

/// Makes the store of a replica that has never run.
pub fn create(
    folder: &Path,
    owner: &Identity,
    session: u32,
    setting: &str,
    keys: &PublicKeys,
    before: Option<&Before>,
) -> Result<(), Failure> {
    let _lock = Lock::take(folder, owner.replica)?;
    let path = without_logs(folder, owner)?;
    let made = Store::create(&path, owner, session, setting, keys, before);
    made.map_err(|it| store_failure(&path, &it))
}

/// Makes the store of a replica that has lost its first one.
pub fn create_again(
    folder: &Path,
    owner: &Identity,
    session: u32,
    setting: &str,
    keys: &PublicKeys,
    before: Option<&Before>,
) -> Result<(), Failure> {
    let _lock = Lock::take(folder, owner.replica)?;
    let path = without_logs(folder, owner)?;
    let made = Store::create_again(&path, owner, session, setting, keys, before);
    made.map_err(|it| store_failure(&path, &it))
}

/// The file of a store that is to be made. No log is there that it would not know of.
fn without_logs(folder: &Path, owner: &Identity) -> Result<PathBuf, Failure> {
    let path = store_path(folder, owner.replica);
    let logs = SessionLogs::new(folder.to_path_buf(), owner.replica, true).sessions()?;
    if !logs.is_empty() {
        let text = format!("{}: there are logs of sessions: the replica has run", path.display());
        return Err(Failure::new(Exit::LogRefused, text));
    }
    Ok(path)
}

/// Opens a replica's store, and compares it with the logs in its folder.
pub fn open(folder: &Path, owner: &Identity, is_synced: bool) -> Result<Found, Failure> {
    let lock = Lock::take(folder, owner.replica)?;
    let path = store_path(folder, owner.replica);
    let refused = |it: Error| store_failure(&path, &it);
    let store = Store::open(&path, owner).map_err(refused)?;
    let history = store.history().map_err(refused)?;
    let logs = SessionLogs::new(folder.to_path_buf(), owner.replica, is_synced);
    let last = history.session.number;
    let mut later = logs.sessions()?;
    later.retain(|it| *it > last);
    if later == [last + 1] && logs.has_only_begun(last + 1)? {
        later.clear(); // it was made ahead
    }
    if let Some(later) = later.last() {
        let text = format!(
            "{}: the last session is {last}, but there is a log of session {later}. The store is \
             older than it was",
            path.display()
        );
        return Err(Failure::new(Exit::LogRefused, text));
    }
    Ok(Found { store, history, logs, lock })
}

impl Found {
    /// Refuses where a session was opened after the last one that the operator wants: the others may
    /// have gone on with it, and what arrived there would be lost.
    pub fn refuse_later(&self, last: u32, config: &Path) -> Result<(), Failure> {
        let session = &self.history.session;
        let next = session.number + u32::from(session.state == State::Opened);
        if next > last.saturating_add(1) {
            let text = format!("last_session is {last}, but session {} was opened here", next - 1);
            return Err(Failure::new(Exit::Config, format!("{}: {text}", config.display())));
        }
        let has_log = self.logs.sessions()?.contains(&next);
        if next == last.saturating_add(1) && has_log && !self.logs.has_only_begun(next)? {
            let text = "it has records, so the store is older than it was";
            let path = self.logs.path(next);
            return Err(Failure::new(Exit::LogRefused, format!("{}: {text}", path.display())));
        }
        Ok(())
    }
}

#[cfg(test)]
#[path = "recovery_tests.rs"]
mod tests;
