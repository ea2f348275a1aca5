//! What is written, and what a start reads.

use std::fs::{self, File};
use std::io;
use std::path::Path;

use rusqlite::{params, Connection, ErrorCode, TransactionBehavior};
use themis_engine::tx::Tx;
use themis_engine::window::Windows;

use crate::before::Before;
use crate::error::{corrupt, Error};
use crate::origin::{self, Origin};
use crate::rows::{bytes_of, chain, column, signed, PublicKeys, Sha};
use crate::schema::{self, Identity};
use crate::sessions::{self, Session, State};
use crate::{carried, read, windows};

/// How a session ended.
#[derive(Clone, Debug, PartialEq, Eq)]
pub struct Ended<'a> {
    /// The session.
    pub session: u32,
    /// The position of its first batch.
    pub first: usize,
    /// Its batches, up to the one with the marker.
    pub batches: &'a [Vec<Tx>],
    /// Chains all batches, from the first session on.
    pub digest: Sha,
    /// What was carried over to the next session, in its order.
    pub carried: &'a [Tx],
    /// The setting of the next session.
    pub setting: &'a str,
    /// The public keys of the next session.
    pub keys: &'a PublicKeys,
    /// Its history was taken from others, or no replica needs its log: the log is not used again.
    pub is_closed: bool,
}

/// Where a replica stands when it starts.
#[derive(Clone, Debug, PartialEq, Eq)]
pub struct History {
    /// The session that comes next, or runs.
    pub session: Session,
    /// What was carried over to it.
    pub carried: Vec<Tx>,
    /// The session before, if its log may still be used.
    pub helped: Option<Session>,
    /// Which numbers of clients are final in the sessions that have ended.
    pub windows: Windows,
    /// Whether an earlier store was lost.
    pub origin: Origin,
}

/// The store of one replica, for its one writer.
#[derive(Debug)]
pub struct Store {
    base: Connection,
}

impl Store {
    /// Makes the store of a replica that has not started yet. Either all of it is there, or nothing.
    /// Where its cluster continues another one, it begins with the list of that.
    pub fn create(
        path: &Path,
        owner: &Identity,
        session: u32,
        setting: &str,
        keys: &PublicKeys,
        before: Option<&Before>,
    ) -> Result<(), Error> {
        let first = first_session(session, setting, keys.clone());
        Store::make(path, owner, first, before, Origin::First)
    }

    /// Makes the store of a replica that has lost its first one. It starts with what a new one has, and
    /// takes part in a session only once it is known that it did not seal there before.
    pub fn create_again(
        path: &Path,
        owner: &Identity,
        session: u32,
        setting: &str,
        keys: &PublicKeys,
        before: Option<&Before>,
    ) -> Result<(), Error> {
        let first = first_session(session, setting, keys.clone());
        Store::make(path, owner, first, before, Origin::Again { sits_out: None })
    }

    fn make(
        path: &Path,
        owner: &Identity,
        mut first: Session,
        before: Option<&Before>,
        origin: Origin,
    ) -> Result<(), Error> {
        if path.exists() {
            return Err(Error::Exists);
        }
        let (new, disk) = (path.with_extension("new"), |it: io::Error| Error::Disk(it.to_string()));
        for name in ["new", "new-wal", "new-shm"] {
            remove(&path.with_extension(name)).map_err(disk)?;
        }
        let mut base = schema::create(&new, owner, origin)?;
        if let Some(before) = before {
            before.copy(&mut base, &mut first)?;
        }
        sessions::put(&base, &first)?;
        carried::put(&base, first.number, before.map_or(&[], |it| it.carried))?;
        // The last connection moves the WAL into the file, and removes it.
        base.close().map_err(|(_, fault)| Error::from(fault))?;
        File::open(&new).and_then(|it| it.sync_all()).map_err(disk)?;
        fs::rename(&new, path).map_err(disk)?;
        let folder = path.parent().filter(|it| !it.as_os_str().is_empty());
        File::open(folder.unwrap_or(Path::new("."))).and_then(|it| it.sync_all()).map_err(disk)
    }

    /// Opens a store that exists.
    pub fn open(path: &Path, owner: &Identity) -> Result<Store, Error> {
        let base = schema::open(path, owner)?;
        let last = sessions::last(&base)?;
        if read::digest_of(&base, last.first)? != Some(last.digest) {
            return corrupt("the list of batches");
        }
        Ok(Store { base })
    }

    /// The session that comes next, or runs.
    pub fn last(&self) -> Result<Session, Error> {
        sessions::last(&self.base)
    }

    /// A session.
    pub fn session(&self, number: u32) -> Result<Option<Session>, Error> {
        sessions::find(&self.base, number)
    }

    /// What a start needs. It is bounded, however much is final.
    pub fn history(&self) -> Result<History, Error> {
        let session = self.last()?;
        let helped = match session.number.checked_sub(1) {
            Some(before) => self.session(before)?.filter(|it| it.state == State::Cut),
            None => None,
        };
        let carried = carried::find(&self.base, session.number)?;
        let windows = windows::all(&self.base, &session.windows)?;
        let origin = origin::find(&self.base)?;
        Ok(History { session, carried, helped, windows, origin })
    }

    /// Stores how a session ended, in one transaction. The next one then comes next. A session whose
    /// log was never opened is closed.
    ///
    /// Where it was stored before, in the same way, nothing happens.
    pub fn end(&mut self, ended: &Ended) -> Result<(), Error> {
        self.end_in_steps(ended, &mut |_| ())
    }

    /// The same; a test stops between two steps.
    pub(crate) fn end_in_steps(
        &mut self,
        ended: &Ended,
        step: &mut dyn FnMut(&str),
    ) -> Result<(), Error> {
        let last = self.last()?;
        if ended.session < last.number {
            return self.compare(ended);
        }
        if ended.session != last.number || ended.first != last.first {
            return Err(Error::OutOfTurn { session: ended.session, last: last.number });
        }
        step("before");
        let begun = self.base.transaction_with_behavior(TransactionBehavior::Immediate)?;
        write_end(&begun, step, ended, last)?;
        step("before the commit");
        begun.commit()?;
        step("after the commit");
        Ok(())
    }

    /// Whether a session that has ended here ended in this way.
    fn compare(&mut self, ended: &Ended) -> Result<(), Error> {
        let same = (ended.first + ended.batches.len(), ended.digest);
        let next = self.session(ended.session + 1)?;
        if next.map(|it| (it.first, it.digest)) != Some(same) {
            return Err(Error::OtherEnd(ended.session));
        }
        if ended.is_closed {
            self.close(ended.session)?;
        }
        Ok(())
    }

    /// The log of the session that comes next was opened. Nothing is sealed before.
    pub fn mark_opened(&mut self, session: u32) -> Result<(), Error> {
        let mut last = self.last()?;
        if last.number != session || last.state > State::Opened {
            return Err(Error::OutOfTurn { session, last: last.number });
        }
        if last.state == State::Opened {
            return Ok(());
        }
        last.state = State::Opened;
        sessions::put(&self.base, &last)
    }

    /// The log of a session that has ended is not used again.
    pub fn close(&mut self, session: u32) -> Result<(), Error> {
        let found = self.session(session)?.filter(|it| it.state >= State::Cut);
        let Some(mut found) = found else {
            return Err(Error::OutOfTurn { session, last: self.last()?.number });
        };
        if found.state == State::Closed {
            return Ok(());
        }
        found.state = State::Closed;
        sessions::put(&self.base, &found)
    }

    /// Moves what was committed from the WAL into the file. It is durable already, so this can wait
    /// until nobody waits for the store. Where a reader or the disk prevents it, a later call does it.
    pub fn move_wal(&self) {
        let _ = self.base.query_row("PRAGMA wal_checkpoint(TRUNCATE)", [], |_| Ok(()));
    }

    /// The replica sits out the sessions up to this one: its first store was lost.
    pub fn sit_out(&mut self, through: u32) -> Result<(), Error> {
        match origin::find(&self.base)? {
            Origin::Again { sits_out: None } => {
                origin::put(&self.base, Origin::Again { sits_out: Some(through) })
            }
            Origin::Again { sits_out: Some(_) } => Ok(()),
            Origin::First => Err(Error::NeverLost),
        }
    }

    #[cfg(test)]
    pub(crate) fn base(&self) -> &Connection {
        &self.base
    }
}

/// A session before which nothing is final.
fn first_session(number: u32, setting: &str, keys: PublicKeys) -> Session {
    let (state, digest, windows) = (State::Next, [0; 32], [0; 32]);
    Session { number, state, setting: setting.to_owned(), keys, first: 0, digest, windows }
}

fn remove(path: &Path) -> io::Result<()> {
    match fs::remove_file(path) {
        Err(fault) if fault.kind() != io::ErrorKind::NotFound => Err(fault),
        _ => Ok(()),
    }
}

/// The batches, what they make final, and both sessions.
fn write_end(
    work: &Connection,
    step: &mut dyn FnMut(&str),
    ended: &Ended,
    mut last: Session,
) -> Result<(), Error> {
    let digest = put_batches(work, ended.first, ended.batches, last.digest)?;
    if digest != ended.digest {
        return Err(Error::OtherDigest(ended.session));
    }
    step("batches are written");
    let mut windows = last.windows;
    windows::settle(work, ended.batches, &mut windows)?;
    step("windows are written");
    let has_log = last.state == State::Opened && !ended.is_closed;
    last.state = if has_log { State::Cut } else { State::Closed };
    sessions::put(work, &last)?;
    step("the session is written");
    let next = Session {
        number: ended.session + 1,
        state: State::Next,
        setting: ended.setting.to_owned(),
        keys: ended.keys.clone(),
        first: ended.first + ended.batches.len(),
        digest,
        windows,
    };
    sessions::put(work, &next)?;
    step("the next session is written");
    carried::put(work, next.number, ended.carried)
}

/// Writes batches from a position on, and where each transaction is; returns the digest of the whole
/// list.
pub(crate) fn put_batches(
    work: &Connection,
    first: usize,
    batches: &[Vec<Tx>],
    mut digest: Sha,
) -> Result<Sha, Error> {
    let mut put = work.prepare_cached("INSERT INTO batches VALUES (?, ?, ?)")?;
    let mut finals = Vec::new();
    for (position, batch) in (column(first)..).zip(batches) {
        let data = bytes_of(batch);
        digest = chain(&digest, &data);
        put.execute(params![position, data, digest])?;
        finals.extend(batch.iter().map(|tx| (*tx, position)));
    }
    put_finals(work, finals)?;
    Ok(digest)
}

/// Writes the positions of transactions, in the order of the table, so that its pages are written one
/// after the other.
fn put_finals(work: &Connection, mut finals: Vec<(Tx, i64)>) -> Result<(), Error> {
    finals.sort_unstable();
    let mut put = work.prepare_cached("INSERT INTO finals VALUES (?, ?, ?, ?)")?;
    for (tx, position) in finals {
        let columns = params![tx.client, tx.number, signed(tx.payload), position];
        put.execute(columns).map_err(|fault| match fault.sqlite_error_code() {
            Some(ErrorCode::ConstraintViolation) => Error::Twice(tx),
            _ => fault.into(),
        })?;
    }
    Ok(())
}
