//! The rows of sessions.

use rusqlite::{params, Connection, OptionalExtension, Row};

use crate::error::{corrupt, Error};
use crate::rows::{bytes_of_keys, check_of, column, keys_of, PublicKeys, Sha};

/// How far a session has come at this replica. It only goes forward.
#[derive(Clone, Copy, Debug, PartialEq, Eq, PartialOrd, Ord)]
pub enum State {
    /// It comes next. Its log may be there, but nothing was sealed.
    Next = 0,
    /// Its log was opened, so a log that is missing was lost.
    Opened = 1,
    /// Its end is stored. Its log is still used, for replicas that are behind.
    Cut = 2,
    /// Its end is stored, and its log is never used again.
    Closed = 3,
}

impl State {
    fn from_column(column: i64) -> Option<State> {
        let all = [State::Next, State::Opened, State::Cut, State::Closed];
        all.into_iter().find(|it| *it as i64 == column)
    }
}

/// A session, as the store has it.
#[derive(Clone, Debug, PartialEq, Eq)]
pub struct Session {
    /// Its number.
    pub number: u32,
    /// How far it has come.
    pub state: State,
    /// What its host says of it: how many replicas there are, and so on.
    pub setting: String,
    /// The public keys of the replicas.
    pub keys: PublicKeys,
    /// The position of its first batch.
    pub first: usize,
    /// Chains all batches before it.
    pub digest: Sha,
    /// Of the rows of windows before it.
    pub(crate) windows: Sha,
}

const COLUMNS: &str = "number, state, setting, keys, first, digest, windows, row_check";

/// The row of a session.
pub fn find(base: &Connection, number: u32) -> Result<Option<Session>, Error> {
    let text = format!("SELECT {COLUMNS} FROM sessions WHERE number = ?");
    let found = base.prepare_cached(&text)?.query_row([number], columns).optional()?;
    found.map(session_of).transpose()
}

/// The row of the last session.
pub fn last(base: &Connection) -> Result<Session, Error> {
    let text = format!("SELECT {COLUMNS} FROM sessions ORDER BY number DESC LIMIT 1");
    let found = base.prepare_cached(&text)?.query_row([], columns).optional()?;
    found.map_or_else(|| corrupt("there is no session"), session_of)
}

/// Writes the row of a session.
pub fn put(base: &Connection, it: &Session) -> Result<(), Error> {
    let columns = Columns {
        number: it.number,
        state: it.state as i64,
        setting: it.setting.clone(),
        keys: bytes_of_keys(&it.keys),
        first: column(it.first),
        digest: it.digest,
        windows: it.windows,
    };
    let text =
        format!("INSERT OR REPLACE INTO sessions ({COLUMNS}) VALUES (?, ?, ?, ?, ?, ?, ?, ?)");
    base.prepare_cached(&text)?.execute(params![
        columns.number,
        columns.state,
        columns.setting,
        columns.keys,
        columns.first,
        columns.digest,
        columns.windows,
        columns.check(),
    ])?;
    Ok(())
}

/// The columns of a session.
struct Columns {
    number: u32,
    state: i64,
    setting: String,
    keys: Vec<u8>,
    first: i64,
    digest: Sha,
    windows: Sha,
}

impl Columns {
    fn check(&self) -> Sha {
        check_of(&[
            &self.number.to_be_bytes(),
            &self.state.to_be_bytes(),
            self.setting.as_bytes(),
            &self.keys,
            &self.first.to_be_bytes(),
            &self.digest,
            &self.windows,
        ])
    }
}

/// The columns of a row, and its check.
fn columns(row: &Row) -> rusqlite::Result<(Columns, Sha)> {
    let columns = Columns {
        number: row.get(0)?,
        state: row.get(1)?,
        setting: row.get(2)?,
        keys: row.get(3)?,
        first: row.get(4)?,
        digest: row.get(5)?,
        windows: row.get(6)?,
    };
    Ok((columns, row.get(7)?))
}

fn session_of((it, check): (Columns, Sha)) -> Result<Session, Error> {
    let number = it.number;
    let parts = || {
        let state = State::from_column(it.state)?;
        Some((state, keys_of(&it.keys)?, usize::try_from(it.first).ok()?))
    };
    let is_whole = it.check() == check;
    match parts().filter(|_| is_whole) {
        Some((state, keys, first)) => {
            let Columns { setting, digest, windows, .. } = it;
            Ok(Session { number, state, setting, keys, first, digest, windows })
        }
        None => corrupt(format!("session {number}")),
    }
}
