//! The row of what was carried over to the last session.

use rusqlite::{params, Connection};
use themis_engine::tx::Tx;

use crate::error::{corrupt, Error};
use crate::rows::{bytes_of, check_of, txs_of, Sha};

fn check(session: u32, data: &[u8]) -> Sha {
    check_of(&[&session.to_be_bytes(), data])
}

/// Writes what was carried over to a session. That of the sessions before goes.
pub fn put(base: &Connection, session: u32, txs: &[Tx]) -> Result<(), Error> {
    base.execute("DELETE FROM carried", [])?;
    let data = bytes_of(txs);
    let check = check(session, &data);
    base.execute("INSERT INTO carried VALUES (?, ?, ?)", params![session, data, check])?;
    Ok(())
}

/// What was carried over to the last session.
pub fn find(base: &Connection, session: u32) -> Result<Vec<Tx>, Error> {
    let text = "SELECT txs, row_check FROM carried WHERE session = ?";
    let (data, found): (Vec<u8>, Sha) =
        base.query_row(text, [session], |row| Ok((row.get(0)?, row.get(1)?)))?;
    match txs_of(&data).filter(|_| check(session, &data) == found) {
        Some(txs) => Ok(txs),
        None => corrupt(format!("what was carried over to session {session}")),
    }
}
