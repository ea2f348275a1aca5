//! The rows of clients' windows.

use std::collections::btree_map::{BTreeMap, Entry};

use rusqlite::{params, Connection, OptionalExtension, Row};
use themis_engine::tx::Tx;
use themis_engine::window::{has_window, Window, Windows};

use crate::error::{corrupt, Error};
use crate::rows::{bytes_of_window, check_of, window_of, Sha};

/// What a row of a window has: client, base, numbers above it, check.
type Columns = (u32, i64, Option<Vec<u8>>, Sha);

fn check_of_row(client: u32, base: i64, ahead: Option<&[u8]>) -> Sha {
    check_of(&[&client.to_be_bytes(), &base.to_be_bytes(), ahead.unwrap_or_default()])
}

fn columns(row: &Row) -> rusqlite::Result<Columns> {
    Ok((row.get(0)?, row.get(1)?, row.get(2)?, row.get(3)?))
}

fn window_of_row((client, base, ahead, check): &Columns) -> Result<Window, Error> {
    let is_whole = check_of_row(*client, *base, ahead.as_deref()) == *check;
    match window_of(*base, ahead.as_deref()).filter(|_| is_whole) {
        Some(window) => Ok(window),
        None => corrupt(format!("window of client {client}")),
    }
}

/// A base is at most 2^32.
fn base_of(window: &Window) -> i64 {
    i64::try_from(window.base()).unwrap_or(i64::MAX)
}

/// Adds a row's check to that of all rows, or takes it away.
fn toggle(all: &mut Sha, check: &Sha) {
    all.iter_mut().zip(check).for_each(|(to, from)| *to ^= from);
}

/// Moves the windows of the clients of these batches, and the check of all rows.
pub fn settle(work: &Connection, batches: &[Vec<Tx>], all: &mut Sha) -> Result<(), Error> {
    let mut moved: BTreeMap<u32, Window> = BTreeMap::new();
    for tx in batches.iter().flatten().filter(|it| has_window(it.client)) {
        let window = match moved.entry(tx.client) {
            Entry::Occupied(it) => it.into_mut(),
            Entry::Vacant(it) => it.insert(leave(work, tx.client, all)?),
        };
        window.settle(tx.number);
    }
    let mut put = work.prepare_cached("INSERT OR REPLACE INTO windows VALUES (?, ?, ?, ?)")?;
    for (client, it) in &moved {
        let (base, ahead) = (base_of(it), bytes_of_window(it));
        let check = check_of_row(*client, base, ahead.as_deref());
        toggle(all, &check);
        put.execute(params![client, base, ahead, check])?;
    }
    Ok(())
}

/// The window of a client, without its row in the check of all.
fn leave(work: &Connection, client: u32, all: &mut Sha) -> Result<Window, Error> {
    let mut find = work.prepare_cached("SELECT * FROM windows WHERE client = ?")?;
    let Some(row) = find.query_row([client], columns).optional()? else {
        return Ok(Window::default());
    };
    toggle(all, &row.3);
    window_of_row(&row)
}

/// All windows. Their rows have this check.
pub fn all(base: &Connection, check: &Sha) -> Result<Windows, Error> {
    let (mut windows, mut found) = (Windows::default(), [0; 32]);
    let mut find = base.prepare("SELECT * FROM windows")?;
    for row in find.query_map([], columns)? {
        let row = row?;
        toggle(&mut found, &row.3);
        windows.put(row.0, window_of_row(&row)?);
    }
    if found == *check {
        Ok(windows)
    } else {
        corrupt("windows are missing")
    }
}
