//! What is read while a replica runs.

use std::collections::HashSet;
use std::path::Path;

use rusqlite::{params, Connection, OptionalExtension};
use themis_engine::tx::Tx;

use crate::carried;
use crate::error::{corrupt, Error};
use crate::rows::{chain, column, signed, txs_of, Sha};
use crate::schema::{self, Identity};
use crate::sessions::{self, Session};

/// A final batch.
#[derive(Clone, Debug, PartialEq, Eq)]
pub struct Batch {
    /// Its position in the list of all sessions.
    pub position: usize,
    /// Its transactions.
    pub txs: Vec<Tx>,
}

/// A connection that reads, for one thread. A [`crate::Store`] may write at the same time.
#[derive(Debug)]
pub struct Reader {
    base: Connection,
}

impl Reader {
    /// Opens a store that exists.
    pub fn open(path: &Path, owner: &Identity) -> Result<Reader, Error> {
        Ok(Reader { base: schema::open_to_read(path, owner)? })
    }

    /// Opens the store of any replica; whose store it is.
    pub fn open_any(path: &Path) -> Result<(Reader, Identity), Error> {
        let (base, owner) = schema::open_any(path)?;
        Ok((Reader { base }, owner))
    }

    /// The session that comes next, or runs.
    pub fn last(&self) -> Result<Session, Error> {
        sessions::last(&self.base)
    }

    /// A session.
    pub fn session(&self, number: u32) -> Result<Option<Session>, Error> {
        sessions::find(&self.base, number)
    }

    /// What was carried over to the last session.
    pub fn carried(&self) -> Result<Vec<Tx>, Error> {
        carried::find(&self.base, self.last()?.number)
    }

    /// Where a session ended: the position after its last batch, and the digest of all batches up to
    /// there. None where it has not ended here.
    pub fn end_of(&self, session: u32) -> Result<Option<(usize, Sha)>, Error> {
        let next = self.session(session.saturating_add(1))?;
        Ok(next.map(|it| (it.first, it.digest)))
    }

    /// The digest of the first batches. None where fewer are stored.
    pub fn digest_of(&self, count: usize) -> Result<Option<Sha>, Error> {
        digest_of(&self.base, count)
    }

    /// Batches from a position on, as many as are stored: at most `count`, and with more than one, at
    /// most `bytes` of transactions. Each is checked against the digests.
    pub fn batches(&self, from: usize, count: usize, bytes: usize) -> Result<Vec<Batch>, Error> {
        let Some(mut digest) = self.digest_of(from)? else {
            return if from <= self.last()?.first {
                corrupt(format!("batch {} is missing", from - 1))
            } else {
                Ok(Vec::new())
            };
        };
        let text = "SELECT position, txs, digest FROM batches WHERE position >= ?
            ORDER BY position LIMIT ?";
        let mut find = self.base.prepare_cached(text)?;
        let rows = find.query_map(params![column(from), column(count)], |row| {
            Ok((row.get::<_, i64>(0)?, row.get::<_, Vec<u8>>(1)?, row.get::<_, Sha>(2)?))
        })?;
        let (mut out, mut size) = (Vec::new(), 0);
        for (position, row) in (from..).zip(rows) {
            let (found, data, chained) = row?;
            digest = chain(&digest, &data);
            let txs = txs_of(&data).filter(|_| found == column(position) && digest == chained);
            let Some(txs) = txs else { return corrupt(format!("batch {position}")) };
            size += data.len();
            if size > bytes && !out.is_empty() {
                break;
            }
            out.push(Batch { position, txs });
        }
        if out.is_empty() && count > 0 && from < self.last()?.first {
            return corrupt(format!("batch {from} is missing"));
        }
        Ok(out)
    }

    /// The position of the batch that has a transaction. None where no stored batch has it.
    pub fn position_of(&self, tx: &Tx) -> Result<Option<usize>, Error> {
        let text = "SELECT position FROM finals WHERE client = ? AND number = ? AND payload = ?";
        let mut find = self.base.prepare_cached(text)?;
        let columns = params![tx.client, tx.number, signed(tx.payload)];
        let found = find.query_row(columns, |row| row.get::<_, i64>(0)).optional()?;
        let Some(position) = found else { return Ok(None) };
        let position = usize::try_from(position).unwrap_or(usize::MAX);
        let batch = self.batches(position, 1, usize::MAX)?;
        if batch.iter().any(|it| it.txs.contains(tx)) {
            Ok(Some(position))
        } else {
            corrupt(format!("no batch {position} has what is said to be in it"))
        }
    }

    /// Those of these transactions that a stored batch has. The list has to be there from its first
    /// batch on: of what is missing nothing is known.
    pub fn finals<'a>(&self, txs: impl Iterator<Item = &'a Tx>) -> Result<HashSet<Tx>, Error> {
        self.batches(0, 1, 0)?;
        let mut out = HashSet::new();
        for tx in txs {
            out.extend(self.position_of(tx)?.map(|_| *tx));
        }
        Ok(out)
    }
}

/// The digest of the first batches. None where fewer are stored.
pub(crate) fn digest_of(base: &Connection, count: usize) -> Result<Option<Sha>, Error> {
    let Some(last) = count.checked_sub(1) else { return Ok(Some([0; 32])) };
    let mut find = base.prepare_cached("SELECT digest FROM batches WHERE position = ?")?;
    Ok(find.query_row([column(last)], |row| row.get(0)).optional()?)
}
