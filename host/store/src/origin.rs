//! The row that says whether an earlier store of the replica was lost.

use rusqlite::{params, Connection};

use crate::error::{corrupt, Error};
use crate::rows::{check_of, Sha};

/// Whether a store is the first of its replica.
#[derive(Clone, Copy, Debug, PartialEq, Eq)]
pub enum Origin {
    /// It is.
    First,
    /// An earlier one was lost.
    Again {
        /// The replica sits out the sessions up to this one, as it may have sealed there. None while
        /// that is not known: then no log is opened.
        sits_out: Option<u32>,
    },
}

impl Origin {
    /// Its columns: whether it was made again, and what is sat out.
    fn columns(self) -> (bool, Option<u32>) {
        match self {
            Origin::First => (false, None),
            Origin::Again { sits_out } => (true, sits_out),
        }
    }

    fn check(self) -> Sha {
        let (is_again, sits_out) = self.columns();
        let sits_out = sits_out.map(u32::to_be_bytes);
        check_of(&[&[u8::from(is_again)], sits_out.as_ref().map_or(&[], |it| &it[..])])
    }
}

/// Writes the row.
pub fn put(base: &Connection, origin: Origin) -> Result<(), Error> {
    let (is_again, sits_out) = origin.columns();
    let text = "INSERT OR REPLACE INTO origin VALUES (1, ?, ?, ?)";
    base.execute(text, params![is_again, sits_out, origin.check()])?;
    Ok(())
}

/// What the row says.
pub fn find(base: &Connection) -> Result<Origin, Error> {
    let text = "SELECT is_again, sits_out, row_check FROM origin";
    let (is_again, sits_out, check): (bool, Option<u32>, Sha) =
        base.query_row(text, [], |row| Ok((row.get(0)?, row.get(1)?, row.get(2)?)))?;
    let origin = if is_again { Origin::Again { sits_out } } else { Origin::First };
    if origin.columns() == (is_again, sits_out) && origin.check() == check {
        Ok(origin)
    } else {
        corrupt("whether an earlier store was lost")
    }
}
