//! The file: its tables, and whose it is.
//!
//! **Durable.** `synchronous=FULL`: a transaction is on the disk once its commit returns.
//!
//! **A log of writes (WAL), and no rollback journal.** Followers read while the end of a session is
//! stored: with a WAL neither waits for the other, and a reader sees the state before or after. A
//! commit takes one sync. Soon after it the WAL is moved into the file ([`crate::Store::move_wal`]), so
//! that a copy of the file alone is mostly whole, and a torn WAL seldom has anything to lose.

use std::path::Path;
use std::time::Duration;

use rusqlite::{params, Connection, OpenFlags};

use crate::error::{corrupt, Error};
use crate::origin::{self, Origin};
use crate::rows::Sha;

/// Names the program in the file's header: "TMSQ".
const APPLICATION: i64 = 0x544d_5351;
/// The format of the tables.
const VERSION: i64 = 2;
/// The format before: without the table `origin`.
const WITHOUT_ORIGIN: i64 = 1;
/// A writer waits for so long for a lock that another connection has.
const BUSY: Duration = Duration::from_secs(5);

/// The tables. `state` is that of [`crate::State`]. `digest` of a batch chains all batches up to it;
/// that of a session chains all before it, and its `windows` is the sum of the checks of all rows of
/// windows, before it. `batches` has the order, and `finals` finds a transaction. `carried` is what
/// was carried over to the last session. `ORIGIN` has one more table.
const TABLES: &str = "
    CREATE TABLE identity (
        only_one INTEGER PRIMARY KEY CHECK (only_one = 1),
        cluster BLOB NOT NULL,
        replica INTEGER NOT NULL
    ) STRICT;
    CREATE TABLE sessions (
        number INTEGER PRIMARY KEY,
        state INTEGER NOT NULL,
        setting TEXT NOT NULL,
        keys BLOB NOT NULL,
        first INTEGER NOT NULL,
        digest BLOB NOT NULL,
        windows BLOB NOT NULL,
        row_check BLOB NOT NULL
    ) STRICT;
    CREATE TABLE carried (
        session INTEGER PRIMARY KEY,
        txs BLOB NOT NULL,
        row_check BLOB NOT NULL
    ) STRICT;
    CREATE TABLE batches (
        position INTEGER PRIMARY KEY,
        txs BLOB NOT NULL,
        digest BLOB NOT NULL
    ) STRICT;
    CREATE TABLE finals (
        client INTEGER NOT NULL,
        number INTEGER NOT NULL,
        payload INTEGER NOT NULL,
        position INTEGER NOT NULL,
        PRIMARY KEY (client, number, payload)
    ) STRICT, WITHOUT ROWID;
    CREATE TABLE windows (
        client INTEGER PRIMARY KEY,
        base INTEGER NOT NULL,
        ahead BLOB,
        row_check BLOB NOT NULL
    ) STRICT;
";

/// Whether an earlier store of the replica was lost.
const ORIGIN: &str = "
    CREATE TABLE origin (
        only_one INTEGER PRIMARY KEY CHECK (only_one = 1),
        is_again INTEGER NOT NULL,
        sits_out INTEGER,
        row_check BLOB NOT NULL
    ) STRICT;
";

/// Whose store it is.
#[derive(Clone, Copy, Debug, PartialEq, Eq)]
pub struct Identity {
    /// Names the cluster, over all its sessions.
    pub cluster: Sha,
    /// The replica.
    pub replica: u32,
}

/// A connection that writes, to a file that exists.
pub fn open(path: &Path, owner: &Identity) -> Result<Connection, Error> {
    let flags = OpenFlags::SQLITE_OPEN_READ_WRITE | OpenFlags::SQLITE_OPEN_NO_MUTEX;
    let mut base = connect(path, flags)?;
    let version = check(&base, owner)?;
    base.pragma_update(None, "journal_mode", "WAL")?;
    if version == WITHOUT_ORIGIN {
        let work = base.transaction()?;
        add_origin(&work, Origin::First)?;
        work.commit()?;
    }
    Ok(base)
}

/// Makes the table that the format before lacks.
fn add_origin(work: &Connection, origin: Origin) -> Result<(), Error> {
    work.execute_batch(ORIGIN)?;
    origin::put(work, origin)?;
    work.pragma_update(None, "user_version", VERSION)?;
    Ok(())
}

/// A connection that reads.
pub fn open_to_read(path: &Path, owner: &Identity) -> Result<Connection, Error> {
    let base = connect_to_read(path)?;
    check(&base, owner)?;
    Ok(base)
}

/// A connection that reads the store of any replica; whose store it is.
pub fn open_any(path: &Path) -> Result<(Connection, Identity), Error> {
    let base = connect_to_read(path)?;
    format_of(&base)?;
    let owner = identity_of(&base)?;
    Ok((base, owner))
}

fn connect_to_read(path: &Path) -> Result<Connection, Error> {
    // Where the last process was killed, a reader may have to write what helps to read the WAL.
    let flags = OpenFlags::SQLITE_OPEN_READ_WRITE | OpenFlags::SQLITE_OPEN_NO_MUTEX;
    let base = connect(path, flags)?;
    base.pragma_update(None, "query_only", true)?;
    Ok(base)
}

/// Makes the tables in a new file.
pub fn create(path: &Path, owner: &Identity, origin: Origin) -> Result<Connection, Error> {
    let flags = OpenFlags::SQLITE_OPEN_READ_WRITE
        | OpenFlags::SQLITE_OPEN_CREATE
        | OpenFlags::SQLITE_OPEN_NO_MUTEX;
    let mut base = connect(path, flags)?;
    base.pragma_update(None, "journal_mode", "WAL")?;
    let work = base.transaction()?;
    work.pragma_update(None, "application_id", APPLICATION)?;
    work.execute_batch(TABLES)?;
    add_origin(&work, origin)?;
    let insert = "INSERT INTO identity VALUES (1, ?, ?)";
    work.execute(insert, params![owner.cluster, owner.replica])?;
    work.commit()?;
    Ok(base)
}

fn connect(path: &Path, flags: OpenFlags) -> Result<Connection, Error> {
    if !flags.contains(OpenFlags::SQLITE_OPEN_CREATE) && !path.exists() {
        return Err(Error::Missing);
    }
    let base = Connection::open_with_flags(path, flags)?;
    base.busy_timeout(BUSY)?;
    base.pragma_update(None, "synchronous", "FULL")?;
    base.pragma_update(None, "trusted_schema", false)?;
    base.pragma_update(None, "cell_size_check", true)?;
    base.set_prepared_statement_cache_capacity(32);
    Ok(base)
}

/// Whether the file is a store of this program and of this replica; its format.
fn check(base: &Connection, owner: &Identity) -> Result<i64, Error> {
    let version = format_of(base)?;
    let found = identity_of(base)?;
    if found.cluster != owner.cluster {
        Err(Error::OtherCluster)
    } else if found.replica != owner.replica {
        Err(Error::OtherReplica(found.replica))
    } else {
        Ok(version)
    }
}

/// The format of the file, if it is a store of this program.
fn format_of(base: &Connection) -> Result<i64, Error> {
    let number = |name| base.pragma_query_value(None, name, |row| row.get::<_, i64>(0));
    if number("application_id")? != APPLICATION {
        return Err(Error::NotAStore);
    }
    match number("user_version")? {
        version @ (VERSION | WITHOUT_ORIGIN) => Ok(version),
        newer if newer > VERSION => Err(Error::Newer(newer)),
        other => corrupt(format!("format {other}")),
    }
}

fn identity_of(base: &Connection) -> Result<Identity, Error> {
    let found = base.query_row("SELECT cluster, replica FROM identity", [], |row| {
        Ok(Identity { cluster: row.get(0)?, replica: row.get(1)? })
    });
    Ok(found?)
}
