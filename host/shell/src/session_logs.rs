//! The logs of a replica whose sessions follow one another: one file for each session, named
//! `REPLICA-SESSION.log`; and their accounts, `REPLICA-SESSION.account`.

use std::fs::{self, File};
use std::io::{self, Write};
use std::path::{Path, PathBuf};

use crate::exit::{Exit, Failure};
use crate::log::{Disk, EventLog};

/// The beginning of each log: a header of 76 bytes, and the record of the first event, of 25.
pub const BEGINNING_BYTES: usize = 101;

/// The folder with the logs of one replica.
#[derive(Clone, Debug)]
pub struct SessionLogs {
    folder: PathBuf,
    replica: u32,
    is_synced: bool,
}

/// A log that was marked as opened.
pub enum Marked {
    /// It is there: the file, and all of its bytes.
    Found(EventLog, Vec<u8>),
    /// It is not there, or shorter than its beginning: what it had is lost.
    Lost,
}

impl SessionLogs {
    /// The logs of a replica in a folder that exists.
    pub fn new(folder: PathBuf, replica: u32, is_synced: bool) -> SessionLogs {
        SessionLogs { folder, replica, is_synced }
    }

    /// The file of a session's log.
    pub fn path(&self, session: u32) -> PathBuf {
        self.folder.join(format!("{}-{session}.log", self.replica))
    }

    /// The file of a session's account.
    pub fn account_path(&self, session: u32) -> PathBuf {
        self.folder.join(format!("{}-{session}.account", self.replica))
    }

    fn disk(&self) -> Disk {
        Disk { is_synced: self.is_synced, ..Disk::default() }
    }

    /// Makes the log of a session that was not marked as opened: its beginning, durable, under its
    /// name.
    ///
    /// What a crash left of such a log is made again: nothing was sent before the mark. A log with
    /// more is refused: it was marked once, so the store is older than it was.
    pub fn make(&self, session: u32, beginning: &[u8]) -> Result<EventLog, Failure> {
        let path = self.path(session);
        match fs::read(&path) {
            Ok(data) if beginning.starts_with(&data) => {}
            Ok(data) if data.starts_with(beginning) => {
                return Err(refused(&path, "it has records, so the store is older than it was"));
            }
            Ok(_) => return Err(refused(&path, "it is the log of another replica or session")),
            Err(fault) if fault.kind() == io::ErrorKind::NotFound => {}
            Err(fault) => return Err(failed(&path, &fault)),
        }
        self.write(&path, beginning).map_err(|it| failed(&path, &it))?;
        let mut log = EventLog::open(path, self.disk())?;
        log.recover(beginning)?;
        Ok(log)
    }

    /// Aside first, so that a crash leaves the name with all of the beginning, or without a file.
    fn write(&self, path: &Path, beginning: &[u8]) -> io::Result<()> {
        let new = path.with_extension("new");
        let mut file = File::create(&new)?;
        file.write_all(beginning)?;
        file.sync_all()?;
        fs::rename(&new, path)?;
        File::open(&self.folder)?.sync_all()
    }

    /// Whether the log of a session has no more than its beginning, as one that was made ahead.
    pub fn has_only_begun(&self, session: u32) -> Result<bool, Failure> {
        let path = self.path(session);
        let found = fs::metadata(&path).map_err(|it| failed(&path, &it))?;
        Ok(found.len() <= BEGINNING_BYTES as u64)
    }

    /// Opens a log that was marked as opened, whose beginning has that many bytes. None is made.
    pub fn open(&self, session: u32, beginning: usize) -> Result<Marked, Failure> {
        let path = self.path(session);
        match fs::metadata(&path) {
            Ok(found) if found.len() >= beginning as u64 => {
                let log = EventLog::open(path, self.disk())?;
                let data = log.read()?;
                Ok(Marked::Found(log, data))
            }
            Ok(_) => Ok(Marked::Lost),
            Err(fault) if fault.kind() == io::ErrorKind::NotFound => Ok(Marked::Lost),
            Err(fault) => Err(failed(&path, &fault)),
        }
    }

    /// Removes a log that no replica needs any more.
    pub fn remove(&self, session: u32) -> Result<(), Failure> {
        self.remove_file(&self.path(session))
    }

    /// Removes an account.
    pub fn remove_account(&self, session: u32) -> Result<(), Failure> {
        self.remove_file(&self.account_path(session))
    }

    fn remove_file(&self, path: &Path) -> Result<(), Failure> {
        let removed = fs::remove_file(path).and_then(|()| File::open(&self.folder)?.sync_all());
        removed.map_err(|it| failed(path, &it))
    }

    /// The sessions that have a log here, in their order.
    pub fn sessions(&self) -> Result<Vec<u32>, Failure> {
        self.listed(".log")
    }

    /// The sessions that have an account here, in their order.
    pub fn accounts(&self) -> Result<Vec<u32>, Failure> {
        self.listed(".account")
    }

    fn listed(&self, suffix: &str) -> Result<Vec<u32>, Failure> {
        let listed = fs::read_dir(&self.folder).map_err(|it| failed(&self.folder, &it))?;
        let prefix = format!("{}-", self.replica);
        let mut found = Vec::new();
        for entry in listed {
            let entry = entry.map_err(|it| failed(&self.folder, &it))?;
            let name = entry.file_name();
            let number =
                name.to_str().and_then(|it| it.strip_prefix(&prefix)?.strip_suffix(suffix));
            found.extend(number.and_then(|it| it.parse::<u32>().ok()));
        }
        found.sort_unstable();
        Ok(found)
    }
}

fn refused(path: &Path, text: &str) -> Failure {
    Failure::new(Exit::LogRefused, format!("{}: {text}", path.display()))
}

fn failed(path: &Path, fault: &io::Error) -> Failure {
    Failure::new(Exit::Disk, format!("{}: {fault}", path.display()))
}
