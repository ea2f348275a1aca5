//! The durable log of one replica, in the library's format (docs/FORMATS.md, "Event log").
//!
//! The library makes the header and the records, and reads them back. This module writes them to a
//! file that one process has locked, and stops for good where a write or a sync fails.

use std::fs::{File, OpenOptions};
use std::io;
use std::os::unix::fs::FileExt;
use std::path::{Path, PathBuf};
use std::time::Duration;

use crate::exit::{Exit, Failure};
use crate::sys;

/// One `append` writes fewer bytes than this.
const MAX_UNSYNCED: usize = 32 << 20;

/// What the log asks of a disk, and the faults that tests order.
#[derive(Debug, Default)]
pub struct Disk {
    /// Records are made durable.
    pub is_synced: bool,
    /// Bytes of the next write after which the process dies.
    pub tear_at: Option<usize>,
    /// Half of each write fits.
    pub is_full: bool,
    /// Of each sync.
    pub delay: Duration,
}

impl Disk {
    fn write(&self, file: &File, data: &[u8], at: u64) -> io::Result<()> {
        if let Some(size) = self.tear_at {
            let torn = data.get(..size % data.len().max(1)).unwrap_or_default();
            file.write_all_at(torn, at)?;
            sys::die();
        }
        if self.is_full {
            file.write_all_at(&data[..data.len() / 2], at)?;
            return Err(io::Error::from_raw_os_error(libc::ENOSPC));
        }
        file.write_all_at(data, at)
    }

    fn sync(&self, file: &File) -> io::Result<()> {
        if !self.delay.is_zero() {
            std::thread::sleep(self.delay);
        }
        if self.is_synced {
            file.sync_data()
        } else {
            Ok(())
        }
    }
}

/// A log that this process alone has open. Records are durable once `append` returns.
pub struct EventLog {
    file: File,
    path: PathBuf,
    /// The disk under it.
    pub disk: Disk,
    /// Its size.
    pub end: u64,
    has_failed: bool,
}

impl EventLog {
    /// Opens and locks a log that exists. A missing one is refused: it may have been lost.
    pub fn open(path: PathBuf, disk: Disk) -> Result<EventLog, Failure> {
        let opened = OpenOptions::new().read(true).write(true).open(&path);
        let file = opened.map_err(|fault| match fault.kind() {
            io::ErrorKind::NotFound => {
                let text = "there is no log. A replica whose log was lost is given up";
                failed(Exit::LogRefused, &path, text)
            }
            _ => failed(Exit::Disk, &path, fault),
        })?;
        if !sys::lock(&file) {
            return Err(failed(Exit::LogInUse, &path, "another process uses it"));
        }
        Ok(EventLog { file, path, disk, end: 0, has_failed: false })
    }

    /// The whole log.
    pub fn read(&self) -> Result<Vec<u8>, Failure> {
        std::fs::read(&self.path).map_err(|it| failed(Exit::Disk, &self.path, it))
    }

    /// Why the log can't be used.
    pub fn refused(&self, cause: impl std::fmt::Display) -> Failure {
        failed(Exit::LogRefused, &self.path, cause)
    }

    /// Keeps these bytes, with which the log starts, and truncates the rest: a record that a crash
    /// cut off. The last of them are written again: a sync that failed may have left them in the
    /// system's memory alone, where they look as if they had been written.
    pub fn recover(&mut self, records: &[u8]) -> Result<(), Failure> {
        let at = records.len().saturating_sub(MAX_UNSYNCED);
        self.disk
            .write(&self.file, &records[at..], at as u64)
            .and_then(|()| self.file.set_len(records.len() as u64))
            .and_then(|()| self.file.sync_all())
            .map_err(|it| failed(Exit::Disk, &self.path, it))?;
        self.end = records.len() as u64;
        Ok(())
    }

    /// Makes records durable. Fails where that fails, and after it always.
    pub fn append(&mut self, records: &[u8]) -> Result<(), Failure> {
        if self.has_failed {
            return Err(failed(Exit::Disk, &self.path, "a write failed before"));
        }
        self.has_failed = true;
        let done = self
            .disk
            .write(&self.file, records, self.end)
            .and_then(|()| self.disk.sync(&self.file));
        if let Err(fault) = done {
            // The start truncates a torn record too, so a fault here changes nothing.
            let _ = self.file.set_len(self.end);
            let text = format!("{fault}; the replica did not act on the events that came");
            return Err(failed(Exit::Disk, &self.path, text));
        }
        self.end += records.len() as u64;
        self.has_failed = false;
        Ok(())
    }
}

fn failed(exit: Exit, path: &Path, text: impl std::fmt::Display) -> Failure {
    Failure::new(exit, format!("{}: {text}", path.display()))
}

#[cfg(test)]
mod tests {
    use super::*;

    fn opened(name: &str) -> (EventLog, PathBuf) {
        let path = std::env::temp_dir().join(format!("themisd-{}-{name}", std::process::id()));
        std::fs::write(&path, b"header").unwrap();
        (EventLog::open(path.clone(), Disk::default()).unwrap(), path)
    }

    #[test]
    fn a_failed_write_leaves_no_torn_record() {
        let (mut log, path) = opened("full");
        log.recover(b"header").unwrap();
        log.append(b" one").unwrap();
        log.disk.is_full = true;
        assert_eq!(log.append(b" two").unwrap_err().exit, Exit::Disk);
        assert_eq!(log.append(b" two").unwrap_err().exit, Exit::Disk); // for good
        assert_eq!(std::fs::read(&path).unwrap(), b"header one");
        std::fs::remove_file(path).unwrap();
    }

    /// As a sync that failed before may have left them in the system's memory alone.
    #[test]
    fn the_last_records_are_written_again_and_a_torn_one_goes() {
        let (mut log, path) = opened("again");
        std::fs::write(&path, b"what a sync lost").unwrap();
        log.recover(b"header one").unwrap();
        assert_eq!((std::fs::read(&path).unwrap(), log.end), (b"header one".to_vec(), 10));
        std::fs::remove_file(path).unwrap();
    }

    #[test]
    fn one_process_has_it_and_a_missing_one_is_refused() {
        let (_log, path) = opened("locked");
        let exit = |path: &Path| EventLog::open(path.into(), Disk::default()).err().unwrap().exit;
        assert_eq!(exit(&path), Exit::LogInUse);
        std::fs::remove_file(&path).unwrap();
        assert_eq!(exit(&path), Exit::LogRefused);
    }
}
