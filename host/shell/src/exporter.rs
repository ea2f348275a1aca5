//! The thread that exports the accounts of closed sessions, and then removes their logs.
//!
//! An account is made by a process of its own, `themisd account`: playing a session again takes as
//! much memory as running it, and none of that stays. The account is whole and durable before the log
//! goes. Where it can't be made, the log stays, and the next closed session tries again.

use std::fs::{self, File};
use std::io;
use std::path::{Path, PathBuf};
use std::process::{Command, Stdio};
use std::sync::mpsc::{self, Sender};

use themis_store::{Reader, State};

use crate::config::folder_of;
use crate::exit::{Exit, Failure};
use crate::recovery::store_failure;
use crate::session_logs::SessionLogs;
use crate::sys;

/// What becomes of the files of closed sessions.
#[derive(Clone, Copy, Debug)]
pub struct Keeping {
    /// Logs stay, and nothing is exported.
    pub logs: bool,
    /// So many accounts stay; with 0 none is made.
    pub accounts: usize,
}

/// What the thread works on.
pub struct Exporter {
    /// The replica's configuration, for the process that makes an account.
    pub config: PathBuf,
    /// The store.
    pub reader: Reader,
    /// The replica's logs.
    pub logs: SessionLogs,
    /// What stays.
    pub keeping: Keeping,
}

impl Exporter {
    /// Works in a thread of its own: now, and each time that it is told of a closed session.
    pub fn start(self) -> Result<Sender<()>, Failure> {
        let (sender, told) = mpsc::channel();
        let work = move || loop {
            if let Err(cause) = self.export_all() {
                tracing::error!(%cause, "the log of a closed session stays");
            }
            if told.recv().is_err() {
                return;
            }
        };
        let thread = std::thread::Builder::new().name("exporter".to_owned()).spawn(work);
        thread.map_err(|it| Failure::new(Exit::Fault, it))?;
        Ok(sender)
    }

    /// Exports each closed session that has a log, oldest first. One that can't be exported keeps its
    /// log, and keeps no other one: its cause is returned at the end.
    fn export_all(&self) -> Result<(), Failure> {
        if self.keeping.logs {
            return Ok(());
        }
        let mut done = Ok(());
        for session in self.logs.sessions()? {
            done = done.and(self.export_and_remove(session));
        }
        let accounts = self.logs.accounts()?;
        for old in accounts.iter().rev().skip(self.keeping.accounts) {
            done = done.and(self.logs.remove_account(*old));
        }
        done
    }

    fn export_and_remove(&self, session: u32) -> Result<(), Failure> {
        if !self.is_closed(session)? {
            return Ok(());
        }
        if self.keeping.accounts > 0 && !self.logs.account_path(session).exists() {
            self.export(session)?;
        }
        self.logs.remove(session)
    }

    fn is_closed(&self, session: u32) -> Result<bool, Failure> {
        let found = self.reader.session(session);
        let found = found.map_err(|it| store_failure(&self.logs.path(session), &it))?;
        Ok(found.is_some_and(|it| it.state == State::Closed))
    }

    /// Aside first, so that an account that is there is whole.
    fn export(&self, session: u32) -> Result<(), Failure> {
        let path = self.logs.account_path(session);
        let aside = path.with_extension("account.new");
        let done = self.write(session, &aside).and_then(|()| fs::rename(&aside, &path));
        let done = done.and_then(|()| File::open(folder_of(&path))?.sync_all());
        done.map_err(|fault| {
            let _ = fs::remove_file(&aside); // it takes up space on a disk that may be full
            Failure::new(Exit::Disk, format!("{}: {fault}", path.display()))
        })?;
        tracing::info!(session, "an account was exported");
        Ok(())
    }

    fn write(&self, session: u32, aside: &Path) -> io::Result<()> {
        let out = File::create(aside)?;
        let mut command = Command::new(own_program()?);
        command.arg("account").arg(&self.config).args(["--session", &session.to_string()]);
        command.arg("--with-parent").stdin(Stdio::null()).stderr(Stdio::piped());
        sys::yield_to_others(&mut command);
        let done = command.stdout(out.try_clone()?).output()?;
        if !done.status.success() {
            let cause = String::from_utf8_lossy(&done.stderr);
            return Err(io::Error::other(cause.trim().trim_start_matches("themisd: ").to_owned()));
        }
        out.sync_all()
    }
}

/// The program of this process. Linux names it so also after another one has taken its file's place.
fn own_program() -> io::Result<PathBuf> {
    let running = Path::new("/proc/self/exe");
    if running.exists() {
        Ok(running.to_path_buf())
    } else {
        std::env::current_exe()
    }
}

#[cfg(test)]
mod tests {
    use themis_store::{chain, Ended, Identity, Store};

    use super::*;

    /// A store in which two sessions are closed, and their logs. The first one has no account, and none
    /// can be made of it; the second one has its own.
    fn exporter(folder: &Path) -> Exporter {
        let _ = fs::remove_dir_all(folder);
        fs::create_dir_all(folder).unwrap();
        let (path, owner) = (folder.join("0.store"), Identity { cluster: [1; 32], replica: 0 });
        Store::create(&path, &owner, 0, "", &Vec::new(), None).unwrap();
        let mut store = Store::open(&path, &owner).unwrap();
        let (keys, mut digest) = (Vec::new(), [0; 32]);
        for session in 0..2 {
            digest = chain(&digest, &[]);
            let ended = Ended {
                session,
                first: session as usize,
                batches: &[Vec::new()],
                digest,
                carried: &[],
                setting: "",
                keys: &keys,
                is_closed: true,
            };
            store.end(&ended).unwrap();
            fs::write(folder.join(format!("0-{session}.log")), "a log").unwrap();
        }
        fs::write(folder.join("0-1.account"), "an account").unwrap();
        Exporter {
            config: folder.join("none.toml"),
            reader: Reader::open(&path, &owner).unwrap(),
            logs: SessionLogs::new(folder.to_path_buf(), 0, false),
            keeping: Keeping { logs: false, accounts: 3 },
        }
    }

    #[test]
    fn a_log_that_cant_be_exported_keeps_no_other_one() {
        let folder = std::env::temp_dir().join(format!("themisd-exporter-{}", std::process::id()));
        let exporter = exporter(&folder);
        let failure = exporter.export_all().unwrap_err();
        assert!(failure.text.contains("0-0.account"), "{failure}");
        assert_eq!(exporter.logs.sessions().unwrap(), [0]);
        assert_eq!(exporter.logs.accounts().unwrap(), [1]);
        fs::remove_dir_all(folder).unwrap();
    }
}
