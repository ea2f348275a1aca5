//! The operator's socket: a Unix socket next to the replica's configuration, which only the user
//! that runs the replica can open. No client can reach it, and none can keep an operator from it.
//!
//! ```text
//! status              one line of JSON
//! close [SESSION]     has this session end, or the one that the status names; answers ok, or bad CAUSE
//! fault ..            for tests: makes a fault; answers ok, or bad CAUSE
//! ```

use std::io::{BufRead, BufReader, Write};
use std::os::unix::fs::PermissionsExt;
use std::os::unix::net::UnixStream;
use std::path::Path;
use std::sync::Arc;
use std::time::Duration;
use std::{fs, io};

use serde_json::Value;
use socket2::{Domain, SockAddr, Socket, Type};
use tokio::io::{AsyncBufReadExt, AsyncReadExt, AsyncWriteExt};
use tokio::net::UnixListener;
use tokio::sync::{oneshot, Semaphore};
use tokio::time::{sleep, timeout};

use crate::config::Setup;
use crate::exit::{Exit, Failure};
use crate::input::{Inbox, Request};

/// Connections; one more waits.
const MAX_OPERATORS: usize = 8;
const MAX_LINE: u64 = 1 << 10;
const IDLE_AFTER: Duration = Duration::from_secs(60);
const RETRY_AFTER: Duration = Duration::from_millis(500);
/// An engine that opens a log, or waits for a disk, answers late.
const ANSWER_WITHIN: Duration = Duration::from_secs(30);

/// Serves the operator of one replica.
pub struct OperatorPort {
    inbox: Inbox,
    allows_faults: bool,
}

impl OperatorPort {
    /// A port that takes orders for faults where tests allow them.
    pub fn new(inbox: Inbox, allows_faults: bool) -> Arc<OperatorPort> {
        Arc::new(OperatorPort { inbox, allows_faults })
    }

    /// Opens the socket, in the place of one that an ended process left.
    pub fn bind(path: &Path) -> Result<UnixListener, Failure> {
        let fault =
            |it: io::Error| Failure::new(Exit::Network, format!("{}: {it}", path.display()));
        match fs::remove_file(path) {
            Err(it) if it.kind() != io::ErrorKind::NotFound => return Err(fault(it)),
            _ => {}
        }
        listen(path).map_err(fault)
    }

    /// Takes connections, for ever.
    pub async fn run(self: Arc<OperatorPort>, listener: UnixListener) {
        let room = Arc::new(Semaphore::new(MAX_OPERATORS));
        loop {
            // The room is never closed.
            let Ok(place) = room.clone().acquire_owned().await else { return };
            match listener.accept().await {
                Ok((stream, _)) => {
                    let port = self.clone();
                    tokio::spawn(async move {
                        if let Err(cause) = port.serve(stream).await {
                            tracing::debug!(%cause, "operator gone");
                        }
                        drop(place);
                    });
                }
                Err(fault) => {
                    tracing::warn!(cause = %fault, "no connection of an operator taken");
                    sleep(RETRY_AFTER).await;
                }
            }
        }
    }

    async fn serve(&self, stream: tokio::net::UnixStream) -> io::Result<()> {
        let (reader, mut writer) = tokio::io::split(stream);
        let mut reader = tokio::io::BufReader::new(reader);
        loop {
            let mut line = String::new();
            let mut bounded = (&mut reader).take(MAX_LINE);
            timeout(IDLE_AFTER, bounded.read_line(&mut line)).await??;
            if !line.ends_with('\n') {
                return Ok(());
            }
            let words: Vec<&str> = line.split_ascii_whitespace().collect();
            let answer = self.answer(&words).await?;
            timeout(IDLE_AFTER, writer.write_all(format!("{answer}\n").as_bytes())).await??;
        }
    }

    async fn answer(&self, words: &[&str]) -> io::Result<String> {
        Ok(match words {
            ["status"] => self.inbox.ask(Request::Status).await?,
            ["close"] => self.close(None).await?,
            ["close", session] => match session.parse() {
                Ok(session) => self.close(Some(session)).await?,
                Err(_) => "bad no session".to_owned(),
            },
            ["fault", words @ ..] if self.allows_faults => {
                let words = words.iter().map(|it| (*it).to_owned()).collect();
                let order = |answer: oneshot::Sender<bool>| Request::Fault { words, answer };
                let is_known = self.inbox.ask(order).await?;
                if is_known { "ok" } else { "bad no such fault" }.to_owned()
            }
            _ => "bad no such command".to_owned(),
        })
    }

    async fn close(&self, session: Option<u32>) -> io::Result<String> {
        let ended = self.inbox.ask(|answer| Request::Close { session, answer }).await?;
        Ok(ended.map_or_else(|cause| format!("bad {cause}"), |()| "ok".to_owned()))
    }
}

/// A socket that the owner alone may use. Nobody can connect before it listens, so nobody gets in
/// before its mode is set.
fn listen(path: &Path) -> io::Result<UnixListener> {
    let socket = Socket::new(Domain::UNIX, Type::STREAM, None)?;
    socket.bind(&SockAddr::unix(path)?)?;
    fs::set_permissions(path, fs::Permissions::from_mode(0o600))?;
    socket.listen(i32::try_from(MAX_OPERATORS).unwrap_or(1))?;
    socket.set_nonblocking(true)?;
    UnixListener::from_std(socket.into())
}

// ---- the other end

/// The command `status`.
pub fn print_status(config: &Path) -> Result<(), Failure> {
    let line = ask(config, "status")?;
    println!("{line}");
    let status: Value = serde_json::from_str(&line).unwrap_or(Value::Null);
    match status.get("fault") {
        Some(Value::Null) => Ok(()),
        fault => {
            let cause = fault.and_then(Value::as_str).unwrap_or("its answer is no status");
            Err(Failure::new(Exit::Unhealthy, format!("not healthy: {cause}")))
        }
    }
}

/// The command `close`. It names the session, since another one may run once the order arrives.
pub fn close(config: &Path) -> Result<(), Failure> {
    let status: Value = serde_json::from_str(&ask(config, "status")?).unwrap_or(Value::Null);
    let session = status.get("session").and_then(Value::as_u64);
    let session = session.ok_or_else(|| Failure::new(Exit::Fault, "its answer is no status"))?;
    let answer = ask(config, &format!("close {session}"))?;
    match answer.strip_prefix("bad ") {
        None => {
            println!("{answer}");
            Ok(())
        }
        Some(cause) => Err(Failure::new(Exit::Usage, cause)),
    }
}

/// The answer of a running replica to one line.
fn ask(config: &Path, line: &str) -> Result<String, Failure> {
    let path = Setup::load(config)?.operator_path();
    let answer = ask_at(&path, line);
    answer.map_err(|it| {
        let text = format!("{}: the replica does not answer: {it}", path.display());
        Failure::new(Exit::Network, text)
    })
}

fn ask_at(path: &Path, line: &str) -> io::Result<String> {
    let mut stream = UnixStream::connect(path)?;
    stream.set_read_timeout(Some(ANSWER_WITHIN))?;
    stream.set_write_timeout(Some(ANSWER_WITHIN))?;
    stream.write_all(format!("{line}\n").as_bytes())?;
    let mut answer = String::new();
    BufReader::new(stream).read_line(&mut answer)?;
    if answer.ends_with('\n') {
        Ok(answer.trim_end().to_owned())
    } else {
        Err(io::ErrorKind::UnexpectedEof.into())
    }
}

#[cfg(test)]
mod tests {
    use super::*;

    /// A port over an engine that answers with a fixed status and counts what closes it.
    fn served(name: &str, allows_faults: bool) -> std::path::PathBuf {
        let path = std::env::temp_dir().join(format!("themisd-{}-{name}", std::process::id()));
        let (inbox, receiver) = Inbox::new();
        std::thread::spawn(move || {
            for request in receiver {
                let is_heard = match request {
                    Request::Status(answer) => answer.send("{\"fault\":null}".to_owned()).is_ok(),
                    Request::Close { session: None | Some(4), answer } => {
                        answer.send(Ok(())).is_ok()
                    }
                    Request::Close { answer, .. } => answer.send(Err("why".to_owned())).is_ok(),
                    Request::Fault { words, answer } => answer.send(words == ["heal"]).is_ok(),
                    _ => panic!("no operator asks that"),
                };
                assert!(is_heard);
            }
        });
        let port = OperatorPort::new(inbox, allows_faults);
        let at = path.clone();
        let (sender, opened) = std::sync::mpsc::channel();
        std::thread::spawn(move || {
            let runtime = tokio::runtime::Builder::new_current_thread().enable_all().build();
            runtime.unwrap().block_on(async {
                let listener = OperatorPort::bind(&at).unwrap();
                sender.send(()).unwrap();
                port.run(listener).await;
            });
        });
        opened.recv().unwrap();
        path
    }

    #[test]
    fn what_an_operator_may_ask() {
        let path = served("operator", false);
        assert_eq!(fs::metadata(&path).unwrap().permissions().mode() & 0o777, 0o600);
        assert_eq!(ask_at(&path, "status").unwrap(), "{\"fault\":null}");
        assert_eq!(ask_at(&path, "close").unwrap(), "ok");
        assert_eq!(ask_at(&path, "close 4").unwrap(), "ok");
        assert_eq!(ask_at(&path, "close 5").unwrap(), "bad why");
        for session in ["", "x", "-1", "4294967296", "4 5"] {
            let answer = ask_at(&path, &format!("close {session}")).unwrap();
            assert!(session.is_empty() || answer.starts_with("bad no s"), "{session}: {answer}");
        }
        // Faults are for tests, and clients' commands are not for operators.
        for line in ["fault heal", "submit 1.1.0", "follow 0", ""] {
            assert_eq!(ask_at(&path, line).unwrap(), "bad no such command");
        }
        assert!(ask_at(&path, &"x".repeat(2000)).is_err());
        fs::remove_file(path).unwrap();
    }

    #[test]
    fn faults_where_tests_allow_them_and_a_socket_that_was_left() {
        let path = served("faults", true);
        assert_eq!(ask_at(&path, "fault heal").unwrap(), "ok");
        assert_eq!(ask_at(&path, "fault any").unwrap(), "bad no such fault");
        // A second process has no lock on the log, so it does not come as far as this; a start after
        // a crash does.
        let again = served("faults", true);
        assert_eq!(ask_at(&again, "fault heal").unwrap(), "ok");
        fs::remove_file(path).unwrap();
        assert!(ask_at(&again, "status").is_err());
    }
}
