//! Clusters of processes, mostly five: `themisd` itself, as `init` and `join` make it, its logs and its
//! store.

#![allow(dead_code)] // no test needs all of it

use std::collections::BTreeSet;
use std::fs;
use std::io::{BufRead, BufReader, Read, Write};
use std::net::{TcpListener, TcpStream};
use std::os::unix::net::UnixStream;
use std::path::{Path, PathBuf};
use std::process::{Child, ChildStdin, ChildStdout, Command, Stdio};
use std::sync::atomic::{AtomicU32, Ordering};
use std::time::{Duration, Instant};

pub const REPLICAS: usize = 5;
/// Nothing here depends on how long something takes, unless it hangs.
pub const WITHIN: Duration = Duration::from_secs(1800);
/// An account is made by a process that lets all others go first.
pub const ACCOUNT_WITHIN: Duration = Duration::from_secs(1800);
pub const PAUSE: Duration = Duration::from_millis(50);
/// In the status of a replica that runs a session, and of one without part in it.
pub const RUNNING: &str = "\"stage\":\"running\"";
pub const OUT: &str = "\"stage\":\"out\"";

/// A cluster on loopback, and its folder.
pub struct Cluster {
    pub folder: PathBuf,
    pub clients: Vec<String>,
    pub processes: Vec<Option<Child>>,
}

impl Drop for Cluster {
    fn drop(&mut self) {
        (0..self.count()).for_each(|it| self.kill(it));
        let _ = fs::remove_dir_all(&self.folder);
    }
}

/// Addresses that nothing listens at. Their ports are below those that connections take by
/// themselves: a peer that looks for a replica which is down could take its port.
pub fn free_addresses(count: usize) -> Vec<String> {
    static NEXT: AtomicU32 = AtomicU32::new(0);
    let first = std::process::id().wrapping_mul(97);
    let drawn = || 20_000 + first.wrapping_add(NEXT.fetch_add(1, Ordering::Relaxed)) % 12_000;
    let free = |_| TcpListener::bind(format!("127.0.0.1:{}", drawn())).ok();
    let all: Vec<_> = (0..12_000).filter_map(free).take(count).collect();
    assert_eq!(all.len(), count, "no ports are free");
    all.iter().map(|it| it.local_addr().unwrap().to_string()).collect()
}

/// Runs `themisd` with these words; it has to end well.
pub fn themisd(words: &[&str]) {
    let done = Command::new(env!("CARGO_BIN_EXE_themisd")).args(words).output().unwrap();
    assert!(done.status.success(), "{words:?}: {}", String::from_utf8_lossy(&done.stderr));
}

impl Cluster {
    /// Without TLS.
    pub fn new(name: &str) -> Cluster {
        Cluster::with(name, &["--plain"])
    }

    /// As `init` and `join` make it, with these more words for `join`. Each replica has a folder of
    /// its own.
    pub fn with(name: &str, more: &[&str]) -> Cluster {
        let cluster = Cluster::init(name, REPLICAS, &["--height", "505"]);
        for it in 0..REPLICAS {
            cluster.join(it, &[&["--f", "1", "--views", "200"], more].concat());
        }
        cluster
    }

    /// That many replicas, as `init` makes them.
    pub fn init(name: &str, count: usize, more: &[&str]) -> Cluster {
        let folder = std::env::temp_dir().join(format!("themisd-{name}-{}", std::process::id()));
        let addresses = free_addresses(2 * count);
        let (peers, clients) = addresses.split_at(count);
        let processes = (0..count).map(|_| None).collect();
        let cluster = Cluster { folder, clients: clients.to_vec(), processes };
        for (it, (peer, client)) in peers.iter().zip(clients).enumerate() {
            let (at, it) = (cluster.file(it, ""), it.to_string());
            let words = ["init", at.to_str().unwrap(), "--replica", &it];
            themisd(&[&words[..], &["--peer", peer, "--client", client], more].concat());
        }
        cluster
    }

    /// Makes the rest of a replica, in which a test may make faults.
    pub fn join(&self, replica: usize, more: &[&str]) {
        let part = |it: usize| self.file(it, &format!("{it}.public.toml"));
        let parts: Vec<_> = (0..self.count()).map(part).collect();
        let parts: Vec<_> = parts.iter().map(|it| it.to_str().unwrap()).collect();
        let (at, number) = (self.file(replica, ""), replica.to_string());
        let words = ["join", at.to_str().unwrap(), "--replica", &number];
        themisd(&[&words[..], more, &parts].concat());
        self.configure(replica, "allow_faults = true");
    }

    /// Adds a line to the configuration of a replica.
    pub fn configure(&self, replica: usize, line: &str) {
        let config = self.file(replica, &format!("{replica}.toml"));
        let mut config = fs::File::options().append(true).open(config).unwrap();
        writeln!(config, "{line}").unwrap();
    }

    pub fn count(&self) -> usize {
        self.clients.len()
    }

    /// A file in a replica's folder.
    pub fn file(&self, replica: usize, name: &str) -> PathBuf {
        self.folder.join(replica.to_string()).join(name)
    }

    /// Replica 0 is started in its folder, by the bare name of its configuration.
    pub fn command(&self, replica: usize) -> Command {
        let mut command = Command::new(env!("CARGO_BIN_EXE_themisd"));
        let path = self.file(replica, "out");
        let out = fs::File::options().append(true).create(true).open(path).unwrap();
        let (folder, name) = (self.file(replica, ""), format!("{replica}.toml"));
        if replica == 0 {
            command.current_dir(folder).arg("run").arg(name);
        } else {
            command.arg("run").arg(folder.join(name));
        }
        command.stderr(out).stdin(Stdio::null());
        command
    }

    pub fn start(&mut self, replica: usize) {
        self.processes[replica] = Some(self.command(replica).spawn().unwrap());
    }

    pub fn start_all(&mut self) {
        (0..self.count()).for_each(|it| self.start(it));
    }

    /// Has all operators end a session.
    pub fn close_all(&self, session: u32) {
        (0..self.count()).for_each(|it| self.close(it, session));
    }

    /// Has an operator end a session. One that has ended by itself meanwhile, or in which the replica has
    /// no part, is as good.
    fn close(&self, replica: usize, session: u32) {
        let until = Instant::now() + WITHIN;
        loop {
            let answer = self.order(replica, &format!("close {session}"));
            if !answer.ends_with("does not run yet") {
                let is_over = answer.ends_with("has ended") || answer.contains("has no part");
                assert!(answer == "ok" || is_over, "{answer}");
                return;
            }
            assert!(Instant::now() < until, "{answer}");
            std::thread::sleep(PAUSE);
        }
    }

    pub fn has_log(&self, replica: usize, session: u32) -> bool {
        self.file(replica, &format!("{replica}-{session}.log")).exists()
    }

    pub fn kill(&mut self, replica: usize) {
        if let Some(mut process) = self.processes[replica].take() {
            process.kill().unwrap();
            process.wait().unwrap();
        }
    }

    /// Waits until a replica has died by itself.
    pub fn wait_for_death(&mut self, replica: usize) {
        let process = self.processes[replica].as_mut().unwrap();
        let until = Instant::now() + WITHIN;
        while process.try_wait().unwrap().is_none() {
            assert!(Instant::now() < until, "replica {replica} lives");
            std::thread::sleep(PAUSE);
        }
        self.processes[replica] = None;
    }

    /// How a start ends that is refused.
    pub fn refusal(&self, replica: usize) -> Option<i32> {
        self.command(replica).status().unwrap().code()
    }

    /// The answer to a client's line.
    pub fn ask(&self, replica: usize, line: &str) -> String {
        answer_of(replica, || ask(TcpStream::connect(&self.clients[replica]).ok()?, line))
    }

    /// The answer to an operator's line.
    pub fn order(&self, replica: usize, line: &str) -> String {
        let path = self.file(replica, &format!("{replica}.sock"));
        answer_of(replica, || {
            let stream = UnixStream::connect(&path).ok()?;
            stream.set_read_timeout(Some(WITHIN)).ok()?;
            ask(stream, line)
        })
    }

    pub fn submit(&self, number: u32) {
        let line = format!("submit 7.{number}.{}", number * 3);
        for replica in (0..self.count()).filter(|it| self.processes[*it].is_some()) {
            let answer = self.ask(replica, &line);
            assert_taken(&answer);
        }
    }

    /// Waits until a replica's status has what is wanted.
    pub fn wait_for(&self, replica: usize, what: &str) {
        self.wait_until(replica, what, |it| it.contains(what));
    }

    /// Waits until a replica is in this session, or a later one: sessions also end by themselves.
    pub fn wait_for_session(&self, replica: usize, session: u32) {
        self.wait_until(replica, "later session", |it| session_of(it) >= session);
    }

    /// The session in which a replica is.
    pub fn session(&self, replica: usize) -> u32 {
        session_of(&self.order(replica, "status"))
    }

    /// The status of a replica, once it is as wanted.
    pub fn wait_until(&self, replica: usize, what: &str, fits: impl Fn(&str) -> bool) -> String {
        let until = Instant::now() + WITHIN;
        loop {
            let status = self.order(replica, "status");
            if fits(&status) {
                return status;
            }
            assert!(Instant::now() < until, "replica {replica} has no {what}: {status}");
            std::thread::sleep(PAUSE);
        }
    }

    /// Waits until a replica that was out runs in a session after this one, and returns that. Sessions
    /// end for it by themselves after a minute; that of the start, and the next, are closed here.
    pub fn run_again(&self, replica: usize, after: u32) -> u32 {
        let others = (replica + 1) % self.count();
        let is_level = |it: &str| session_of(it) >= session_of(&self.order(others, "status"));
        for _ in 0..2 {
            let is_known = |it: &str| it.contains(RUNNING) || it.contains(OUT) && is_level(it);
            let status = self.wait_until(replica, "part or none", is_known);
            if status.contains(OUT) {
                let session = session_of(&status);
                self.close_all(session);
                self.wait_until(replica, "later session", |it| session_of(it) > session);
            }
        }
        let runs = |it: &str| it.contains(RUNNING) && session_of(it) > after;
        session_of(&self.wait_until(replica, RUNNING, runs))
    }

    /// The list of a replica from a position on, until it holds all of these transactions.
    pub fn follow(&self, replica: usize, from: usize, mut wanted: BTreeSet<String>) -> Vec<String> {
        let mut stream = TcpStream::connect(&self.clients[replica]).unwrap();
        stream.set_read_timeout(Some(WITHIN)).unwrap();
        writeln!(stream, "follow {from}").unwrap();
        let mut lines = Vec::new();
        for line in BufReader::new(stream).lines() {
            let line = line.unwrap();
            line.split(' ').for_each(|it| {
                wanted.remove(it);
            });
            lines.push(line);
            if wanted.is_empty() {
                return lines;
            }
        }
        panic!("replica {replica} ends the list without {wanted:?}")
    }
}

/// A transaction of client 7 was taken, or is final already, where others were quicker.
pub fn assert_taken(answer: &str) {
    assert!(answer.starts_with("ok") || answer.starts_with("bad 7."), "{answer}");
}

/// An answer, once there is one.
fn answer_of(replica: usize, ask: impl Fn() -> Option<String>) -> String {
    let until = Instant::now() + WITHIN;
    loop {
        if let Some(answer) = ask() {
            return answer;
        }
        assert!(Instant::now() < until, "replica {replica} does not answer");
        std::thread::sleep(PAUSE);
    }
}

pub fn ask(mut stream: impl Read + Write, line: &str) -> Option<String> {
    writeln!(stream, "{line}").ok()?;
    let mut answer = String::new();
    BufReader::new(stream).read_line(&mut answer).ok()?;
    answer.ends_with('\n').then(|| answer.trim().to_owned())
}

/// The session of a status.
pub fn session_of(status: &str) -> u32 {
    let rest = status.split("\"session\":").nth(1).expect(status);
    rest.split(',').next().and_then(|it| it.parse().ok()).expect(status)
}

pub fn texts(numbers: std::ops::RangeInclusive<u32>) -> BTreeSet<String> {
    numbers.map(|it| format!("7.{it}.{}", it * 3)).collect()
}

/// The transactions of lines, in their order. The lines have these positions.
pub fn txs_of(lines: &[String], from: usize) -> Vec<String> {
    let mut txs = Vec::new();
    for (position, line) in (from..).zip(lines) {
        let rest = line.strip_prefix(&format!("batch {position}")).expect(line);
        txs.extend(rest.split_whitespace().map(str::to_owned));
    }
    txs
}

// ---- TLS

/// Runs `openssl` with these words in a folder.
pub fn openssl(folder: &Path, words: &str) {
    let mut command = Command::new("openssl");
    let done = command.args(words.split(' ')).current_dir(folder).output().unwrap();
    assert!(done.status.success(), "{words}: {}", String::from_utf8_lossy(&done.stderr));
}

/// An authority of clients, and what it signed for client 7, as docs/SERVICE.md has it.
pub fn make_authority(folder: &Path) {
    const KEY: &str = "-newkey ec -pkeyopt ec_paramgen_curve:P-256 -nodes";
    fs::create_dir_all(folder).unwrap();
    let own = "-addext keyUsage=critical,keyCertSign -keyout authority.tls.key -out authority.crt";
    openssl(folder, &format!("req -x509 {KEY} -days 3650 -subj /CN=authority {own}"));
    let use_of = "-addext extendedKeyUsage=clientAuth -keyout 7.tls.key -out 7.csr";
    openssl(folder, &format!("req -new {KEY} -subj /CN=7 {use_of}"));
    let by = "-CA authority.crt -CAkey authority.tls.key -days 365 -out 7.crt";
    openssl(folder, &format!("x509 -req -in 7.csr -copy_extensions copyall {by}"));
}

/// A connection of a client over TLS: `openssl s_client`.
pub struct TlsClient {
    pub process: Child,
    pub to: ChildStdin,
    pub from: BufReader<ChildStdout>,
}

impl TlsClient {
    /// To a replica, whose own certificate it demands. It shows a certificate where `is_known`.
    pub fn connect(
        cluster: &Cluster,
        authority: &Path,
        replica: usize,
        is_known: bool,
    ) -> TlsClient {
        let mut command = Command::new("openssl");
        command.args(["s_client", "-quiet", "-verify_return_error", "-tls1_3", "-connect"]);
        command.arg(&cluster.clients[replica]).arg("-CAfile");
        command.arg(cluster.file(replica, &format!("{replica}.crt")));
        if is_known {
            command.args(["-cert", "7.crt", "-key", "7.tls.key"]);
        }
        command.current_dir(authority).stderr(Stdio::null());
        let mut process = command.stdin(Stdio::piped()).stdout(Stdio::piped()).spawn().unwrap();
        let (to, from) = (process.stdin.take().unwrap(), process.stdout.take().unwrap());
        TlsClient { process, to, from: BufReader::new(from) }
    }

    /// The answer to a line; none where the connection has ended.
    pub fn ask(&mut self, line: &str) -> Option<String> {
        writeln!(self.to, "{line}").ok()?;
        self.line()
    }

    pub fn line(&mut self) -> Option<String> {
        let mut line = String::new();
        self.from.read_line(&mut line).ok()?;
        line.ends_with('\n').then(|| line.trim().to_owned())
    }

    /// The list from its first batch on, until it holds all of these.
    pub fn follow(&mut self, wanted: BTreeSet<String>) -> Vec<String> {
        writeln!(self.to, "follow 0").unwrap();
        self.until(wanted)
    }

    /// Lines of a follower, until they hold all of these.
    pub fn until(&mut self, mut wanted: BTreeSet<String>) -> Vec<String> {
        let mut lines = Vec::new();
        while !wanted.is_empty() {
            let line = self.line().expect("the list goes on");
            line.split(' ').for_each(|it| {
                wanted.remove(it);
            });
            lines.push(line);
        }
        lines
    }
}

impl Drop for TlsClient {
    fn drop(&mut self) {
        let _ = (self.process.kill(), self.process.wait());
    }
}
