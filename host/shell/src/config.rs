//! Configurations, in TOML: one file that all replicas share, and one for each replica, as
//! `service.cluster make` writes them. Paths are relative to the file that names them.

mod cluster;
mod files;
mod hex;
mod own;

use std::net::SocketAddr;
use std::path::{Path, PathBuf};

use sha2::{Digest, Sha256};
use themis::Role;
use themis_engine::setting::{Options, PaceOptions, Place};
use themis_engine::tx::{self, Tx};

use crate::exit::Failure;
pub use cluster::{address_of, height_of, Cluster, Transport};
use files::bad;
pub use files::{folder_of, read_toml, secret_of};
pub use hex::{hex, unhex};
pub use own::Config;

use crate::seal_threads::MAX_THREADS;

/// A replica's configuration with that of its cluster, checked.
#[derive(Debug)]
pub struct Setup {
    /// The replica's own.
    pub config: Config,
    /// What all share.
    pub cluster: Cluster,
    /// The file of the replica's own.
    pub path: PathBuf,
    /// The file that all share.
    pub shared: PathBuf,
    /// Where paths start.
    pub folder: PathBuf,
    /// Where replicas listen for peers.
    pub peers: Vec<SocketAddr>,
    /// Where replicas listen for clients.
    pub clients: Vec<SocketAddr>,
    /// By replica.
    pub public_keys: Vec<[u8; 60]>,
}

impl Setup {
    /// Reads both files, and checks them.
    pub fn load(path: &Path) -> Result<Setup, Failure> {
        Setup::with(read_toml(path)?, path)
    }

    /// With a configuration that is, or will be, in this file. Reads what all share.
    pub fn with(config: Config, path: &Path) -> Result<Setup, Failure> {
        let folder = folder_of(path).to_path_buf();
        let shared = folder.join(&config.cluster_file);
        let cluster: Cluster = read_toml(&shared)?;
        if config.replica >= cluster.n {
            return Err(bad(path, format!("no replica {} of {}", config.replica, cluster.n)));
        }
        cluster.check().map_err(|it| bad(&shared, it))?;
        let addresses = |texts: &[String]| {
            let parsed = texts.iter().map(|it| address_of(it).ok_or_else(|| it.clone()));
            let parsed = parsed.collect::<Result<Vec<SocketAddr>, String>>();
            parsed.map_err(|it| bad(&shared, format!("no address: {it}")))
        };
        let keys = cluster.keys();
        let public_keys = keys.ok_or_else(|| bad(&shared, "a public key has 60 bytes"))?;
        let (peers, clients) = (addresses(&cluster.peers)?, addresses(&cluster.clients)?);
        let path = path.to_path_buf();
        Ok(Setup { config, cluster, path, shared, folder, peers, clients, public_keys })
    }

    /// This replica.
    pub fn me(&self) -> u32 {
        self.config.replica
    }

    /// The replica's place.
    pub fn place(&self) -> Place {
        let it = &self.cluster;
        Place { me: self.me(), n: it.n, f: it.f, views: it.views }
    }

    /// What the operator chose.
    pub fn options(&self) -> Options {
        let it = &self.config;
        let pace = PaceOptions {
            floor: it.view_floor,
            idle_floor: it.idle_view_floor,
            ..PaceOptions::default()
        };
        Options {
            timeout: it.timeout,
            max_timeout: it.max_timeout,
            interval: it.interval,
            hold: it.hold,
            share_after: it.share_after,
            max_waiting: it.max_waiting,
            max_of_client: it.max_of_client,
            hold_asks: it.hold_asks,
            log_receipts: it.log_receipts,
            fetch_rate: it.fetch_rate,
            pace,
            last_session: it.last_session,
        }
    }

    /// How many threads check seals: by default one for each processor but the engine's, at most 3.
    pub fn seal_threads(&self) -> usize {
        let others = || std::thread::available_parallelism().map_or(0, |all| all.get() - 1);
        self.config.seal_threads.unwrap_or_else(others).min(MAX_THREADS)
    }

    /// What the library is told about the replica.
    pub fn role(&self) -> Result<Role, Failure> {
        self.cluster.role(self.me())
    }

    /// The file of the log.
    pub fn log_path(&self) -> PathBuf {
        self.folder.join(&self.config.log)
    }

    /// The operator's socket.
    pub fn operator_path(&self) -> PathBuf {
        self.folder.join(format!("{}.sock", self.me()))
    }

    /// The file of what was received and heard, where a test wants it.
    pub fn receipts_path(&self) -> Option<PathBuf> {
        let name = format!("{}.receipts", self.me());
        self.config.log_receipts.then(|| self.folder.join(name))
    }

    /// The replica's secret.
    pub fn secret(&self) -> Result<[u8; 48], Failure> {
        secret_of(&self.folder.join(&self.config.secret_file))
    }

    /// The 32 bytes of the secret file where sessions follow one another.
    pub fn master(&self) -> Result<[u8; 32], Failure> {
        secret_of(&self.folder.join(&self.config.secret_file))
    }

    /// What all replicas share, but for keys, on one line.
    pub fn setting_line(&self) -> String {
        let it = &self.cluster;
        let (n, f, p, q, views, height) = (it.n, it.f, it.p, it.q, it.views, it.height);
        format!("n={n} f={f} p={p} q={q} views={views} height={height}")
    }

    /// Names the cluster: peers with another digest are refused.
    pub fn cluster_digest(&self) -> [u8; 32] {
        let it = &self.cluster;
        let keys: Vec<_> = it.publics.iter().map(|key| format!("\"{key}\"")).collect();
        let after = it.after.as_ref().map_or_else(String::new, |it| format!(", {}", it.named()));
        let text = format!(
            "[{}, {}, {}, {}, {}, {}, {}, [{}]{after}]",
            it.session,
            it.n,
            it.f,
            it.p,
            it.q,
            it.views,
            it.height,
            keys.join(", "),
        );
        Sha256::digest(text.as_bytes()).into()
    }

    /// What was not final in the session before, in the order in which it arrived here.
    pub fn carried_over(&self) -> Result<Vec<Tx>, Failure> {
        self.txs(&self.config.carried)
    }

    /// What was final in an earlier session.
    pub fn settled_before(&self) -> Result<Vec<Tx>, Failure> {
        self.txs(&self.config.settled)
    }

    /// The transactions of a file, which the first session does not have.
    fn txs(&self, name: &str) -> Result<Vec<Tx>, Failure> {
        if self.cluster.session == 1 || name.is_empty() {
            return Ok(Vec::new());
        }
        let path = self.folder.join(name);
        let text = std::fs::read_to_string(&path).map_err(|it| match it.kind() {
            std::io::ErrorKind::NotFound => bad(&path, "it is missing: `cluster next` writes it"),
            _ => bad(&path, it),
        })?;
        let read = |it| tx::parse(it).ok_or_else(|| bad(&path, format!("no transaction: {it}")));
        text.split_whitespace().map(read).collect()
    }
}
