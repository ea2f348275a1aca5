//! The configuration of one replica.

use std::time::Duration;

use serde::{Deserialize, Deserializer};
use themis_engine::setting::Options;

/// What one replica is given. Times are in seconds.
#[derive(Debug, Deserialize)]
#[serde(deny_unknown_fields, default)]
#[allow(clippy::struct_excessive_bools)] // as the file has them
pub struct Config {
    pub(super) replica: u32,
    pub(super) cluster_file: String,
    pub(super) secret_file: String,
    pub(super) log: String,
    /// The file of the private key.
    pub tls_key: String,
    pub(super) carried: String,
    pub(super) settled: String,
    #[serde(deserialize_with = "seconds")]
    pub(super) timeout: Duration,
    #[serde(deserialize_with = "seconds")]
    pub(super) max_timeout: Duration,
    #[serde(deserialize_with = "seconds")]
    pub(super) interval: Duration,
    pub(super) hold: bool,
    #[serde(deserialize_with = "seconds")]
    pub(super) share_after: Duration,
    pub(super) max_waiting: usize,
    pub(super) max_of_client: usize,
    pub(super) hold_asks: bool,
    pub(super) fetch_rate: f64,
    #[serde(deserialize_with = "seconds")]
    pub(super) view_floor: Duration,
    #[serde(deserialize_with = "seconds")]
    pub(super) idle_view_floor: Duration,
    /// Sessions follow one another without end. The secret file has a master secret then.
    pub sessions: bool,
    /// Then logs of sessions stay, once no replica needs them.
    pub keep_logs: bool,
    /// So many accounts of sessions whose logs do not stay.
    pub accounts: usize,
    /// No later session is opened: the operators end the cluster with this one.
    pub last_session: Option<u32>,
    /// How many threads check seals beside the engine's.
    pub(super) seal_threads: Option<usize>,
    /// Records are made durable.
    pub fsync: bool,
    /// The operator's socket takes the command `fault`.
    pub allow_faults: bool,
    /// What was received and heard goes to a file.
    pub(super) log_receipts: bool,
    /// What a faulty replica of a test does. The conduct takes or refuses it.
    pub deeds: Vec<String>,
}

impl Default for Config {
    fn default() -> Config {
        let options = Options::default();
        Config {
            replica: u32::MAX,
            cluster_file: String::new(),
            secret_file: String::new(),
            log: String::new(),
            tls_key: String::new(),
            carried: String::new(),
            settled: String::new(),
            timeout: options.timeout,
            max_timeout: options.max_timeout,
            interval: options.interval,
            hold: options.hold,
            share_after: options.share_after,
            max_waiting: options.max_waiting,
            max_of_client: options.max_of_client,
            hold_asks: options.hold_asks,
            fetch_rate: options.fetch_rate,
            view_floor: options.pace.floor,
            idle_view_floor: options.pace.idle_floor,
            sessions: false,
            keep_logs: false,
            accounts: 8,
            last_session: None,
            seal_threads: None,
            fsync: true,
            allow_faults: false,
            log_receipts: false,
            deeds: Vec::new(),
        }
    }
}

fn seconds<'de, D: Deserializer<'de>>(from: D) -> Result<Duration, D::Error> {
    let seconds = f64::deserialize(from)?;
    Duration::try_from_secs_f64(seconds).map_err(serde::de::Error::custom)
}
