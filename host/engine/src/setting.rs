//! What a replica is in its session, and what its operator chose.

use std::time::Duration;

/// A replica's place in its session.
#[derive(Clone, Copy, Debug)]
pub struct Place {
    /// This replica.
    pub me: u32,
    /// How many replicas there are.
    pub n: u32,
    /// How many of them may be faulty.
    pub f: u32,
    /// The last view of the session.
    pub views: u32,
}

impl Place {
    /// Two sets of that many replicas share an honest one.
    pub const fn quorum(&self) -> u32 {
        self.n - self.f
    }

    /// A block proposes what that many of its lists hold.
    pub const fn solid(&self) -> u32 {
        self.n - 2 * self.f
    }

    /// The replica that proposes the block of a view.
    pub const fn leader_of(&self, view: u32) -> u32 {
        view % self.n
    }

    /// The other replicas.
    pub fn others(&self) -> impl Iterator<Item = u32> {
        let me = self.me;
        (0..self.n).filter(move |it| *it != me)
    }
}

/// What an operator may choose; the defaults are those of `docs/SERVICE.md`.
#[derive(Clone, Copy, Debug)]
#[allow(clippy::struct_excessive_bools)] // as a configuration has them
pub struct Options {
    /// The least time without a new view before a tick.
    pub timeout: Duration,
    /// The greatest time before a tick.
    pub max_timeout: Duration,
    /// The least time between proposals of this replica.
    pub interval: Duration,
    /// Proposals are held back while no transaction waits.
    pub hold: bool,
    /// How often peers are told of the oldest receipts again.
    pub share_after: Duration,
    /// Transactions of the own clients that may wait here; above it clients are refused.
    pub max_waiting: usize,
    /// Of these, transactions of one client.
    pub max_of_client: usize,
    /// An Ask waits until f+1 replicas are in its view.
    pub hold_asks: bool,
    /// For tests: what was received and heard is put out.
    pub log_receipts: bool,
    /// Blocks a second that a peer may ask for.
    pub fetch_rate: f64,
    /// How fast views may follow one another.
    pub pace: PaceOptions,
    /// The last session that this replica opens, where its operator ends the cluster with it.
    pub last_session: Option<u32>,
}

/// How fast views may follow one another. Views are few, so a session in which little waits is
/// paced; a few views after a pause are never held back.
#[derive(Clone, Copy, Debug)]
pub struct PaceOptions {
    /// Between views while much waits, once the free ones are used.
    pub floor: Duration,
    /// Between views while little waits, once the free ones are used.
    pub idle_floor: Duration,
    /// As much waits when that many transactions wait.
    pub much: usize,
    /// Views in a row that are not held back.
    pub free: u32,
}

impl Default for PaceOptions {
    fn default() -> PaceOptions {
        PaceOptions {
            floor: Duration::from_millis(25),
            idle_floor: Duration::from_millis(100),
            much: 16,
            free: 12,
        }
    }
}

impl Default for Options {
    fn default() -> Options {
        Options {
            timeout: Duration::from_millis(300),
            max_timeout: Duration::from_secs(10),
            interval: Duration::ZERO,
            hold: true,
            share_after: Duration::from_millis(500),
            max_waiting: 16_000,
            max_of_client: 1000,
            hold_asks: true,
            log_receipts: false,
            fetch_rate: 100.0,
            pace: PaceOptions::default(),
            last_session: None,
        }
    }
}
