//! Threads that check the seals of a large message, before the engine's thread prepares it.
//!
//! Checking the seals of a proposal, one of its leader and two of each replica in its quorum, takes
//! most of the time in which it is prepared. Here each thread has a verifier of the library, which
//! checks its share of them, and the engine's thread checks a share too. The replica then takes what
//! they accepted, and does not check it again. It answers as it would without these threads.

use std::collections::VecDeque;
use std::sync::mpsc::{sync_channel, Receiver, SyncSender};
use std::thread::Builder;

use themis::{Error, Height, Replica, Role, Verifier};
use themis_engine::core::Delivered;
use themis_engine::wire::{kind_of, Kind};

/// With fewer seals the engine's thread is done before the others have begun.
const MIN_SEALS: usize = 4;
/// More threads gain nothing: the engine's thread has shares of its own.
pub const MAX_THREADS: usize = 3;
/// How many messages are remembered whose seals were checked: one may be foreseen, and then prepared.
const REMEMBERED: usize = 8;

/// A share of a message's seals, for a thread.
struct Job {
    verifier: Verifier,
    view: u32,
    message: Delivered,
    share: (u32, u32),
}

/// What hands shares to one thread. The thread ends with it.
struct Worker {
    jobs: SyncSender<Job>,
    done: Receiver<Verifier>,
    /// None while the thread checks a share.
    verifier: Option<Verifier>,
}

impl Worker {
    /// Starts a thread; none where the system refuses it.
    fn start(verifier: Verifier) -> Option<Worker> {
        let (jobs, to_check) = sync_channel(1);
        let (checked, done) = sync_channel(1);
        let thread = Builder::new().name("seals".to_owned());
        thread.spawn(move || check_each(&to_check, &checked)).ok()?;
        Some(Worker { jobs, done, verifier: Some(verifier) })
    }

    /// Hands a share to the thread; none where it is gone.
    fn hand(&mut self, view: u32, message: &Delivered, share: (u32, u32)) -> Option<()> {
        let verifier = self.verifier.take()?;
        let job = Job { verifier, view, message: message.clone(), share };
        self.jobs.send(job).ok()
    }

    /// Waits for the thread, and lets the replica take what it accepted; none where it is gone.
    fn join(&mut self, replica: &mut Replica) -> Option<()> {
        let verifier = self.verifier.insert(self.done.recv().ok()?);
        replica.take_verified(verifier).ok()
    }
}

/// What a thread does: it ends once the worker is dropped.
fn check_each(jobs: &Receiver<Job>, done: &SyncSender<Verifier>) {
    for Job { mut verifier, view, message, share } in jobs {
        let kept = verifier.verify(view, message.from, &message.data, share);
        if kept.is_err() || done.send(verifier).is_err() {
            return;
        }
    }
}

/// The threads of one replica, which may be none.
#[derive(Default)]
pub struct SealThreads {
    workers: Vec<Worker>,
    /// What checks the share of the engine's thread.
    own: Option<Verifier>,
    me: u32,
    /// The least size of a message with enough seals.
    min_size: usize,
    recent: VecDeque<Delivered>,
}

impl SealThreads {
    /// Starts that many threads for a replica with these keys, at most [`MAX_THREADS`].
    pub fn start(count: usize, role: &Role, keys: &[[u8; 60]]) -> Result<SealThreads, Error> {
        let mut workers = Vec::new();
        for _ in 0..count.min(MAX_THREADS) {
            if let Some(worker) = Worker::start(Verifier::new(role.height, keys)?) {
                workers.push(worker);
            } else {
                tracing::warn!("a thread that checks seals can't be started");
            }
        }
        let own = Some(Verifier::new(role.height, keys)?);
        let min_size = MIN_SEALS * seal_bytes(role.height);
        Ok(SealThreads { workers, own, me: role.me, min_size, recent: VecDeque::new() })
    }

    /// Whether the seals of a message are to be checked here. The replica itself knows those of what it
    /// sent.
    pub fn are_for(&self, message: &Delivered) -> bool {
        let kind = kind_of(&message.data);
        !self.workers.is_empty()
            && message.from != self.me
            && message.data.len() >= self.min_size
            && matches!(kind, Some(Kind::NewView | Kind::Ask | Kind::Propose | Kind::Give))
            && !self.recent.contains(message)
    }

    /// Checks the seals of a message, for a replica that then prepares or foresees it. A thread that is
    /// gone ends this for good.
    pub fn check(&mut self, replica: &mut Replica, message: &Delivered) -> Result<(), Error> {
        let (view, _) = replica.views()?;
        if self.check_shares(replica, view, message).is_none() {
            tracing::error!("a thread that checks seals is gone: seals are checked on one thread");
            self.workers.clear();
        }
        self.recent.truncate(REMEMBERED - 1);
        self.recent.push_front(message.clone());
        Ok(())
    }

    fn check_shares(
        &mut self,
        replica: &mut Replica,
        view: u32,
        message: &Delivered,
    ) -> Option<()> {
        let own = self.own.as_mut()?;
        let last = u32::try_from(self.workers.len()).ok()?;
        for (share, worker) in (0..).zip(&mut self.workers) {
            worker.hand(view, message, (share, last + 1))?;
        }
        own.verify(view, message.from, &message.data, (last, last + 1)).ok()?;
        replica.take_verified(own).ok()?;
        self.workers.iter_mut().try_for_each(|it| it.join(replica))
    }
}

/// The size of a seal, with that of its length.
fn seal_bytes(height: Height) -> usize {
    match height {
        Height::H5 => 2 + 2352,
        Height::H10 => 2 + 2512,
        Height::H5H5 => 2 + 4756,
        Height::H5H10 => 2 + 4916,
    }
}

#[cfg(test)]
#[path = "seal_threads_tests.rs"]
mod tests;
