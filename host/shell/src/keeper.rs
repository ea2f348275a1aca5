//! The thread that keeps what outlives a session: it stores ends, makes and opens logs, and grows
//! keys. All of that takes a while, and the engine's thread goes on meanwhile.

use std::path::{Path, PathBuf};
use std::sync::mpsc::{self, Receiver, Sender};
use std::sync::Arc;
use std::thread::JoinHandle;

use themis::Height;
use themis_engine::sessions::doubles::{Search, Searched};
use themis_engine::sessions::frames::{fitting, End, MAX_PART};
use themis_engine::sessions::keys::{PublicKey, PublicKeys};
use themis_engine::sessions::requests::{
    Mark, Marked, OpenLog, Opened, Recover, Recovered, SatOut, SitOut, Store, Stored,
};
use themis_engine::sessions::secret::{secret_of, Master};
use themis_engine::sessions::{Found, Read};
use themis_store::{Ended, Identity, Reader};

use crate::conduct::Conduct;
use crate::cores::{Begun, Cores};
use crate::exit::{Exit, Failure};
use crate::input::{Inbox, Request};
use crate::log::EventLog;
use crate::recovery::{store_failure, store_path};
use crate::sys;

/// Batches of one answer to a peer, before their bytes are counted.
const MAX_READ: usize = 4096;

/// What the engine asks for.
#[derive(Debug)]
pub enum Job {
    /// Store how a session ended.
    Store(Store),
    /// Make a log, and its core.
    OpenLog(OpenLog),
    /// Make both ahead.
    OpenAhead(u32, PublicKeys),
    /// Mark a log as opened.
    Mark(Mark),
    /// Open a log that was marked.
    Recover(Recover),
    /// Store what is sat out.
    SitOut(SitOut),
    /// Read how a session ended.
    Read(Read),
    /// Search for transactions.
    Search(Search),
    /// A log is not opened again.
    Retired(u32),
    /// Make the own public key of a session.
    GrowKey(u32),
    /// A test wants the process to die at this step.
    DieAt(Step),
}

/// A step of a change of session.
#[derive(Clone, Copy, Debug, PartialEq, Eq)]
pub enum Step {
    /// It has ended, and nothing of that is durable.
    Ended,
    /// How it ended is durable.
    Stored,
    /// The next log is durable.
    Made,
    /// That log is marked.
    Marked,
}

impl Step {
    /// The step that a test names.
    pub fn of(name: &str) -> Option<Step> {
        match name {
            "ended" => Some(Step::Ended),
            "stored" => Some(Step::Stored),
            "made" => Some(Step::Made),
            "marked" => Some(Step::Marked),
            _ => None,
        }
    }
}

/// What was done. `C` is a core as the engine has it.
pub enum Done<C> {
    /// The end of a session is durable, up to this position.
    Stored(Stored, usize),
    /// A log is there, with a new core.
    Opened(u32, Opened<C>, Option<EventLog>),
    /// A log is marked.
    Marked(Marked),
    /// A log is open, or lost.
    Recovered(u32, Recovered<C>, Option<EventLog>),
    /// It is stored what is sat out.
    SatOut(SatOut),
    /// How a session ended.
    Found(Found),
    /// Which transactions are not final in any session that has ended.
    Searched(Searched),
    /// The own public key of a session.
    Key(u32, PublicKey),
    /// It can't be done, so the process ends.
    Failed(Failure),
}

/// What the thread works on.
pub struct Keeper<C: Conduct> {
    /// The file of the store.
    pub path: PathBuf,
    /// The store, for its one writer.
    pub store: themis_store::Store,
    /// The same store.
    pub reader: Reader,
    /// What opens its logs.
    pub cores: Cores<C>,
    /// Makes the log of the session that comes next ahead.
    pub ahead: Option<Ahead<C::Core>>,
    /// The thread that exports accounts of closed sessions.
    pub exporter: Sender<()>,
    /// What the store says of each session.
    pub setting: String,
    /// Where a test wants the process to die.
    pub dies_at: Option<Step>,
}

/// A second connection to the store of a replica.
pub fn reader(folder: &Path, owner: &Identity) -> Result<Reader, Failure> {
    let path = store_path(folder, owner.replica);
    Reader::open(&path, owner).map_err(|it| store_failure(&path, &it))
}

/// Takes what is to be done, and hands out what was done.
type Ends<C> = (Sender<Job>, Receiver<Done<C>>);

/// Where what was done goes: to the engine's thread, which is woken.
struct Answers<C> {
    done: Sender<Done<C>>,
    inbox: Inbox,
}

impl<C> Clone for Answers<C> {
    fn clone(&self) -> Answers<C> {
        Answers { done: self.done.clone(), inbox: self.inbox.clone() }
    }
}

impl<C> Answers<C> {
    fn put(&self, done: Done<C>) {
        // Where the engine has ended, so does the process.
        if self.done.send(done).is_ok() {
            self.inbox.put(Request::Done);
        }
    }
}

impl<C: Conduct> Keeper<C> {
    /// Works in a thread of its own, until nobody asks any more. The inbox wakes the engine.
    pub fn start(mut self, inbox: Inbox) -> Result<Ends<C::Core>, Failure> {
        let (sender, jobs) = mpsc::channel();
        let (done, receiver) = mpsc::channel();
        let answers = Answers { done, inbox };
        let work = move || {
            for job in jobs {
                // Within a change of session the next step comes first.
                let is_within = matches!(job, Job::Store(_) | Job::OpenLog(_));
                let done = self.perform(job, &answers).unwrap_or_else(|it| Some(Done::Failed(it)));
                done.into_iter().for_each(|it| answers.put(it));
                if !is_within {
                    self.store.move_wal();
                }
            }
        };
        in_thread("keeper", work)?;
        Ok((sender, receiver))
    }

    fn perform(
        &mut self,
        job: Job,
        answers: &Answers<C::Core>,
    ) -> Result<Option<Done<C::Core>>, Failure> {
        Ok(match job {
            Job::Store(it) => {
                self.reach(Step::Ended);
                let done = self.store_end(it)?;
                self.reach(Step::Stored);
                Some(done)
            }
            Job::OpenLog(it) => {
                let session = it.session();
                let ahead = self.ahead.take().map(begun).transpose()?;
                let (opened, log) = self.cores.make(it, ahead.flatten())?;
                self.reach(Step::Made);
                Some(Done::Opened(session, opened, log))
            }
            Job::OpenAhead(session, keys) => {
                let cores = self.cores.clone();
                self.ahead = Some(in_thread("ahead", move || cores.begin(session, &keys))?);
                None
            }
            Job::Mark(it) => {
                self.store.mark_opened(it.session()).map_err(|it| self.failure(&it))?;
                self.reach(Step::Marked);
                Some(Done::Marked(it.marked()))
            }
            Job::Recover(it) if it.session() < self.cores.first => {
                self.recover_aside(it, answers)?;
                None
            }
            Job::Recover(it) => Some(recovered(&self.cores, it)?),
            Job::SitOut(it) => {
                self.store.sit_out(it.through()).map_err(|it| self.failure(&it))?;
                tracing::info!(through = it.through(), "known which sessions are sat out");
                Some(Done::SatOut(it.stored()))
            }
            Job::Read(it) => self.read(it).unwrap_or_else(|cause| {
                // The peer asks another replica. This one goes on: it needs none of these batches.
                tracing::error!(%cause, "the store can't be read");
                None
            }),
            Job::Search(it) => match self.reader.finals(it.txs()) {
                Ok(finals) => Some(Done::Searched(it.searched(&finals))),
                Err(cause) => {
                    // None of them is taken, as each may be final.
                    tracing::error!(%cause, "the store can't be searched");
                    None
                }
            },
            Job::Retired(session) => {
                self.store.close(session).map_err(|it| self.failure(&it))?;
                let gone = |_| Failure::new(Exit::Fault, "the exporter's thread has ended");
                self.exporter.send(()).map_err(gone)?;
                None
            }
            Job::GrowKey(session) => {
                let Cores { role, master, .. } = &self.cores;
                Some(Done::Key(session, own_key(role.height, master, session)?))
            }
            Job::DieAt(step) => {
                self.dies_at = Some(step);
                None
            }
        })
    }

    /// Opens the log of a session that has ended here in a thread of its own. That takes as long as a
    /// start, and a change of session must not wait for it.
    fn recover_aside(&self, it: Recover, answers: &Answers<C::Core>) -> Result<(), Failure> {
        let (cores, answers) = (self.cores.clone(), answers.clone());
        let work = move || answers.put(recovered(&cores, it).unwrap_or_else(Done::Failed));
        in_thread("helper", work).map(drop)
    }

    fn reach(&self, step: Step) {
        if self.dies_at == Some(step) {
            sys::die();
        }
    }

    fn failure(&self, error: &themis_store::Error) -> Failure {
        store_failure(&self.path, error)
    }

    fn store_end(&mut self, it: Store) -> Result<Done<C::Core>, Failure> {
        let ended = Arc::clone(it.ended());
        let stored = self.store.end(&Ended {
            session: ended.session,
            first: ended.first,
            batches: &ended.batches,
            digest: ended.digest,
            carried: &ended.carried,
            setting: &self.setting,
            keys: &ended.keys,
            is_closed: it.is_closed(),
        });
        stored.map_err(|it| self.failure(&it))?;
        Ok(Done::Stored(it.stored(), ended.end()))
    }

    /// None where the session has not ended here.
    fn read(&self, read: Read) -> Result<Option<Done<C::Core>>, themis_store::Error> {
        let Some((position, digest)) = self.reader.end_of(read.session)? else {
            return Ok(None);
        };
        let mut batches = Vec::new();
        if read.wants_batches {
            let count = position.saturating_sub(read.from).min(MAX_READ);
            let found = self.reader.batches(read.from, count, MAX_PART)?;
            batches = fitting(found.into_iter().map(|it| it.txs));
        }
        Ok(Some(Done::Found(Found { read, end: End { position, digest }, batches })))
    }
}

/// A thread that begins the next session: its first seal takes long, and meanwhile the session that
/// runs may end.
type Ahead<C> = JoinHandle<Result<Option<Begun<C>>, Failure>>;

/// What was begun ahead, once it is.
fn begun<C>(ahead: Ahead<C>) -> Result<Option<Begun<C>>, Failure> {
    let gone = |_| Err(Failure::new(Exit::Fault, "a thread has panicked"));
    ahead.join().unwrap_or_else(gone)
}

fn in_thread<T: Send + 'static>(
    name: &str,
    work: impl FnOnce() -> T + Send + 'static,
) -> Result<JoinHandle<T>, Failure> {
    let thread = std::thread::Builder::new().name(name.to_owned()).spawn(work);
    thread.map_err(|it| Failure::new(Exit::Fault, it))
}

fn recovered<C: Conduct>(cores: &Cores<C>, it: Recover) -> Result<Done<C::Core>, Failure> {
    let session = it.session();
    let (recovered, log) = cores.recover(it)?;
    Ok(Done::Recovered(session, recovered, log))
}

/// The public key of a replica's session.
pub fn own_key(height: Height, master: &Master, session: u32) -> Result<PublicKey, Failure> {
    Ok(themis::public_key(height, &secret_of(master, session))?)
}
