//! The engine's thread, where sessions follow one another: two cores at most, and a log for each.

mod shown;

use std::collections::HashMap;
use std::sync::mpsc::{Receiver, RecvTimeoutError, Sender};
use std::sync::Arc;
use std::time::Instant;

use bytes::Bytes;
use themis_engine::sessions::frames::{in_session, SessionFrame};
use themis_engine::sessions::history::{History, MadeAgain, Restart};
use themis_engine::sessions::{Input, Output, Sessions};
use themis_engine::{Answer, Ticket, Time};
use themis_store::{Identity, Origin, State};
use tokio::sync::oneshot;

use crate::conduct::Conduct;
use crate::config::Setup;
use crate::cores::Cores;
use crate::exit::{Exit, Failure};
use crate::exporter::{Exporter, Keeping};
use crate::fault::order;
use crate::input::{Inbox, Request};
use crate::keeper::{self, Done, Job, Keeper, Step};
use crate::link::Link;
use crate::log::EventLog;
use crate::observed::Observed;
use crate::receipt_log::ReceiptLog;
use crate::recovery::{self, Found, Lock};
use crate::sys;
use crate::timed::Spent;
use crate::worker::{Shared, MAX_LOGGED_FAULTS, MAX_REQUESTS};

/// The engine over sessions, and all that it touches.
pub struct SessionsWorker<C: Conduct> {
    setup: Arc<Setup>,
    sessions: Sessions<C::Core>,
    conduct: C,
    keeper: Keeper<C>,
    shared: Shared,
    receipts: Option<ReceiptLog>,
    start: Instant,
    lock: Lock,
}

/// The same while it works.
struct Working<C: Conduct> {
    setup: Arc<Setup>,
    sessions: Sessions<C::Core>,
    conduct: C,
    jobs: Sender<Job>,
    /// What the keeper has done.
    done: Receiver<Done<C::Core>>,
    /// The logs that are open, by session.
    logs: HashMap<u32, EventLog>,
    shared: Shared,
    receipts: Option<ReceiptLog>,
    clients: HashMap<Ticket, oneshot::Sender<Answer>>,
    observed: Observed,
    start: Instant,
    syncs: Spent,
    frame_faults: u64,
    _lock: Lock,
}

/// Whose store it is.
pub fn owner(setup: &Setup) -> Identity {
    Identity { cluster: setup.cluster_digest(), replica: setup.me() }
}

/// What the engine knows of a store that was lost before this one was made. A number that nobody can
/// foresee binds the answers of peers to this start.
fn made_again(origin: Origin) -> Result<Option<MadeAgain>, Failure> {
    Ok(match origin {
        Origin::First => None,
        Origin::Again { sits_out: Some(through) } => Some(MadeAgain::SitsOut { through }),
        Origin::Again { sits_out: None } => {
            let mut drawn = [0; 8];
            sys::draw(&mut drawn).map_err(|it| Failure::new(Exit::Fault, it))?;
            Some(MadeAgain::Unknown { drawn: u64::from_be_bytes(drawn) })
        }
    })
}

/// What the engine starts with.
fn restart_of(history: themis_store::History) -> Result<Restart, Failure> {
    let themis_store::History { session, carried, helped, windows, origin } = history;
    Ok(Restart {
        made_again: made_again(origin)?,
        is_opened: session.state == State::Opened,
        helped: helped.map(|it| it.keys),
        history: History {
            session: session.number,
            position: session.first,
            digest: session.digest,
            keys: session.keys,
            carried,
            windows,
        },
    })
}

impl<C: Conduct> SessionsWorker<C> {
    /// Reads what is durable. Logs are opened once it runs.
    pub fn open(
        setup: Arc<Setup>,
        shared: Shared,
        found: Found,
        conduct: C,
    ) -> Result<SessionsWorker<C>, Failure> {
        let Found { store, history, logs, lock } = found;
        let exporter = Exporter {
            config: setup.path.clone(),
            reader: keeper::reader(&setup.folder, &owner(&setup))?,
            logs: logs.clone(),
            keeping: Keeping { logs: setup.config.keep_logs, accounts: setup.config.accounts },
        };
        let keeper = Keeper {
            path: recovery::store_path(&setup.folder, setup.me()),
            store,
            reader: keeper::reader(&setup.folder, &owner(&setup))?,
            cores: Cores {
                logs,
                role: setup.role()?,
                master: setup.master()?,
                first: history.session.number,
                seal_threads: setup.seal_threads(),
                conduct: conduct.clone(),
            },
            ahead: None,
            exporter: exporter.start()?,
            setting: setup.setting_line(),
            dies_at: None,
        };
        let (place, options) = (setup.place(), setup.options());
        let restart = restart_of(history)?;
        let sessions = Sessions::open(place, options, restart, Time::default());
        let receipts = setup.receipts_path().map(|it| ReceiptLog::open(&it)).transpose()?;
        let start = Instant::now();
        Ok(SessionsWorker { setup, sessions, conduct, keeper, shared, receipts, start, lock })
    }

    /// Works until it is told to stop, or until something fails.
    pub fn run(self, requests: &Receiver<Request>, inbox: Inbox) -> Result<(), Failure> {
        let SessionsWorker { setup, sessions, conduct, keeper, shared, receipts, start, lock } =
            self;
        let (jobs, done) = keeper.start(inbox)?;
        let mut working = Working {
            setup,
            sessions,
            conduct,
            jobs,
            done,
            logs: HashMap::new(),
            shared,
            receipts,
            clients: HashMap::new(),
            observed: Observed::default(),
            start,
            syncs: Spent::default(),
            frame_faults: 0,
            _lock: lock,
        };
        working.send_outputs()?;
        working.run(requests)
    }
}

/// Opens what is durable of a replica over sessions. `join` has made its store.
pub fn recover(setup: &Setup) -> Result<Found, Failure> {
    let found = recovery::open(&setup.folder, &owner(setup), setup.config.fsync)?;
    if let Some(last) = setup.config.last_session {
        found.refuse_later(last, &setup.path)?;
    }
    Ok(found)
}

impl<C: Conduct> Working<C> {
    fn now(&self) -> Time {
        Time::default() + self.start.elapsed()
    }

    fn run(&mut self, requests: &Receiver<Request>) -> Result<(), Failure> {
        loop {
            for request in requests.try_iter().take(MAX_REQUESTS) {
                if !self.take(request)? {
                    return Ok(());
                }
            }
            let has_worked = self.make_turns()?;
            self.act()?;
            self.send_outputs()?;
            if has_worked {
                continue;
            }
            let wait = self.sessions.wake_at().since(self.now());
            match requests.recv_timeout(wait) {
                Ok(request) => {
                    if !self.take(request)? {
                        return Ok(());
                    }
                }
                Err(RecvTimeoutError::Disconnected) => return Ok(()),
                Err(RecvTimeoutError::Timeout) => {}
            }
        }
    }

    /// Makes one group of turns of one session; whether there were any.
    fn make_turns(&mut self) -> Result<bool, Failure> {
        let Some(group) = self.sessions.prepare(self.now())? else { return Ok(false) };
        if !group.records().is_empty() {
            let session = group.session();
            let log = self.logs.get_mut(&session).ok_or_else(|| no_log(session))?;
            self.syncs.time(|| log.append(group.records()))?;
        }
        self.sessions.durable(group);
        while self.sessions.turn(self.now())? {
            self.send_outputs()?; // others wait for them
        }
        Ok(true)
    }

    /// Takes a request; false where it is the one to stop.
    fn take(&mut self, request: Request) -> Result<bool, Failure> {
        let now = self.now();
        match request {
            Request::SessionFrame { peer, frame } => {
                if let SessionFrame::In { frame, .. } = &frame {
                    self.conduct.receive(frame);
                }
                let room = self.shared.links[peer as usize].as_ref().map_or(0, Link::room);
                self.sessions.take(Input::Frame { peer, frame, room }, now)?;
            }
            Request::Frame { peer, .. } => {
                self.shared.slots[peer as usize].add_permits(1);
                self.note_bad_frame(Some(peer), "a frame without its session");
            }
            Request::Done => {
                for done in self.done.try_iter().collect::<Vec<_>>() {
                    self.take_done(done, now)?;
                }
            }
            Request::Connected(peer) => self.sessions.take(Input::Connected(peer), now)?,
            Request::BadFrame { peer, cause } => self.note_bad_frame(peer, &cause),
            Request::Submit { ticket, txs, answer } => {
                self.clients.insert(ticket, answer);
                self.sessions.take(Input::Submit { ticket, txs }, now)?;
            }
            Request::Gone(ticket) => {
                self.clients.remove(&ticket);
                self.sessions.take(Input::Gone(ticket), now)?;
            }
            Request::Status(answer) => {
                // A client that has gone needs no answer; the same below.
                let _ = answer.send(self.status(now));
            }
            Request::Pages(answer) => {
                let _ = answer.send(self.pages(now));
            }
            Request::Picture(answer) => {
                let _ = answer.send(self.picture(now));
            }
            Request::Find { tx, answer } => {
                let _ = answer.send(self.find(&tx)?);
            }
            Request::Close { session, answer } => {
                let ended = self.sessions.end(session).map_err(|it| it.to_string());
                let _ = answer.send(ended);
            }
            Request::Fault { words, answer } if words.first().is_some_and(|it| it == "die") => {
                let step = words.get(1).and_then(|it| Step::of(it));
                if let Some(step) = step {
                    self.ask(Job::DieAt(step))?;
                }
                let _ = answer.send(step.is_some());
            }
            Request::Fault { words, answer } => {
                let disks = self.logs.values_mut().map(|it| &mut it.disk);
                let _ = answer.send(order(&words, &self.shared.links, disks).is_some());
            }
            Request::Stop => return Ok(false),
        }
        Ok(true)
    }

    /// What the keeper has done.
    fn take_done(&mut self, done: Done<C::Core>, now: Time) -> Result<(), Failure> {
        let input = match done {
            Done::Stored(stored, end) => {
                self.shared.batches.stored(end);
                self.observed.stored(end);
                Input::Stored(stored)
            }
            Done::Opened(session, opened, log) => {
                self.logs.extend(log.map(|it| (session, it)));
                Input::Opened(opened)
            }
            Done::Marked(marked) => Input::Marked(marked),
            Done::Recovered(session, recovered, log) => {
                self.logs.extend(log.map(|it| (session, it)));
                Input::Recovered(recovered)
            }
            Done::SatOut(sat_out) => Input::SatOut(sat_out),
            Done::Found(found) => Input::Found(found),
            Done::Searched(searched) => Input::Searched(searched),
            Done::Key(session, key) => Input::Key { session, key },
            Done::Failed(failure) => return Err(failure),
        };
        let was_opened = matches!(input, Input::Recovered(_));
        self.sessions.take(input, now)?;
        if was_opened {
            sys::return_free_memory();
        }
        Ok(())
    }

    /// Does what the engine asked for.
    fn send_outputs(&mut self) -> Result<(), Failure> {
        let now = Instant::now();
        for output in self.sessions.outputs() {
            match output {
                Output::Send { to, frame } => self.send(to, frame, now),
                Output::Broadcast(frame) => {
                    for peer in self.setup.place().others() {
                        self.send(peer, frame.clone(), now);
                    }
                }
                Output::Answer(ticket, answer) => {
                    if let Some(client) = self.clients.remove(&ticket) {
                        let _ = client.send(answer);
                    }
                }
                Output::Batch { position, txs } => {
                    self.observed.became_final(position, &txs, now);
                    self.shared.batches.push(position, &txs);
                }
                Output::Received(txs) => self.observed.latency.received(&txs, now),
                Output::Freed(peer, count) => {
                    self.shared.slots[peer as usize].add_permits(count as usize);
                }
                Output::Noted(note) => {
                    if let Some(receipts) = &mut self.receipts {
                        receipts.put(note);
                    }
                }
                Output::GrowKey(session) => self.ask(Job::GrowKey(session))?,
                Output::Read(it) => self.ask(Job::Read(it))?,
                Output::Search(it) => self.ask(Job::Search(it))?,
                Output::Store(it) => self.ask(Job::Store(it))?,
                Output::OpenLog(it) => self.ask(Job::OpenLog(it))?,
                Output::OpenAhead(session, keys) => self.ask(Job::OpenAhead(session, keys))?,
                Output::Mark(it) => self.ask(Job::Mark(it))?,
                Output::Recover(it) => self.ask(Job::Recover(it))?,
                Output::SitOut(it) => self.ask(Job::SitOut(it))?,
                Output::Retired(session) => {
                    self.logs.remove(&session);
                    self.ask(Job::Retired(session))?;
                    sys::return_free_memory();
                }
            }
        }
        if let Some(receipts) = &mut self.receipts {
            receipts.flush();
        }
        Ok(())
    }

    fn send(&mut self, to: u32, frame: Bytes, now: Instant) {
        let link = self.shared.links.get(to as usize).and_then(Option::as_ref);
        if let (Some(link), Some(frame)) = (link, self.conduct.send(to, frame)) {
            link.send(frame, now);
        }
    }

    /// What the conduct sends of its own, in the session that runs.
    fn act(&mut self) -> Result<(), Failure> {
        let (at, now) = (self.now(), Instant::now());
        let session = self.sessions.session();
        let Some(engine) = self.sessions.running() else { return Ok(()) };
        for (to, frame) in self.conduct.act(engine, at)? {
            if let Some(Some(link)) = self.shared.links.get(to as usize) {
                link.send(in_session(session, &frame), now);
            }
        }
        Ok(())
    }

    fn ask(&self, job: Job) -> Result<(), Failure> {
        let gone = |_| Failure::new(Exit::Fault, "the keeper's thread has ended");
        self.jobs.send(job).map_err(gone)
    }

    fn note_bad_frame(&mut self, peer: Option<u32>, cause: &str) {
        self.frame_faults += 1;
        if self.frame_faults <= MAX_LOGGED_FAULTS {
            tracing::warn!(?peer, cause, "bad frame");
        }
    }
}

fn no_log(session: u32) -> Failure {
    Failure::new(Exit::Fault, format!("the log of session {session} is not open"))
}
