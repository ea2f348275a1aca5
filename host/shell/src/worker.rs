//! The engine's thread: it has the core, the log and all state of the replica.

use std::collections::HashMap;
use std::sync::mpsc::{Receiver, RecvTimeoutError};
use std::sync::Arc;
use std::time::Instant;

use bytes::Bytes;
use serde_json::{json, Map, Value};
use themis::{Error, Replica};
use themis_engine::core::{Core, Desk};
use themis_engine::tx::Tx;
use themis_engine::{Answer, Engine, Input, Output, Restored, Status, Ticket, Time};
use tokio::sync::{oneshot, Semaphore};

use crate::batches::Batches;
use crate::conduct::{Conduct, Opened};
use crate::config::{hex, Setup};
use crate::exit::{Exit, Failure};
use crate::fault::order;
use crate::input::{Found, Pages, Request};
use crate::link::Link;
use crate::log::{Disk, EventLog};
use crate::metrics::{fault_of, page_of, Counted};
use crate::observed::Observed;
use crate::picture::{picture_of, Seen};
use crate::receipt_log::ReceiptLog;
use crate::seal_threads::SealThreads;
use crate::timed::{Spent, Timed};

/// Requests that are taken before turns are made: a flood of them stops no turn.
pub const MAX_REQUESTS: usize = 256;
/// Bad frames of which the log has a line.
pub const MAX_LOGGED_FAULTS: u64 = 20;

/// What the engine's thread shares with the one that serves the sockets.
#[derive(Clone)]
pub struct Shared {
    /// What goes to the peers, by replica.
    pub links: Arc<[Option<Link>]>,
    /// Frames of a peer that may wait, by replica.
    pub slots: Arc<[Semaphore]>,
    /// What is final.
    pub batches: Arc<Batches>,
}

/// The engine, and all that it touches.
pub struct Worker<C: Conduct> {
    setup: Arc<Setup>,
    engine: Engine<C::Core>,
    conduct: C,
    log: EventLog,
    receipts: Option<ReceiptLog>,
    shared: Shared,
    clients: HashMap<Ticket, oneshot::Sender<Answer>>,
    observed: Observed,
    start: Instant,
    syncs: Spent,
    frame_faults: u64,
    was_over: bool,
}

impl<C: Conduct> Worker<C> {
    /// Opens the log, and plays it again.
    pub fn open(setup: Arc<Setup>, shared: Shared, conduct: C) -> Result<Worker<C>, Failure> {
        let start = Instant::now();
        let disk = Disk { is_synced: setup.config.fsync, ..Disk::default() };
        let mut log = EventLog::open(setup.log_path(), disk)?;
        let data = log.read()?;
        let (role, secret, public_keys) = (setup.role()?, setup.secret()?, &setup.public_keys);
        let opened = Opened { session: 0, role, secret, public_keys, log: &data };
        let (mut replica, used) = open_replica(&opened, &log)?;
        if used < data.len() {
            tracing::warn!(bytes = data.len() - used, "a torn record was truncated");
        }
        let opened = Opened { log: &data[..used], ..opened };
        log.recover(opened.log)?;
        let header = replica.header()?.len();
        let (settled, carried) = (setup.settled_before()?, setup.carried_over()?);
        let restored =
            Restored { log: opened.log, header, settled, carried, ..Restored::default() };
        let (place, options) = (setup.place(), setup.options());
        let seals = SealThreads::start(setup.seal_threads(), &opened.role, opened.public_keys)?;
        let core = conduct.core(Timed::new(replica, seals), &opened)?;
        let engine = Engine::open(place, options, core, restored, Time::default())?;
        let receipts = setup.receipts_path().map(|it| ReceiptLog::open(&it)).transpose()?;
        let mut worker = Worker {
            setup,
            engine,
            conduct,
            log,
            receipts,
            shared,
            clients: HashMap::new(),
            observed: Observed::default(),
            start: Instant::now(),
            syncs: Spent::default(),
            frame_faults: 0,
            was_over: false,
        };
        worker.send_outputs();
        let (status, seconds) = (worker.engine.status(worker.now()), start.elapsed().as_secs_f64());
        tracing::info!(
            log_bytes = used,
            seconds,
            view = status.view,
            commit = status.commit,
            "opened"
        );
        Ok(worker)
    }

    fn now(&self) -> Time {
        Time::default() + self.start.elapsed()
    }

    /// Works until it is told to stop, or until something fails.
    pub fn run(mut self, inbox: &Receiver<Request>) -> Result<(), Failure> {
        loop {
            for request in inbox.try_iter().take(MAX_REQUESTS) {
                if !self.take(request)? {
                    return Ok(());
                }
            }
            let has_worked = self.make_turns()?;
            self.act()?;
            self.send_outputs();
            if has_worked {
                continue;
            }
            let wait = self.engine.wake_at().since(self.now());
            match inbox.recv_timeout(wait) {
                Ok(request) => {
                    if !self.take(request)? {
                        return Ok(());
                    }
                }
                Err(RecvTimeoutError::Disconnected) => return Ok(()),
                Err(RecvTimeoutError::Timeout) => {}
            }
        }
    }

    /// Makes one group of turns; whether there were any.
    fn make_turns(&mut self) -> Result<bool, Failure> {
        let Some(pending) = self.engine.prepare(self.now())? else { return Ok(false) };
        if !pending.records().is_empty() {
            let log = &mut self.log;
            self.syncs.time(|| log.append(pending.records()))?;
        }
        self.engine.durable(pending);
        while self.engine.turn(self.now())? {
            self.send_outputs(); // others wait for them
        }
        self.note_the_end();
        Ok(true)
    }

    /// Takes a request; false where it is the one to stop.
    fn take(&mut self, request: Request) -> Result<bool, Failure> {
        let now = self.now();
        match request {
            Request::Frame { peer, frame } => {
                self.conduct.receive(&frame);
                let room = self.shared.links[peer as usize].as_ref().map_or(0, Link::room);
                self.engine.take(Input::Frame { peer, frame, room }, now)?;
            }
            Request::Connected(peer) => self.engine.take(Input::Connected(peer), now)?,
            Request::SessionFrame { peer, .. } => {
                self.shared.slots[peer as usize].add_permits(1);
                self.note_bad_frame(Some(peer), "a frame of one of many sessions");
            }
            Request::Done => {}
            Request::BadFrame { peer, cause } => self.note_bad_frame(peer, &cause),
            Request::Submit { ticket, txs, answer } => {
                self.clients.insert(ticket, answer);
                self.engine.take(Input::Submit { ticket, txs }, now)?;
            }
            Request::Gone(ticket) => {
                self.clients.remove(&ticket);
                self.engine.take(Input::Gone(ticket), now)?;
            }
            Request::Status(answer) => {
                // A client that has gone needs no answer; the same below.
                let _ = answer.send(self.status(now));
            }
            Request::Pages(answer) => {
                let _ = answer.send(self.pages(now));
            }
            Request::Picture(answer) => {
                let _ = answer.send(self.picture(now));
            }
            Request::Find { tx, answer } => {
                let _ = answer.send(self.find(&tx)?);
            }
            Request::Close { session, answer } => {
                let own = self.setup.cluster.session;
                let ended = if let Some(other) = session.filter(|it| *it != own) {
                    Err(format!("this is session {own}, not {other}"))
                } else {
                    self.engine.take(Input::Close, now)?;
                    Ok(())
                };
                let _ = answer.send(ended);
            }
            Request::Fault { words, answer } => {
                let disks = std::iter::once(&mut self.log.disk);
                let _ = answer.send(order(&words, &self.shared.links, disks).is_some());
            }
            Request::Stop => return Ok(false),
        }
        Ok(true)
    }

    /// Does what the engine asked for.
    fn send_outputs(&mut self) {
        let now = Instant::now();
        for output in self.engine.outputs() {
            match output {
                Output::Send { to, frame } => self.send(to, frame, now),
                Output::Broadcast(frame) => {
                    for peer in self.setup.place().others() {
                        self.send(peer, frame.clone(), now);
                    }
                }
                Output::Answer(ticket, answer) => {
                    if let Some(client) = self.clients.remove(&ticket) {
                        let _ = client.send(answer);
                    }
                }
                Output::Batch { position, txs } => {
                    self.observed.became_final(position, &txs, now);
                    self.shared.batches.push(position, &txs);
                }
                Output::Received(txs) => self.observed.latency.received(&txs, now),
                Output::Freed(peer, count) => {
                    self.shared.slots[peer as usize].add_permits(count as usize);
                }
                Output::Noted(note) => {
                    if let Some(receipts) = &mut self.receipts {
                        receipts.put(note);
                    }
                }
            }
        }
        if let Some(receipts) = &mut self.receipts {
            receipts.flush();
        }
    }

    fn send(&mut self, to: u32, frame: Bytes, now: Instant) {
        let link = self.shared.links.get(to as usize).and_then(Option::as_ref);
        if let (Some(link), Some(frame)) = (link, self.conduct.send(to, frame)) {
            link.send(frame, now);
        }
    }

    /// What the conduct sends of its own.
    fn act(&mut self) -> Result<(), Failure> {
        let (at, now) = (self.now(), Instant::now());
        for (to, frame) in self.conduct.act(&mut self.engine, at)? {
            if let Some(Some(link)) = self.shared.links.get(to as usize) {
                link.send(frame, now);
            }
        }
        Ok(())
    }

    fn note_bad_frame(&mut self, peer: Option<u32>, cause: &str) {
        self.frame_faults += 1;
        if self.frame_faults <= MAX_LOGGED_FAULTS {
            tracing::warn!(?peer, cause, "bad frame");
        }
    }

    fn note_the_end(&mut self) {
        if self.was_over || !self.engine.is_over() {
            return;
        }
        self.was_over = true;
        let view = self.engine.status(self.now()).view;
        let is_last_view = view >= self.setup.cluster.views;
        let cause = if is_last_view { "all views" } else { "all views or transactions" };
        tracing::error!(view, "the session is over: {cause} are used");
    }

    /// Where the replica stands, and what it counted since its start, as a line of JSON.
    fn status(&mut self, now: Time) -> String {
        let standing = Standing {
            dropped: self.shared.links.iter().flatten().map(Link::dropped).sum(),
            log_bytes: self.log.end,
            syncs: self.syncs,
            frame_faults: self.frame_faults,
        };
        let mut fields = status_line(&self.setup, &self.engine.status(now), &standing);
        for (name, spent) in C::timed(self.engine.core_mut()).all() {
            fields.insert(format!("{name}_us"), Value::from(spent.micros()));
            fields.insert(format!("{name} calls"), Value::from(spent.calls));
        }
        Value::Object(fields).to_string()
    }

    /// What Prometheus reads, and whether the replica is healthy.
    fn pages(&mut self, now: Time) -> Pages {
        let status = self.engine.status(now);
        let links = self.shared.links.iter().flatten();
        let counted = Counted {
            replica: self.setup.me(),
            session: self.setup.cluster.session,
            last_view: self.setup.cluster.views,
            quorum: self.setup.place().quorum(),
            log_bytes: self.log.end,
            frames_dropped: links.map(Link::dropped).sum(),
            bad_frames: self.frame_faults,
            syncs: self.syncs,
            calls: C::timed(self.engine.core_mut()).all(),
            latency: self.observed.latency.histogram(),
        };
        Pages { metrics: page_of(&status, &counted), fault: fault_of(&status, counted.quorum) }
    }

    /// What the live page shows.
    fn picture(&self, now: Time) -> String {
        picture_of(&Seen {
            setup: &self.setup,
            session: self.setup.cluster.session,
            first: 0,
            status: &self.engine.status(now),
            heard: &self.engine.peers_heard(now),
            views: &self.engine.recent_views(),
            observed: &self.observed,
            start: self.start,
            now: Instant::now(),
        })
    }

    /// What has become of a transaction.
    fn find(&mut self, tx: &Tx) -> Result<Found, Failure> {
        let standing = self.engine.core_mut().desk().standing(tx)?;
        Ok(Found { standing, position: self.observed.position_of(tx) })
    }
}

/// What is counted next to the engine.
pub struct Standing {
    /// Frames that were dropped.
    pub dropped: u64,
    /// Bytes of the logs that are open.
    pub log_bytes: u64,
    /// Writes that were made durable.
    pub syncs: Spent,
    /// Bad frames.
    pub frame_faults: u64,
}

/// The fields of a status, but for the calls of the core.
pub fn status_line(setup: &Setup, it: &Status, standing: &Standing) -> Map<String, Value> {
    let fields = json!({
        "replica": setup.me(), "session": setup.cluster.session,
        "view": it.view, "views": setup.cluster.views, "commit": it.commit,
        "batches": it.batches, "digest": hex(&it.digest),
        "arrived": it.arrived, "final": it.finals, "pending": it.pending,
        "queued": it.queued, "given": it.given, "heard": it.heard,
        "log_bytes": standing.log_bytes, "is_over": it.is_over, "is_closing": it.is_closing,
        "dropped": standing.dropped, "syncs": standing.syncs.calls,
        "sync_us": standing.syncs.micros(), "fault": fault_of(it, setup.place().quorum()),
    });
    let Value::Object(mut fields) = fields else { return Map::new() };
    for count in it.counts.iter().filter(|it| it.value > 0) {
        fields.insert(count.to_string(), Value::from(count.value));
    }
    if standing.frame_faults > 0 {
        fields.insert("frame faults".to_owned(), Value::from(standing.frame_faults));
    }
    fields
}

/// The core as its log leaves it, and how many bytes of the log are whole records.
fn open_replica(opened: &Opened, log: &EventLog) -> Result<(Replica, usize), Failure> {
    let (replica, used) = opened.replica().map_err(|fault| match fault {
        Error::NoMemory => Failure::new(Exit::Core, fault),
        _ => log.refused(fault),
    })?;
    if used == 0 {
        // `make` wrote the header, so what it wrote was lost.
        return Err(log.refused("the log is shorter than its header, so it was damaged"));
    }
    Ok((replica, used))
}
