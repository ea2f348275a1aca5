//! One simulated replica: its process, while it runs, and what outlives it.

use std::cell::RefCell;
use std::collections::{BTreeMap, HashMap, HashSet, VecDeque};
use std::rc::Rc;
use std::time::Duration;

use bytes::Bytes;
use themis::{Error, Replica, Role};
use themis_deeds::{Actor, Deed, Deeds, Faulty, Owner};
use themis_engine::core::{event_of, records, Core, Event, Turn};
use themis_engine::sessions::keys::{for_library, PublicKey};
use themis_engine::sessions::Sessions;
use themis_engine::setting::{Options, PaceOptions, Place};
use themis_engine::tx::Tx;
use themis_engine::{Engine, Restored, Time};

use crate::change::{Request, Step};
use crate::clock::Clock;
use crate::disk::Disk;
use crate::driver::{reached, Driver, Prepared};
use crate::keys::{public_keys, secret, HEIGHT};
use crate::opened;
use crate::plan::{FaultKind, Plan};
use crate::store::Durable;
use crate::tapped::{Journal, Played, Tapped};

/// Frames of a peer that may wait in the engine.
pub const SLOTS: u32 = 64;

/// What went wrong in a run.
#[derive(Clone, Debug, PartialEq, Eq)]
pub struct Violation(pub String);

impl From<Error> for Violation {
    fn from(fault: Error) -> Violation {
        Violation(format!("the core fails: {fault}"))
    }
}

/// The transactions that arrive by the records of a log, from a byte on.
fn arrivals(log: &[u8], from: usize) -> impl Iterator<Item = Tx> + '_ {
    let events = records(log, from).filter_map(event_of);
    events.flat_map(|it| match it {
        Event::Arrived(txs) => txs,
        Event::Delivered(_) | Event::Tick(_) => Vec::new(),
    })
}

/// What a replica is in a run.
pub fn role_of(plan: &Plan, me: u32) -> Role {
    Role { n: plan.n, f: plan.f, p: 1, q: 1, views: plan.views, me, height: HEIGHT }
}

/// A process.
pub struct Process {
    /// The engine.
    pub driver: Driver,
    /// Records that are being written.
    pub pending: Option<Prepared>,
    /// What the engine asked for and is being done.
    pub requests: BTreeMap<u64, Request>,
    /// When it is to be woken.
    pub wake: Time,
}

/// A replica.
pub struct Node {
    /// Its place.
    pub place: Place,
    /// Its process, while it runs.
    pub process: Option<Process>,
    /// Counts the processes.
    pub incarnation: u32,
    /// It is not started before this moment.
    pub down_until: Time,
    /// Its disk.
    pub disk: Disk,
    /// Its clock.
    pub clock: Clock,
    /// What it did, by session.
    pub journals: BTreeMap<u32, Rc<RefCell<Journal>>>,
    /// What outlives its sessions, where these follow one another.
    pub store: Option<Durable>,
    /// It ends at this step of the next change of session: after it, or before.
    pub armed_step: Option<(Step, bool)>,
    /// Sessions whose logs were lost.
    pub lost: Vec<u32>,
    /// What these logs were, for the audit.
    pub graves: BTreeMap<u32, Vec<u8>>,
    /// Its final batches.
    pub batches: Vec<Vec<Tx>>,
    /// When it had each of them.
    pub batch_times: Vec<Time>,
    /// What is in them.
    pub finals: HashSet<Tx>,
    /// What has arrived by the durable records of the log.
    arrived: HashSet<Tx>,
    /// What it does if it is faulty, to what its engine sends.
    pub deeds: Option<Deeds>,
    /// What happens at its next write.
    pub armed: Option<FaultKind>,
    /// Its next start finds a flipped bit.
    pub rot: Option<f64>,
    /// Frames that may still be handed to the engine, by peer.
    pub slots: Vec<u32>,
    /// Frames that wait for a slot, by peer.
    pub blocked: Vec<VecDeque<Bytes>>,
    /// The most that arrived and was not final, at any time.
    pub most_pending: usize,
    /// Tickets of submissions, with the submission's number.
    pub tickets: HashMap<u64, usize>,
    role: Role,
    free_views: u32,
    seal_cost: Duration,
    /// What it does if it is faulty, by name.
    named: Vec<Deed>,
}

impl Node {
    /// A replica that was made and never started.
    pub fn new(plan: &Plan, me: u32, clock: Clock) -> Result<Node, Violation> {
        let (n, f, views) = (plan.n, plan.f, plan.views);
        let role = role_of(plan, me);
        let deeds = if plan.is_honest(me) { &[][..] } else { &plan.deeds[..] };
        let made = |_| VecDeque::new();
        let actor = Actor { me, n, views, last_number: 0 };
        let mut node = Node {
            place: Place { me, n, f, views },
            process: None,
            incarnation: 0,
            down_until: Time::default(),
            disk: Disk { sync: plan.sync_of(me), ..Disk::default() },
            clock,
            journals: BTreeMap::new(),
            store: plan
                .is_many()
                .then(|| Durable::new(public_keys(n).into_iter().map(Some).collect())),
            armed_step: None,
            lost: Vec::new(),
            graves: BTreeMap::new(),
            batches: Vec::new(),
            batch_times: Vec::new(),
            finals: HashSet::new(),
            arrived: HashSet::new(),
            deeds: (!deeds.is_empty()).then(|| Deeds::new(deeds, &actor)),
            armed: None,
            rot: None,
            slots: vec![SLOTS; n as usize],
            blocked: (0..n).map(made).collect(),
            most_pending: 0,
            tickets: HashMap::new(),
            role,
            free_views: plan.free_views,
            seal_cost: plan.seal_cost,
            named: deeds.to_vec(),
        };
        if node.store.is_none() {
            let header = opened::header_of(&role)?;
            node.journal(0).borrow_mut().acted = header.len();
            node.disk.logs.insert(0, header);
        }
        Ok(node)
    }

    /// The view of the session that it runs.
    pub fn views(&mut self) -> u32 {
        let engine = self.process.as_mut().and_then(|it| it.driver.engine());
        engine.and_then(reached).map_or(0, |(_, view)| view)
    }

    /// Whether it asked for a view since that was asked.
    pub fn has_ticked(&mut self, session: u32) -> bool {
        std::mem::take(&mut self.journal(session).borrow_mut().has_ticked)
    }

    /// What it did in a session.
    pub fn journal(&mut self, session: u32) -> Rc<RefCell<Journal>> {
        self.journals.entry(session).or_default().clone()
    }

    /// How many bytes of the log of a session it has acted on.
    fn acted(&self, session: u32) -> usize {
        self.journals.get(&session).map_or(0, |it| it.borrow().acted)
    }

    /// The log of a session.
    pub fn log(&self, session: u32) -> &[u8] {
        self.disk.logs.get(&session).map_or(&[], Vec::as_slice)
    }

    /// The log of a session, also one that the replica has lost.
    pub fn any_log(&self, session: u32) -> &[u8] {
        self.graves.get(&session).map_or_else(|| self.log(session), Vec::as_slice)
    }

    /// The public keys of a session.
    pub fn keys(&self, session: u32) -> Vec<PublicKey> {
        let known = self.store.as_ref().and_then(|it| it.keys(session));
        known.map_or_else(|| public_keys(self.place.n), for_library)
    }

    /// The library's replica as a log leaves it.
    pub fn opened(&self, session: u32, log: &[u8]) -> Result<(Replica, usize), Error> {
        let ready = if session == 0 { opened::take(&self.role, log) } else { None };
        if let Some(replica) = ready {
            return Ok((replica, log.len()));
        }
        Replica::open(&self.role, &secret(self.place.me, session), &self.keys(session), log)
    }

    /// Starts a process over what is durable.
    pub fn start(&mut self, now: Time) -> Result<(), Violation> {
        if let Some(place) = self.rot.take() {
            self.check_rot(place)?;
        }
        let (place, local) = (self.place, self.clock.local(now));
        let options = Options {
            log_receipts: true,
            pace: PaceOptions { free: self.free_views, ..PaceOptions::default() },
            ..Options::default()
        };
        let driver = if let Some(store) = &self.store {
            let restart = store.restart(u64::from(self.incarnation));
            let many = Sessions::open(place, options, restart, local);
            Driver::Many(Box::new(many))
        } else {
            let (core, header) = self.recovered(0)?;
            let restored = Restored { log: self.log(0), header, ..Restored::default() };
            Driver::One(Box::new(Engine::open(place, options, core, restored, local)?))
        };
        self.process =
            Some(Process { driver, pending: None, requests: BTreeMap::new(), wake: now });
        self.slots.fill(SLOTS);
        Ok(())
    }

    /// The core of a session as its log leaves it, and the size of the log's header.
    pub fn recovered(&mut self, session: u32) -> Result<(Played, usize), Violation> {
        let (mut replica, used) = self.opened(session, self.log(session))?;
        let acted = self.acted(session);
        if used < acted {
            return Err(Violation(format!("a start keeps {used} of {acted} bytes acted on")));
        }
        if let Some(log) = self.disk.logs.get_mut(&session) {
            log.truncate(used);
        }
        self.play_tail(session, acted)?;
        let header = replica.header()?.len();
        let found: Vec<Tx> = arrivals(self.log(session), header).collect();
        self.arrived.extend(found);
        Ok((self.tapped(session, replica)?, header))
    }

    /// A core of a session, and what it does.
    pub fn tapped(&mut self, session: u32, replica: Replica) -> Result<Played, Violation> {
        let tapped = Tapped::new(self.place.me, replica, self.journal(session));
        let me = self.place.me;
        let owner = Owner { me, session, height: HEIGHT, secret: secret(me, session) };
        let open = || Ok(self.opened(session, self.log(session))?.0);
        Ok(Faulty::new(tapped, &self.named, &owner, open)?)
    }

    /// A flipped bit of what was acted on has to be refused.
    fn check_rot(&self, place: f64) -> Result<(), Violation> {
        let Some(session) = self.disk.logs.keys().next_back().copied() else { return Ok(()) };
        let acted = self.acted(session);
        match self.opened(session, &self.disk.rotten(session, place)) {
            Ok((_, used)) if used < acted => {
                Err(Violation(format!("a rotten log is truncated: {used} of {acted} bytes")))
            }
            Ok(_) | Err(_) => Ok(()),
        }
    }

    /// Records may be durable on which the process did not act before it ended. The start acts on
    /// them: the journal gets their turns from another core.
    fn play_tail(&mut self, session: u32, acted: usize) -> Result<(), Violation> {
        if acted == self.log(session).len() {
            return Ok(());
        }
        let journal = self.journal(session);
        let (replica, _) = self.opened(session, &self.log(session)[..acted])?;
        let mut core = Tapped::new(self.place.me, replica, journal);
        // They are of one group, which was prepared before the turn on its first event. Prepared one by
        // one, an event that repeats another one would have no record.
        let events: Vec<Event> = records(self.log(session), acted).filter_map(event_of).collect();
        for event in &events {
            core.prepare(event)?;
        }
        for _ in &events {
            match Core::act(&mut core)? {
                Turn::Made(_) => drop(core.sends()?),
                Turn::Again => return Err(Violation("a logged event has no record".to_owned())),
            }
        }
        Ok(())
    }

    /// The process ends. What was being written is durable in part.
    pub fn end(&mut self, part: f64, until: Time) {
        if let Some(Process { pending: Some(pending), .. }) = self.process.take() {
            self.disk.tear(pending.session(), pending.records(), part);
        }
        self.incarnation += 1;
        self.down_until = self.down_until.max(until);
        self.tickets.clear();
        self.blocked.iter_mut().for_each(VecDeque::clear);
    }

    /// The log of the session that runs is lost.
    pub fn lose_log(&mut self) {
        if let Some(session) = self.store.as_ref().and_then(|it| it.marked) {
            if let Some(log) = self.disk.logs.remove(&session) {
                self.graves.insert(session, log);
                self.lost.push(session);
            }
        }
    }

    /// The store and all logs are lost, and the store is made again.
    pub fn lose_store(&mut self) {
        let Some(store) = &self.store else { return };
        self.lost.extend(0..=store.session());
        self.store = Some(store.made_again());
        self.graves.append(&mut self.disk.logs);
        self.arrived.clear();
    }

    /// How long this write takes, and what the core does for it; none where the process ends in it.
    pub fn write(&mut self, pending: Prepared) -> Option<Duration> {
        let seals = std::mem::take(&mut self.journal(pending.session()).borrow_mut().work);
        let process = self.process.as_mut()?;
        let (session, records) = (pending.session(), pending.records());
        match self.armed.take() {
            Some(FaultKind::Tear(part)) => self.disk.tear(session, records, part),
            Some(FaultKind::CrashAfterWrite) => self.disk.append(session, records),
            _ if self.disk.is_full => {}
            _ => {
                process.pending = Some(pending);
                return Some(self.disk.sync + self.seal_cost * seals);
            }
        }
        None
    }

    /// The records that were being written are durable; whether there were any.
    pub fn synced(&mut self) -> Result<bool, Violation> {
        let Some(process) = &mut self.process else { return Ok(false) };
        let Some(pending) = process.pending.take() else { return Ok(false) };
        self.disk.append(pending.session(), pending.records());
        // What is carried over arrives again, in the next session.
        let is_once = self.store.is_none();
        for tx in arrivals(pending.records(), 0) {
            if !self.arrived.insert(tx) && is_once {
                return Err(Violation(format!(
                    "{tx:?} arrives twice at replica {}",
                    self.place.me
                )));
            }
        }
        process.driver.durable(pending);
        Ok(true)
    }

    /// What the process acted on since the last call was durable before.
    pub fn check_acted(&mut self) -> Result<(), Violation> {
        for (session, journal) in &self.journals {
            let mut journal = journal.borrow_mut();
            let last = std::mem::take(&mut journal.last);
            let durable = self.disk.logs.get(session).and_then(|it| it.get(..journal.acted));
            if !last.is_empty() && !durable.is_some_and(|it| it.ends_with(&last)) {
                let text = format!("replica {} acts on what is not durable", self.place.me);
                return Err(Violation(text));
            }
        }
        Ok(())
    }

    /// A transaction of which a client may not be told that it is durable here.
    pub fn unsafe_one(&self, txs: &[Tx]) -> Option<Tx> {
        let is_safe = |it: &&Tx| self.arrived.contains(it) || self.finals.contains(it);
        txs.iter().find(|it| !is_safe(it)).copied()
    }

    /// Takes a final batch, which an earlier process may have reported.
    pub fn take_batch(
        &mut self,
        position: usize,
        txs: Vec<Tx>,
        now: Time,
    ) -> Result<(), Violation> {
        let me = self.place.me;
        match self.batches.get(position) {
            Some(earlier) if *earlier == txs => Ok(()),
            Some(_) => Err(Violation(format!("replica {me} changes batch {position}"))),
            None if position > self.batches.len() => {
                Err(Violation(format!("replica {me} passes over a batch before {position}")))
            }
            None => {
                if let Some(tx) = txs.iter().find(|it| !self.finals.insert(**it)) {
                    return Err(Violation(format!("replica {me} has {tx:?} twice")));
                }
                self.batches.push(txs);
                self.batch_times.push(now);
                Ok(())
            }
        }
    }
}
