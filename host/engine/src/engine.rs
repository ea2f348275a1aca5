//! The state of a replica's host, its inputs and its outputs.

use std::collections::HashSet;
use std::time::Duration;

use bytes::Bytes;
use sha2::{Digest, Sha256};
use themis::{Error, Message, Tx};

use crate::catch_up::{CatchUp, Request, MAX_BLOCKS};
use crate::clients::{Answer, Clients, Ticket};
use crate::core::{event_of, records, Core, Delivered, Desk, Event, Watched};
use crate::counters::Counters;
use crate::frame::{Frame, Standing};
use crate::gossip::Told;
use crate::guards::{Allowance, EarlyAsks, GivenBlocks, Orphans};
use crate::hold::{Hold, Shown, Wish};
use crate::inbox::Inbox;
use crate::intake::{Intake, Note};
use crate::pace::ViewPace;
use crate::pacemaker::Pacemaker;
use crate::peers::Peers;
use crate::recent::Blocks;
use crate::sessions::running::Session;
use crate::setting::{Options, Place};
use crate::time::Time;
use crate::turns::Turns;
use crate::{tx, wire};

const PACE_EVERY: Duration = Duration::from_millis(10);
/// A new standing, and new receipts, are reported that often.
pub(crate) const ANNOUNCE_EVERY: Duration = Duration::from_millis(20);
const GOSSIP_EVERY: Duration = Duration::from_millis(250);
/// After a start, receipts wait for so long for the clocks of peers.
const OPEN_AFTER: Duration = Duration::from_secs(1);
/// What happened.
#[derive(Clone, Debug)]
pub enum Input {
    /// A peer sent a frame. Each takes up one of the peer's slots, until [`Output::Freed`].
    Frame {
        /// The peer.
        peer: u32,
        /// What it sent.
        frame: Frame,
        /// Bytes that can be queued for the peer before older ones are dropped.
        room: usize,
    },
    /// There is a new connection to a peer, for what this replica sends.
    Connected(u32),
    /// A client submitted transactions, and waits for the answer.
    Submit {
        /// Names the submission.
        ticket: Ticket,
        /// What it submitted.
        txs: Vec<Tx>,
    },
    /// The client of a submission has gone.
    Gone(Ticket),
    /// No more transactions are taken.
    Close,
}

/// What is to be done.
#[derive(Clone, Debug, PartialEq, Eq)]
pub enum Output {
    /// Send a frame to a peer.
    Send {
        /// The peer.
        to: u32,
        /// The frame, with its length.
        frame: Bytes,
    },
    /// Send a frame to each peer.
    Broadcast(Bytes),
    /// Answer a client.
    Answer(Ticket, Answer),
    /// A batch became final.
    Batch {
        /// Its position in the list of final batches.
        position: usize,
        /// Its transactions.
        txs: Vec<Tx>,
    },
    /// So many slots of a peer are free again.
    Freed(u32, u32),
    /// Transactions that a client or a peer brought first, and that are held here now.
    Received(Vec<Tx>),
    /// Something was received or heard, where a test wants to know.
    Noted(Note),
}

/// What a replica had when it stopped.
#[derive(Clone, Debug, Default)]
pub struct Restored<'a> {
    /// Its log, as far as the library used it.
    pub log: &'a [u8],
    /// The size of the log's header.
    pub header: usize,
    /// What was final in earlier sessions.
    pub settled: Vec<Tx>,
    /// What arrived in the session before and was not final, in its order. Where sessions follow one
    /// another, it arrives first.
    pub carried: Vec<Tx>,
    /// The session, where sessions follow one another.
    pub session: Option<Session>,
    /// Chains the batches before.
    pub digest: [u8; 32],
}

/// The host of one replica, without anything that it touches.
#[derive(Debug)]
pub struct Engine<C> {
    pub(crate) place: Place,
    pub(crate) options: Options,
    pub(crate) core: Watched<C>,
    pub(crate) peers: Peers,
    pub(crate) pacemaker: Pacemaker,
    pub(crate) pace: ViewPace,
    /// When a held proposal that is wanted may go out.
    release_at: Option<Time>,
    pub(crate) hold: Hold,
    pub(crate) shown: Shown,
    pub(crate) asks: EarlyAsks,
    pub(crate) orphans: Orphans,
    pub(crate) given: GivenBlocks,
    pub(crate) allowances: Vec<Allowance>,
    pub(crate) intake: Intake,
    pub(crate) catch_up: CatchUp,
    pub(crate) inbox: Inbox,
    pub(crate) turns: Turns,
    pub(crate) clients: Clients,
    pub(crate) counters: Counters,
    pub(crate) blocks: Blocks,
    pub(crate) finals: Finals,
    pub(crate) told: Told,
    pub(crate) commit_at: Time,
    started_at: Time,
    pub(crate) is_closing: bool,
    /// The session, where sessions follow one another.
    pub(crate) session: Option<Session>,
    /// What arrives before anything else.
    pub(crate) first: Vec<Tx>,
    /// Where this replica stands has changed since it was reported.
    pub(crate) is_report_due: bool,
    pub(crate) reported_at: Time,
    timers: Timers,
    outputs: Vec<Output>,
}

/// The final batches that were taken from the core.
#[derive(Debug, Default)]
pub(crate) struct Finals {
    /// How many.
    pub taken: usize,
    /// Chains all of them, to compare replicas by it.
    pub digest: [u8; 32],
    /// The view in which batches became final last.
    pub view: u32,
}

/// When each of the regular works is due next.
#[derive(Debug)]
struct Timers {
    pace: Time,
    announce: Time,
    gossip: Time,
}

/// Whether a time has come; it is moved on then.
fn is_due(at: &mut Time, every: Duration, now: Time) -> bool {
    let has_come = *at <= now;
    if has_come {
        *at = now + every;
    }
    has_come
}

impl<C: Core> Engine<C> {
    /// A replica whose core was opened with what is restored.
    pub fn open(
        place: Place,
        options: Options,
        core: C,
        restored: Restored,
        now: Time,
    ) -> Result<Engine<C>, Error> {
        let burst = 2.0 * MAX_BLOCKS as f64;
        let allowance = |_| Allowance::new(options.fetch_rate, burst);
        let mut made = Engine {
            place,
            options,
            core: Watched::new(core)?,
            peers: Peers::new(place.n, place.me, place.f),
            pacemaker: Pacemaker::new(place, &options, now),
            pace: ViewPace::new(options.pace),
            release_at: None,
            hold: Hold::new(&options, now),
            shown: Shown::default(),
            asks: EarlyAsks::default(),
            orphans: Orphans::default(),
            given: GivenBlocks::new(place.n, place.views),
            allowances: (0..place.n).map(allowance).collect(),
            intake: Intake::new(place, options.log_receipts),
            catch_up: CatchUp::new(place.n),
            inbox: Inbox::new(place.n),
            turns: Turns::default(),
            clients: Clients::default(),
            counters: Counters::new(place.n),
            blocks: Blocks::default(),
            finals: Finals::default(),
            told: Told::new(place.n, now),
            commit_at: now,
            started_at: now,
            is_closing: false,
            session: restored.session,
            first: Vec::new(),
            is_report_due: false,
            reported_at: now,
            timers: Timers { pace: now, announce: now, gossip: now },
            outputs: Vec::new(),
        };
        made.finals.digest = restored.digest;
        made.core.core.desk().settle(&restored.settled)?;
        made.restore(restored.log, restored.header)?;
        made.carry(restored.carried)?;
        Ok(made)
    }

    /// What the host keeps next to the core: the batches, what has arrived, and what blocks name.
    fn restore(&mut self, log: &[u8], header: usize) -> Result<(), Error> {
        self.take_batches()?;
        let mut delivered = Vec::new();
        for event in records(log, header).filter_map(event_of) {
            match event {
                Event::Arrived(txs) => {
                    self.intake.restore(self.core.core.desk(), &txs)?;
                    if let Some(session) = &mut self.session {
                        session.has_arrived(&txs);
                    }
                }
                Event::Delivered(it) => delivered.push(it),
                Event::Tick(_) => {}
            }
        }
        let stored = self.stored_blocks()?;
        // What has arrived is no longer to be let in where a block names it.
        for it in &delivered {
            self.restore_block(it, &stored)?;
        }
        self.intake.restored(self.core.core.desk())?;
        if self.finals.taken > 0 {
            self.finals.view = self.core.view;
            self.shown.made_final(self.core.commit);
        }
        Ok(())
    }

    /// The blocks above the commit that the core has.
    fn stored_blocks(&mut self) -> Result<HashSet<Vec<u8>>, Error> {
        let commit = self.core.commit;
        let mut stored = HashSet::new();
        for at in 0..self.core.core.give_count(commit)? {
            stored.insert(wire::given_block(&self.core.core.give(commit, at)?).to_vec());
        }
        Ok(stored)
    }

    fn restore_block(&mut self, it: &Delivered, stored: &HashSet<Vec<u8>>) -> Result<(), Error> {
        let views = wire::block_views(&it.data);
        self.shown.store(views);
        views.into_iter().for_each(|it| self.blocks.accepted(it.view));
        self.intake.restore_block(self.core.core.desk(), &it.data)?;
        // Those up to the commit are not taken anyway. One above it has a record too where its turn
        // refused it, after another one of its group: the core lacks it then, and has to get it.
        let is_open = views.is_some_and(|it| it.view > self.core.commit);
        let given = wire::given_view(&it.data).map(|_| wire::given_block(&it.data));
        let is_there = |block: &&[u8]| !is_open || stored.contains(*block);
        if let Some(block) = given.filter(is_there) {
            if !self.given.is_stored(block) {
                self.given.store(it.from, block);
            }
        }
        let proposed = wire::proposed_block(&it.data);
        if let Some(block) = proposed.filter(|it| is_open && stored.contains(*it)) {
            self.given.know(block);
        }
        Ok(())
    }

    /// What is to be done since the last call, in this order.
    pub fn outputs(&mut self) -> Vec<Output> {
        let freed = self.inbox.take_freed().map(|(peer, count)| Output::Freed(peer, count));
        self.outputs.extend(freed);
        let received = self.intake.take_received();
        self.outputs.extend((!received.is_empty()).then_some(Output::Received(received)));
        self.outputs.extend(self.intake.take_notes().into_iter().map(Output::Noted));
        std::mem::take(&mut self.outputs)
    }

    /// When [`Engine::prepare`] is to be called at the latest.
    pub fn wake_at(&self) -> Time {
        let regular = self.timers.pace.min(self.timers.announce).min(self.timers.gossip);
        self.release_at.map_or(regular, |at| at.min(regular))
    }

    /// The core, for a test or a simulator.
    pub fn core_mut(&mut self) -> &mut C {
        &mut self.core.core
    }

    pub(crate) fn put(&mut self, output: Output) {
        self.outputs.push(output);
    }

    pub(crate) fn run_timers(&mut self, now: Time) -> Result<(), Error> {
        if is_due(&mut self.timers.pace, PACE_EVERY, now) {
            self.keep_pace(now)?;
        } else if self.release_at.is_some_and(|at| at <= now) {
            self.release(now);
        }
        if is_due(&mut self.timers.announce, ANNOUNCE_EVERY, now) {
            self.announce(now)?;
        }
        if is_due(&mut self.timers.gossip, GOSSIP_EVERY, now) {
            self.gossip(now)?;
        }
        Ok(())
    }

    // ---- pace

    /// The view that this replica or an honest peer has reached.
    pub(crate) fn known_view(&self) -> u32 {
        self.core.view.max(self.peers.view_reached())
    }

    pub(crate) fn standing(&self) -> Standing {
        // Both counts are of one session, and far below 2^32.
        let (waiting, batches) = (self.wanting() as u32, self.finals.taken as u32);
        Standing { view: self.core.view, commit: self.core.commit, waiting, batches }
    }

    /// Whether further views are wanted: here, or at more peers than may be faulty; or so that a
    /// block shows what is final.
    pub(crate) fn is_wanted(&self, now: Time) -> bool {
        self.wanting() > 0 || self.peers.someone_waits(now) || !self.shown.is_all()
    }

    /// Whether clients have to wait for the next session.
    pub fn is_over(&self) -> bool {
        self.intake.is_full() || self.pacemaker.is_over(self.standing(), &self.peers)
    }

    /// Opens the intake, releases a proposal, and asks for a view, where that is due.
    fn keep_pace(&mut self, now: Time) -> Result<(), Error> {
        if !self.intake.is_open() && now.since(self.started_at) > OPEN_AFTER {
            self.intake.open(self.core.core.desk())?;
        }
        self.release(now);
        let is_wanted = self.is_wanted(now) && self.hold.is_empty();
        let own = self.standing();
        if let Some(floor) = self.pacemaker.due_floor(own, &self.peers, is_wanted, now) {
            self.turns.tick = Some((self.core.view, floor));
        }
        Ok(())
    }

    pub(crate) fn release(&mut self, now: Time) {
        self.release_at = None;
        if self.hold.is_empty() {
            return;
        }
        let waiting = if self.is_cut() { 0 } else { self.intake.queued() };
        let (is_wanted, is_due) = (self.is_wanted(now), self.pace.is_due(waiting, now));
        self.release_at = (is_wanted && !is_due).then(|| self.pace.due_at());
        let idle_views = self.core.view.saturating_sub(self.finals.view);
        let sends = self.hold.release(Wish { is_wanted, is_due, idle_views }, now);
        self.send_all(sends, now);
    }

    // ---- sends

    /// Sends what a turn returned.
    pub(crate) fn send_all(&mut self, sends: Vec<Message>, now: Time) {
        for Message { to, bytes } in sends {
            if to == self.place.me {
                self.turns.to_self.push(Bytes::from(bytes));
            } else if wire::kind_of(&bytes) != Some(wire::Kind::Fetch)
                || self.catch_up.may_fetch(to, now)
            {
                self.put(Output::Send { to, frame: Frame::encode_message(&bytes) });
            }
        }
    }

    pub(crate) fn request_blocks(&mut self, request: Option<&Request>) {
        if let Some(Request { peer, above }) = request {
            self.counters.blocks_asked += 1;
            self.put(Output::Send { to: *peer, frame: Frame::Blocks(*above).encode() });
        }
    }

    // ---- what is final

    /// Takes what became final. The library hears of all of it together: batches are many and small.
    pub(crate) fn take_batches(&mut self) -> Result<(), Error> {
        let mut all = Vec::new();
        for position in self.finals.taken..self.core.core.batch_count()? {
            if self.is_cut() {
                break;
            }
            let txs = self.core.core.batch(position)?;
            let mut data = self.finals.digest.to_vec();
            for it in &txs {
                tx::put(it, &mut data);
            }
            self.finals.digest = Sha256::digest(&data).into();
            self.finals.taken += 1;
            all.extend_from_slice(&txs);
            if let Some(session) = &mut self.session {
                session.take_batch(&txs);
            }
            self.put(Output::Batch { position, txs });
        }
        self.intake.finalised(self.core.core.desk(), &all)
    }
}
