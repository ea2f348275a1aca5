//! The replicas, the network between them, and what happens.

use std::collections::HashSet;
use std::time::Duration;

use rand::{Rng, SeedableRng};
use rand_chacha::ChaCha8Rng;
use themis_deeds::EVERY;
use themis_engine::sessions::Output;
use themis_engine::tx::Tx;
use themis_engine::{Note, Time};

use crate::change::Request;
use crate::clock::Clock;
use crate::driver::Prepared;
use crate::network::Link;
use crate::node::{Node, Violation};
use crate::plan::Plan;
use crate::queue::{Happening, Queue};
use crate::receipts::Receipts;
use crate::starts::Starts;
use crate::views::Views;

/// What the latency of a replica that is far away is at least, in one direction.
const FAR: Duration = Duration::from_millis(30);

/// A cluster.
pub struct World {
    /// What was drawn.
    pub plan: Plan,
    /// The moment.
    pub now: Time,
    /// The replicas.
    pub nodes: Vec<Node>,
    /// Who received what.
    pub receipts: Receipts,
    pub(crate) views: Views,
    pub(crate) starts: Starts,
    /// What is to happen.
    pub queue: Queue,
    pub(crate) links: Vec<Vec<Link>>,
    pub(crate) rng: ChaCha8Rng,
    /// Which submissions each replica has answered with ok.
    pub(crate) answered: Vec<Vec<bool>>,
    /// Transactions of numbers that are used twice, which an honest replica answered with ok.
    pub doubles: HashSet<Tx>,
    pub(crate) tickets: u64,
    /// A batch was taken since that was asked.
    pub has_new: bool,
    /// When the first replica took a batch last, and its longest time without one.
    pub gap: (Time, Duration),
}

/// A moment, in milliseconds.
pub fn at_ms(ms: u32) -> Time {
    Time::default() + Duration::from_millis(u64::from(ms))
}

impl World {
    /// The cluster of a plan, which starts.
    pub fn new(plan: Plan) -> Result<World, Violation> {
        let mut rng = ChaCha8Rng::seed_from_u64(plan.seed ^ 0x7468_656d_6973);
        let mut nodes = Vec::new();
        for me in 0..plan.n {
            let offset = Duration::from_millis(rng.gen_range(0..100_000));
            let rate = 1.0 + rng.gen_range(-0.01..0.01);
            nodes.push(Node::new(&plan, me, Clock::new(offset, rate))?);
        }
        let link = |rng: &mut ChaCha8Rng| {
            if plan.is_even {
                return Link::new(plan.latency, Duration::ZERO);
            }
            let latency = plan.latency.mul_f64(rng.gen_range(0.2..1.0));
            Link::new(latency, plan.latency.mul_f64(rng.gen_range(0.0..0.5)))
        };
        let mut links: Vec<Vec<Link>> =
            (0..plan.n).map(|_| (0..plan.n).map(|_| link(&mut rng)).collect()).collect();
        if let Some(far) = plan.far {
            let away = |at: usize, to: usize| (at == far as usize) != (to == far as usize);
            for (at, row) in links.iter_mut().enumerate() {
                let ends = row.iter_mut().enumerate().filter(|(to, _)| away(at, *to));
                ends.for_each(|(_, link)| link.lengthen(FAR));
            }
        }
        let mut world = World {
            now: Time::default(),
            nodes,
            receipts: Receipts::new(plan.honest(), plan.n),
            views: Views::new(plan.honest(), plan.n, plan.f),
            starts: Starts::new(plan.n, plan.f),
            queue: Queue::default(),
            links,
            rng,
            answered: vec![vec![false; plan.submissions.len()]; plan.n as usize],
            doubles: HashSet::new(),
            tickets: 0,
            has_new: true,
            gap: (Time::default(), Duration::ZERO),
            plan,
        };
        world.schedule();
        Ok(world)
    }

    fn schedule(&mut self) {
        for replica in 0..self.plan.n {
            self.queue.put(Time::default(), replica, 0, Happening::Start);
            for (number, it) in self.plan.submissions.iter().enumerate() {
                if it.to.is_none_or(|to| to == replica) {
                    let late = self.client_delay(replica);
                    let at = at_ms(it.at) + late.mul_f64(self.rng.gen());
                    self.queue.put(at, replica, 0, Happening::Submit(number));
                }
            }
        }
        for at in &self.plan.ends {
            for replica in 0..self.plan.n {
                let late = self.rng.gen_range(0..100);
                self.queue.put(at_ms(at + late), replica, 0, Happening::End);
            }
        }
        for (number, it) in self.plan.faults.iter().enumerate() {
            self.queue.put(at_ms(it.at), it.replica, 0, Happening::Fault(number));
            self.queue.put(at_ms(it.at + it.span), it.replica, 0, Happening::Heal(number));
        }
    }

    /// How late a replica gets at most what a client submits.
    fn client_delay(&self, replica: u32) -> Duration {
        if self.plan.is_even {
            return Duration::ZERO;
        }
        self.links[0][replica as usize].longest()
    }

    /// The next thing happens; false where nothing does.
    pub fn step(&mut self) -> Result<bool, Violation> {
        let Some((at, replica, incarnation, what)) = self.queue.pop() else { return Ok(false) };
        self.now = self.now.max(at);
        let is_of_now = self.nodes[replica as usize].incarnation == incarnation;
        match what {
            Happening::Wake if is_of_now => self.wake(replica)?,
            Happening::Arrive { from, epoch, frame } => self.arrive(from, replica, epoch, frame)?,
            Happening::Connected(peer) if is_of_now => self.connected(replica, peer)?,
            Happening::Synced if is_of_now => self.synced(replica)?,
            Happening::End => self.end_session(replica)?,
            Happening::Done(number) if is_of_now => self.done(replica, number)?,
            Happening::Submit(number) => self.submit(replica, number)?,
            Happening::Fault(number) => self.start_fault(number),
            Happening::Heal(number) => self.heal(number)?,
            Happening::Start => self.start(replica)?,
            Happening::Deed if is_of_now => self.deed(replica)?,
            Happening::Wake
            | Happening::Connected(_)
            | Happening::Synced
            | Happening::Done(_)
            | Happening::Deed => {}
        }
        Ok(true)
    }

    // ---- the process of a replica

    pub(crate) fn start(&mut self, replica: u32) -> Result<(), Violation> {
        let now = self.now;
        let node = &mut self.nodes[replica as usize];
        if node.process.is_some() || node.down_until > now || node.disk.is_full {
            return Ok(());
        }
        node.start(now)?;
        if let Some(process) = &mut node.process {
            for (session, view) in process.driver.views() {
                self.views.restores(replica, session, view);
            }
        }
        self.starts.starts(replica, now);
        if node.deeds.is_some() {
            self.queue.put(now + EVERY, replica, node.incarnation, Happening::Deed);
        }
        let peers: Vec<u32> = node.place.others().collect();
        for peer in peers {
            self.connect(replica, peer);
            self.connect(peer, replica);
        }
        self.drive(replica)
    }

    /// A replica connects to a peer once the link is up.
    pub(crate) fn connect(&mut self, replica: u32, peer: u32) {
        let at = self.now.max(self.links[replica as usize][peer as usize].up_at);
        let incarnation = self.nodes[replica as usize].incarnation;
        self.queue.put(at, replica, incarnation, Happening::Connected(peer));
    }

    fn connected(&mut self, replica: u32, peer: u32) -> Result<(), Violation> {
        let is_up = self.links[replica as usize][peer as usize].up_at <= self.now;
        if is_up && self.nodes[peer as usize].process.is_some() {
            let node = &mut self.nodes[replica as usize];
            let local = node.clock.local(self.now);
            if let Some(process) = &mut node.process {
                process.driver.connected(peer, local)?;
            }
        }
        self.drive(replica)
    }

    /// The process ends, and its connections with it.
    pub(crate) fn crash(&mut self, replica: u32, until: Time) {
        let part = self.rng.gen();
        self.nodes[replica as usize].end(part, until);
        for peer in 0..self.plan.n as usize {
            self.links[replica as usize][peer].break_off(self.now, &mut self.rng);
            self.links[peer][replica as usize].break_off(self.now, &mut self.rng);
        }
        self.queue.put(until, replica, 0, Happening::Start);
    }

    fn wake(&mut self, replica: u32) -> Result<(), Violation> {
        match &self.nodes[replica as usize].process {
            Some(process) if process.wake <= self.now => self.drive(replica),
            _ => Ok(()),
        }
    }

    /// Prepares and makes turns, until a write takes its time or nothing waits.
    pub(crate) fn drive(&mut self, replica: u32) -> Result<(), Violation> {
        while let Some(pending) = self.prepare(replica)? {
            let node = &mut self.nodes[replica as usize];
            if pending.records().is_empty() {
                if let Some(process) = &mut node.process {
                    process.driver.durable(pending);
                }
                self.make_turns(replica)?;
            } else if let Some(takes) = node.write(pending) {
                let at = self.now + takes;
                self.queue.put(at, replica, node.incarnation, Happening::Synced);
            } else {
                let back = self.now + Duration::from_millis(self.rng.gen_range(20..500));
                self.flush(replica)?;
                self.crash(replica, back);
                return Ok(());
            }
        }
        self.flush(replica)?;
        let node = &mut self.nodes[replica as usize];
        if let Some(process) = &mut node.process {
            let at = node.clock.global(process.driver.wake_at()).max(self.now);
            if at != process.wake {
                process.wake = at;
                self.queue.put(at, replica, node.incarnation, Happening::Wake);
            }
        }
        Ok(())
    }

    /// What the engine of a replica prepares next.
    fn prepare(&mut self, replica: u32) -> Result<Option<Prepared>, Violation> {
        let node = &mut self.nodes[replica as usize];
        let local = node.clock.local(self.now);
        let Some(process) = &mut node.process else { return Ok(None) };
        let pending = process.driver.prepare(local)?;
        if pending.as_ref().is_some_and(|it| node.has_ticked(it.session())) {
            self.views.asks(replica, self.now)?;
        }
        Ok(pending)
    }

    fn synced(&mut self, replica: u32) -> Result<(), Violation> {
        if self.nodes[replica as usize].synced()? {
            self.make_turns(replica)?;
        }
        self.drive(replica)
    }

    fn make_turns(&mut self, replica: u32) -> Result<(), Violation> {
        loop {
            let node = &mut self.nodes[replica as usize];
            let local = node.clock.local(self.now);
            let Some(process) = &mut node.process else { return Ok(()) };
            if !process.driver.turn(local)? {
                node.check_acted()?;
                return self.flush(replica);
            }
            if let Some(process) = &mut node.process {
                for (session, view) in process.driver.views() {
                    self.views.enters(replica, session, view)?;
                }
                node.most_pending = node.most_pending.max(process.driver.sizes().pending);
            }
            self.flush(replica)?;
        }
    }

    // ---- what engines ask for

    pub(crate) fn flush(&mut self, replica: u32) -> Result<(), Violation> {
        let Some(process) = &mut self.nodes[replica as usize].process else { return Ok(()) };
        for output in process.driver.outputs() {
            match output {
                Output::Send { to, frame } => self.send_tampered(replica, to, frame),
                Output::Broadcast(frame) => {
                    for peer in self.nodes[replica as usize].place.others() {
                        self.send_tampered(replica, peer, frame.clone());
                    }
                }
                Output::Answer(ticket, answer) => self.answer(replica, ticket, answer)?,
                Output::Batch { position, txs } => {
                    self.nodes[replica as usize].take_batch(position, txs, self.now)?;
                    self.has_new = true;
                    self.note_gap(replica);
                }
                Output::Freed(peer, count) => self.free(replica, peer, count)?,
                // What is not there ahead is made when it is needed.
                Output::Received(_) | Output::OpenAhead(..) => {}
                Output::Noted(note) => self.note(replica, note)?,
                Output::GrowKey(session) => self.ask(replica, Request::GrowKey(session)),
                Output::Read(it) => self.ask(replica, Request::Read(it)),
                Output::Search(it) => self.ask(replica, Request::Search(it)),
                Output::Store(it) => self.ask(replica, Request::Store(it)),
                Output::OpenLog(it) => self.ask(replica, Request::OpenLog(it)),
                Output::Mark(it) => self.ask(replica, Request::Mark(it)),
                Output::Recover(it) => self.ask(replica, Request::Recover(it)),
                Output::SitOut(it) => self.ask(replica, Request::SitOut(it)),
                Output::Retired(session) => {
                    if let Some(store) = &mut self.nodes[replica as usize].store {
                        store.retire(session);
                    }
                }
            }
        }
        Ok(())
    }

    /// A replica received or heard something. Over sessions it starts again with each of them.
    fn note(&mut self, replica: u32, note: Note) -> Result<(), Violation> {
        let is_one = self.plan.is_honest(replica) && !self.plan.is_many();
        if is_one && matches!(note, Note::Received(_)) {
            self.starts.receives(replica, self.now)?;
        }
        self.receipts.note(replica, note);
        Ok(())
    }

    /// While clients submit, how long the first replica is without a batch.
    fn note_gap(&mut self, replica: u32) {
        if replica == 0 && self.now < at_ms(self.plan.span) {
            self.gap.1 = self.gap.1.max(self.now.since(self.gap.0));
            self.gap.0 = self.now;
        }
    }
}
