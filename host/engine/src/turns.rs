//! Turns in groups: what came is prepared, one sync makes all records durable, and only then the
//! core acts on each event.

use std::collections::VecDeque;
use std::time::Duration;

use bytes::Bytes;
use themis::{Error, Tx};

use crate::core::{Core, Delivered, Event, Turn};
use crate::engine::Engine;
use crate::sessions::running::Used;
use crate::time::Time;
use crate::wire;

/// Events of one sync.
const MAX_GROUP: usize = 32;
/// For so long what may arrive waits for a proposal.
const ARRIVE_EVERY: Duration = Duration::from_millis(20);
/// From the commit to the view, where single views fail: with one of five leaders away it is seven.
const MAX_OPEN_VIEWS: u32 = 9;

/// Events that the core has prepared, and on which it acts once their records are durable.
///
/// It is made by [`Engine::prepare`] and taken by [`Engine::durable`] alone, so no turn is made, and
/// nothing that it sends exists, before the host has had the records.
#[derive(Debug)]
#[must_use = "the engine waits until these records are durable"]
pub struct Pending {
    records: Vec<u8>,
    events: VecDeque<Event>,
}

impl Pending {
    /// What is appended to the log and made durable; no bytes where nothing has to be.
    pub fn records(&self) -> &[u8] {
        &self.records
    }
}

/// The events of one replica that wait.
#[derive(Debug, Default)]
pub(crate) struct Turns {
    /// Messages whose block was missing when they came.
    pub retry: Vec<Delivered>,
    pub to_self: Vec<Bytes>,
    again: Vec<Event>,
    /// The view that a tick leaves, and its floor.
    pub tick: Option<(u32, u32)>,
    looked_at: Option<Time>,
    /// Events wait until their records are durable.
    is_pending: bool,
    /// Their records are durable.
    released: VecDeque<Event>,
}

impl Turns {
    /// Whether no event is prepared or waits for its turn.
    pub fn is_idle(&self) -> bool {
        !self.is_pending && self.released.is_empty()
    }
}

impl<C: Core> Engine<C> {
    /// Prepares the next events. None where nothing waits, or where the turns on those before are
    /// not made. Call it after each input, after the turns, and at [`Engine::wake_at`].
    pub fn prepare(&mut self, now: Time) -> Result<Option<Pending>, Error> {
        self.run_timers(now)?;
        if self.turns.is_pending || !self.turns.released.is_empty() {
            return Ok(None);
        }
        self.answer_clients()?;
        let events = self.gather(now)?;
        if events.is_empty() {
            return Ok(None);
        }
        let mut records = Vec::new();
        for event in &events {
            records.extend(self.core.core.prepare(event)?);
        }
        self.turns.is_pending = true;
        Ok(Some(Pending { records, events }))
    }

    /// The records are durable: the turns on these events may be made.
    pub fn durable(&mut self, pending: Pending) {
        self.turns.is_pending = false;
        self.turns.released = pending.events;
        // Where the core fails, so it does at the next call, which says so.
        let _ = self.answer_clients();
    }

    /// Makes the turn on the next event whose record is durable; false where there is none.
    pub fn turn(&mut self, now: Time) -> Result<bool, Error> {
        let Some(event) = self.turns.released.pop_front() else { return Ok(false) };
        match self.core.core.act()? {
            Turn::Made(reason) => {
                self.counters.turn(reason);
                self.follow_turn(&event, reason, now)?;
            }
            Turn::Again => {
                self.counters.again += 1;
                self.turns.again.push(event);
            }
        }
        Ok(true)
    }

    /// The next events: those to prepare again, a tick, arrivals, and messages.
    fn gather(&mut self, now: Time) -> Result<VecDeque<Event>, Error> {
        let mut events = VecDeque::from(std::mem::take(&mut self.turns.again));
        if let Some((view, floor)) = self.turns.tick.take() {
            // While a record is being written one may be due again, for a view that it leaves.
            if view == self.core.view {
                self.counters.ticks += 1;
                self.counters.joins += u64::from(self.peers.view_reached() > view);
                events.push_back(Event::Tick(floor));
            }
        }
        let messages = self.gather_messages(&events, now);
        self.foresee(&messages)?;
        let arrived = self.gather_arrivals(&messages, now)?;
        if !arrived.is_empty() {
            events.push_back(Event::Arrived(arrived));
        }
        events.extend(messages.into_iter().map(Event::Delivered));
        Ok(events)
    }

    /// Messages to itself, those that waited for a block or for their view, and new ones.
    fn gather_messages(&mut self, events: &VecDeque<Event>, now: Time) -> Vec<Delivered> {
        let from = self.place.me;
        let to_self = std::mem::take(&mut self.turns.to_self).into_iter();
        let mut messages: Vec<_> = to_self.map(|data| Delivered { from, data }).collect();
        messages.append(&mut self.turns.retry);
        messages.extend(self.asks.take(self.known_view()));
        let room = MAX_GROUP.saturating_sub(events.len() + messages.len());
        let again = events.iter().filter_map(|it| match it {
            Event::Delivered(it) => Some(it.clone()),
            Event::Arrived(_) | Event::Tick(_) => None,
        });
        let taken: Vec<_> = again.chain(messages.iter().cloned()).collect();
        let allowances = &mut self.allowances;
        let new = self.inbox.take(room, &taken, |it| allowances[it as usize].is_slowed(now));
        messages.extend(new);
        messages
    }

    /// What a proposal proposes makes room before its turn, so that the local order which that turn
    /// draws is full again. The core has checked it: it says that the turn would change it.
    fn foresee(&mut self, messages: &[Delivered]) -> Result<(), Error> {
        let is_proposal = |it: &&Delivered| wire::kind_of(&it.data) == Some(wire::Kind::Propose);
        for it in messages.iter().filter(is_proposal) {
            if self.intake.is_open() && self.core.core.would_change(it)? {
                self.intake.block_accepted(self.core.core.desk(), &it.data)?;
            }
        }
        Ok(())
    }

    /// What arrives now. What arrives together needs one record and one sync. It is not used before
    /// the next local order is drawn, so it waits for that, but not for long. Where nothing has
    /// arrived yet, no proposal may come before something does.
    fn gather_arrivals(&mut self, messages: &[Delivered], now: Time) -> Result<Vec<Tx>, Error> {
        if self.is_cut() {
            return Ok(Vec::new()); // what has arrived by now is what is carried over
        }
        if !self.first.is_empty() {
            return Ok(std::mem::take(&mut self.first));
        }
        let is_late = self.turns.looked_at.is_none_or(|at| now.since(at) >= ARRIVE_EVERY);
        let draws = |it: &Delivered| {
            matches!(wire::kind_of(&it.data), Some(wire::Kind::Ask | wire::Kind::Propose))
        };
        if !is_late && self.intake.pending() > 0 && !messages.iter().any(draws) {
            return Ok(Vec::new());
        }
        self.turns.looked_at = Some(now);
        let mut out = self.service_arrivals(now)?;
        if !self.are_views_failing() {
            out.extend(self.intake.arrivals(self.core.core.desk(), self.core.commit)?);
        }
        Ok(out)
    }

    /// Whether views fail, while something that has arrived waits. The core caches the chains of its
    /// last six blocks, and of the one that they extend. Were that of the certified block not among
    /// them, it would work that chain out anew for each transaction that is held, which takes seconds,
    /// and makes further views fail.
    fn are_views_failing(&self) -> bool {
        self.intake.pending() > 0
            && self.core.view > self.core.commit.saturating_add(MAX_OPEN_VIEWS)
    }

    /// Where sessions follow one another, transactions of the service arrive past the others, and
    /// what is left of a session that ends waits for the next one.
    fn service_arrivals(&mut self, now: Time) -> Result<Vec<Tx>, Error> {
        let Some(session) = &mut self.session else { return Ok(Vec::new()) };
        if !self.intake.is_open() {
            return Ok(Vec::new());
        }
        let desk = self.core.core.desk();
        let used = Used { commit: self.core.commit, arrived: self.intake.arrived() };
        let txs = session.arrive(desk, used, now)?;
        if session.is_ending(desk)? {
            self.intake.end();
        }
        self.intake.brought(desk, &txs)?;
        Ok(txs)
    }
}

#[cfg(test)]
#[path = "turns_tests.rs"]
mod tests;
