//! The change from one session to the next: cut, store, open, mark, run.

use std::collections::{HashMap, HashSet};
use std::sync::Arc;

use themis::{Error, Tx};

use crate::core::Core;
use crate::engine::{self, Engine, Restored};
use crate::sessions::behind::Taken;
use crate::sessions::between::Between;
use crate::sessions::history::{Ended, History};
use crate::sessions::keys::{AgreedKeys, PublicKey};
use crate::sessions::old::{Help, Old};
use crate::sessions::requests::{Mark, Marked, Opened, Recover, Recovered, Store, Stored};
use crate::sessions::running::Session;
use crate::sessions::service::{Sessions, Stage};
use crate::sessions::Output;
use crate::time::Time;
use crate::window::Check;

/// What arrived and is in none of the batches, in the order of arrival.
fn left_over(arrived: &[Tx], batches: &[Vec<Tx>]) -> Vec<Tx> {
    let finals: HashSet<&Tx> = batches.iter().flatten().collect();
    arrived.iter().filter(|it| !finals.contains(it)).copied().collect()
}

impl<C: Core> Sessions<C> {
    /// The batch with the marker is final. The engine helps others from now on.
    pub(super) fn cut(&mut self, now: Time) -> Result<(), Error> {
        let Stage::Running(mut engine) = std::mem::replace(&mut self.stage, Stage::Storing) else {
            return Ok(());
        };
        self.take_waiting(&mut engine)?;
        let Some(session) = engine.session() else { return Ok(()) };
        let ended = Ended {
            session: session.number(),
            first: self.history.position,
            batches: session.batches().to_vec(),
            digest: engine.digest(),
            keys: session.next_keys(),
            carried: self.carried_from(session),
        };
        self.retire();
        self.old = Some(Old { session: ended.session, help: Help::Engine(engine), since: now });
        self.store(ended, false);
        self.collect(now)
    }

    fn take_waiting(&mut self, engine: &mut Engine<C>) -> Result<(), Error> {
        let (waiting, clients) = engine.take_waiting()?;
        (self.waiting, self.clients) = (Between::of(waiting), clients);
        Ok(())
    }

    /// What is carried over from a session that was running. Where nothing has arrived yet, that is
    /// what was carried over to it.
    fn carried_from(&self, session: &Session) -> Vec<Tx> {
        let arrived = match session.arrived() {
            [] => &self.history.carried,
            arrived => arrived,
        };
        left_over(arrived, session.batches())
    }

    fn store(&mut self, ended: Ended, is_closed: bool) {
        self.stage = Stage::Storing;
        self.behind = None;
        let ended = Arc::new(ended);
        self.ended = Some(ended.clone());
        self.put(Output::Store(Store { ended, is_closed }));
    }

    /// The end of the session is durable: only now the next one may begin.
    pub(super) fn stored(&mut self, stored: &Stored) {
        let Some(ended) = self.ended.take_if(|it| it.session == stored.session) else { return };
        self.history.extend(&ended);
        if self.old.as_ref().is_none_or(|it| it.session != ended.session) {
            // Its history was taken from others, so nobody is helped by its log.
            self.put(Output::Retired(ended.session));
        }
        let finals: HashSet<&Tx> = ended.batches.iter().flatten().collect();
        self.waiting.settle(&finals);
        for (ticket, answer) in self.clients.settle(|it| finals.contains(it)) {
            self.put(Output::Answer(ticket, answer));
        }
        self.begin();
    }

    /// The log of the session is durable: it is marked before anything is sealed there.
    pub(super) fn opened(&mut self, opened: Opened<C>) {
        if matches!(self.stage, Stage::Opening) && opened.session == self.history.session {
            let Some(core) = opened.core else { return self.sit_out() };
            self.stage = Stage::Marking(core);
            self.put(Output::Mark(Mark { session: opened.session }));
        }
    }

    /// The log of the session is marked: it runs.
    pub(super) fn marked(&mut self, marked: &Marked, now: Time) -> Result<(), Error> {
        if marked.session != self.history.session {
            return Ok(());
        }
        match std::mem::replace(&mut self.stage, Stage::Out) {
            Stage::Marking(core) => self.run(core, &[], 0, now),
            other => {
                self.stage = other;
                Ok(())
            }
        }
    }

    /// A log that was marked is open. One that is missing is lost, and never made again.
    pub(super) fn recovered(&mut self, recovered: Recovered<C>, now: Time) -> Result<(), Error> {
        let is_next = recovered.session == self.history.session;
        match recovered.core {
            Some((core, log, header)) if is_next => self.run(core, &log, header, now),
            None if is_next => {
                self.sit_out();
                Ok(())
            }
            Some((core, log, header)) => self.help(recovered.session, core, &log, header, now),
            None => {
                // It can help nobody, also after the next start.
                if self.old.take_if(|it| it.session == recovered.session).is_some() {
                    self.put(Output::Retired(recovered.session));
                }
                Ok(())
            }
        }
    }

    /// Runs the session.
    fn run(&mut self, core: C, log: &[u8], header: usize, now: Time) -> Result<(), Error> {
        let session = Session::new(self.place, &self.history, &self.known_key);
        let restored = Restored {
            log,
            header,
            settled: Vec::new(),
            carried: self.history.carried.clone(),
            session: Some(session),
            digest: self.history.digest,
        };
        let mut engine = Engine::open(self.place, self.options, core, restored, now)?;
        engine.send_first(now)?;
        self.resume(&mut engine)?;
        self.stage = Stage::Running(Box::new(engine));
        (self.progress, self.progress_at, self.met) = ((0, 0), now, 0);
        self.end_if_asked();
        self.grow_key();
        self.hear_early(now)?;
        self.collect(now)
    }

    /// What waited goes on in the session, with its clients. The windows may have moved since it was
    /// taken: where another transaction with its number is final, it is dropped, as a client's would be
    /// refused now.
    fn resume(&mut self, engine: &mut Engine<C>) -> Result<(), Error> {
        let (mut kept, mut refused) = (Vec::new(), HashMap::new());
        for it in self.waiting.take() {
            match engine.check(&it.tx)? {
                Check::New => kept.push(it),
                why => drop(refused.insert(it.tx, why)),
            }
        }
        let mut clients = std::mem::take(&mut self.clients);
        for (ticket, answer) in clients.refuse(|it| refused.get(it).copied()) {
            self.put(Output::Answer(ticket, answer));
        }
        engine.resume(&kept, clients)
    }

    /// The log of the session before is opened, where a peer is behind.
    pub(super) fn open_old(&mut self) {
        let Some(old) = &mut self.old else { return };
        let session = old.session;
        if let Some(keys) = old.wants_log(&self.peers) {
            self.put(Output::Recover(Recover { session, keys }));
        }
    }

    /// Opens the engine of the session before again, for those that are behind. Where it was retired
    /// meanwhile, its log is closed again.
    fn help(
        &mut self,
        session: u32,
        core: C,
        log: &[u8],
        header: usize,
        now: Time,
    ) -> Result<(), Error> {
        let is_awaited = |it: &Old<C>| it.session == session && matches!(it.help, Help::Opening);
        if !self.old.as_ref().is_some_and(is_awaited) {
            self.put(Output::Retired(session));
            return Ok(());
        }
        // Its batches are stored, and nothing arrives there: only its number counts.
        let before = History { session, ..History::new(Vec::new()) };
        let known = Session::new(self.place, &before, &self.known_key);
        let restored = Restored { log, header, session: Some(known), ..Restored::default() };
        let mut engine = Engine::open(self.place, self.options, core, restored, now)?;
        drop(engine.outputs());
        let is_cut = engine.is_cut();
        let help = Help::Engine(Box::new(engine));
        self.old = is_cut.then_some(Old { session, help, since: now });
        Ok(())
    }

    /// Takes no part in the session.
    pub(super) fn sit_out(&mut self) {
        self.stage = Stage::Out;
        self.look_soon(); // the others may be far ahead
        self.grow_key();
    }

    /// Others have ended the session, and reported how: its engine is closed for ever.
    pub(super) fn take_history(&mut self, taken: Taken) -> Result<(), Error> {
        let first = self.history.position;
        let mut agreed = AgreedKeys::new(self.place.n, self.history.session + 1, &self.known_key);
        taken.batches.iter().for_each(|it| agreed.take(it));
        let (mut shown, mut is_closed) = (0, false);
        let mut carried = left_over(&self.history.carried, &taken.batches);
        if let Stage::Running(mut engine) = std::mem::replace(&mut self.stage, Stage::Storing) {
            self.take_waiting(&mut engine)?;
            self.free(&mut engine);
            (shown, is_closed) = (engine.final_count(), true);
            if let Some(session) = engine.session() {
                if !session.arrived().is_empty() {
                    carried = left_over(session.arrived(), &taken.batches);
                }
            }
        }
        for (at, txs) in taken.batches.iter().enumerate().skip(shown) {
            self.put(Output::Batch { position: first + at, txs: txs.clone() });
        }
        let (session, digest) = (self.history.session, taken.digest);
        let keys = agreed.keys();
        let ended = Ended { session, first, batches: taken.batches, digest, keys, carried };
        self.retire();
        self.store(ended, is_closed);
        Ok(())
    }

    // ---- keys

    /// The own key of the session after this one is made ahead, and announced in this one. None is
    /// made for a session in which this replica can have no part.
    pub(super) fn grow_key(&mut self) {
        let session = self.history.session + 1;
        match self.own_key {
            Some((of, key)) if of == session => self.take_key(session, key),
            _ if self.growing == Some(session) => {}
            _ if !self.may_run(session) => {}
            _ if matches!(self.stage, Stage::Out) && self.is_left_behind() => {}
            _ => {
                self.growing = Some(session);
                self.put(Output::GrowKey(session));
            }
        }
    }

    pub(super) fn take_key(&mut self, session: u32, key: PublicKey) {
        self.own_key = Some((session, key));
        let is_next = session == self.history.session + 1;
        if let (Stage::Running(engine), true) = (&mut self.stage, is_next) {
            engine.announce_key(&key);
        }
    }

    // ---- the engine of the session before

    pub(super) fn retire_old(&mut self, now: Time) {
        let Some(old) = &self.old else { return };
        let may_go = old.may_go(&self.peers, self.place.n, self.place.f, now);
        // Before the next session is opened here, a crash could need it.
        let is_later = matches!(self.stage, Stage::Running(_) | Stage::Out | Stage::Ended);
        if may_go && is_later && self.is_idle(old.session) {
            self.retire();
        }
    }

    fn retire(&mut self) {
        if let Some(mut old) = self.old.take() {
            if let Some(engine) = old.engine() {
                self.free(engine);
            }
            self.put(Output::Retired(old.session));
        }
    }

    /// The slots of what waits in an engine that goes are free again.
    fn free(&mut self, engine: &mut Engine<C>) {
        engine.drop_messages();
        for output in engine.outputs() {
            match output {
                engine::Output::Freed(peer, count) => self.put(Output::Freed(peer, count)),
                engine::Output::Answer(ticket, it) => self.put(Output::Answer(ticket, it)),
                engine::Output::Noted(note) => self.put(Output::Noted(note)),
                engine::Output::Send { .. }
                | engine::Output::Received(_)
                | engine::Output::Broadcast(_)
                | engine::Output::Batch { .. } => {}
            }
        }
    }
}
