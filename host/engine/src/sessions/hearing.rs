//! What peers send, by its session, and what a replica does that others have left behind.

use std::time::Duration;

use themis::{Error, Receipt};

use crate::core::Core;
use crate::engine;
use crate::frame::Frame;
use crate::guards::is_fit;
use crate::sessions::behind::{Asked, Behind};
use crate::sessions::frames::{AskHistory, HistoryPart, SessionFrame};
use crate::sessions::keys::announcement;
use crate::sessions::old::Old;
use crate::sessions::peers::Early;
use crate::sessions::service::{Sessions, Stage};
use crate::sessions::{Output, Read};
use crate::time::Time;

/// Without a batch or a commit for so long, while others are in a later session, their history is
/// asked for.
const BEHIND_AFTER: Duration = Duration::from_secs(1);
/// How often a replica without part in a session announces its next key.
const ANNOUNCE_EVERY: Duration = Duration::from_millis(500);

impl<C: Core> Sessions<C> {
    pub(super) fn hear(
        &mut self,
        peer: u32,
        frame: SessionFrame,
        room: usize,
        now: Time,
    ) -> Result<(), Error> {
        match frame {
            SessionFrame::In { session, frame } => {
                self.peers.hear(peer, session);
                return self.hear_in(session, peer, frame, room, now);
            }
            SessionFrame::Ask(ask) => self.hear_ask(peer, ask, now),
            SessionFrame::Part(part) => self.hear_part(peer, part, now)?,
            SessionFrame::AskSession(drawn) => self.hear_session_asked(peer, drawn, now),
            SessionFrame::Session { drawn, session } => self.hear_session(peer, drawn, session),
            SessionFrame::Out(session) => self.hear_out(peer, session),
            SessionFrame::Ended(session) => self.hear_ended(peer, session),
        }
        self.put(Output::Freed(peer, 1));
        Ok(())
    }

    /// A frame of one session goes to its engine, or waits for it.
    fn hear_in(
        &mut self,
        session: u32,
        peer: u32,
        frame: Frame,
        room: usize,
        now: Time,
    ) -> Result<(), Error> {
        let is_receipts = matches!(frame, Frame::Receipts { .. });
        if let Stage::Running(engine) = &mut self.stage {
            if self.history.session == session {
                if self.met >> peer & 1 == 0 {
                    // What it was told before it was in the session is lost.
                    self.met |= 1 << peer;
                    engine.take(engine::Input::Connected(peer), now)?;
                }
                return engine.take(engine::Input::Frame { peer, frame, room }, now);
            }
        }
        let old = self.old.as_mut().filter(|it| it.session == session && !is_receipts);
        if let Some(engine) = old.and_then(Old::engine) {
            return engine.take(engine::Input::Frame { peer, frame, room }, now);
        }
        let mut freed = 1;
        if self.awaited() == Some(session) && self.may_wait(peer, &frame) {
            freed = self.early.put(peer, session, frame, room);
        }
        if freed > 0 {
            self.put(Output::Freed(peer, freed));
        }
        Ok(())
    }

    /// Whether a frame is worth a place among those that wait: one that no honest peer sends would push
    /// out one that the session needs.
    fn may_wait(&self, peer: u32, frame: &Frame) -> bool {
        match frame {
            Frame::Message(data) => is_fit(&self.place, peer, data),
            _ => true,
        }
    }

    /// The session whose frames wait until it runs here.
    fn awaited(&self) -> Option<u32> {
        match self.stage {
            Stage::Running(_) | Stage::Storing => Some(self.history.session + 1),
            Stage::Recovering | Stage::Opening | Stage::Marking(_) => Some(self.history.session),
            Stage::Out | Stage::Ended | Stage::Returning(_) => None,
        }
    }

    /// Frames that came before the session ran here.
    pub(super) fn hear_early(&mut self, now: Time) -> Result<(), Error> {
        let session = self.history.session;
        for Early { peer, frames, others } in self.early.take(session) {
            if others > 0 {
                self.put(Output::Freed(peer, others));
            }
            for (frame, room) in frames {
                self.hear_in(session, peer, frame, room, now)?;
            }
        }
        Ok(())
    }

    // ---- histories

    /// A peer asks how a session ended here. The answer comes from the store.
    fn hear_ask(&mut self, peer: u32, ask: AskHistory, now: Time) {
        let may_ask = self.asks[peer as usize].take(1.0, now);
        if may_ask && ask.session < self.history.session {
            let AskHistory { session, from, wants_batches } = ask;
            self.put(Output::Read(Read { peer, session, from, wants_batches }));
        }
    }

    fn hear_part(&mut self, peer: u32, part: HistoryPart, now: Time) -> Result<(), Error> {
        let Some(behind) = &mut self.behind else { return Ok(()) };
        let (asked, taken) = behind.take(peer, part, now);
        self.ask(asked);
        let Some(taken) = taken else { return Ok(()) };
        if self.is_idle(self.history.session) {
            self.take_history(taken)
        } else {
            // Its turns are made first: what they logged has arrived.
            self.behind = None;
            Ok(())
        }
    }

    fn ask(&mut self, asked: impl IntoIterator<Item = Asked>) {
        for (to, ask) in asked {
            self.put(Output::Send { to, frame: SessionFrame::Ask(ask).encode() });
        }
    }

    /// Asks for the end of the session, where others are in a later one and it does not get on here.
    pub(super) fn catch_up(&mut self, now: Time) {
        let session = self.history.session;
        let is_stuck = match &self.stage {
            Stage::Running(engine) => {
                let progress = engine.progress();
                if progress != self.progress {
                    (self.progress, self.progress_at) = (progress, now);
                }
                now.since(self.progress_at) > BEHIND_AFTER
            }
            Stage::Out => true,
            Stage::Returning(_)
            | Stage::Recovering
            | Stage::Storing
            | Stage::Opening
            | Stage::Marking(_)
            | Stage::Ended => false,
        };
        if !is_stuck || !self.is_left_behind() {
            self.behind = None;
            return;
        }
        let ahead: Vec<u32> = self.peers.after(session).collect();
        let (first, digest, f) = (self.history.position, self.history.digest, self.place.f);
        let behind = self.behind.get_or_insert_with(|| Behind::new(session, first, digest, f));
        let asked = behind.step(&ahead, now);
        self.ask(asked);
    }

    /// Whether more than f peers are in a later session, and so an honest one.
    pub(super) fn is_left_behind(&self) -> bool {
        self.peers.count_after(self.history.session) > self.place.f
    }

    /// A peer has no part in a session, though it may have a key there.
    fn hear_out(&mut self, peer: u32, session: u32) {
        self.peers.hear(peer, session);
        if let (Stage::Running(engine), true) = (&mut self.stage, session == self.history.session) {
            engine.note_out(peer);
        }
    }

    /// A replica without part in the session says so, and announces its next key by receipts alone: its
    /// peers let them arrive. One that takes the history of many sessions does so once it is in that
    /// of the others.
    pub(super) fn announce_from_outside(&mut self, now: Time) {
        let session = self.history.session;
        if !matches!(self.stage, Stage::Out) || self.is_left_behind() {
            return;
        }
        let key = self.own_key.filter(|(of, _)| *of == session + 1);
        if key.is_none() {
            self.grow_key();
        }
        if now.since(self.announced_at) < ANNOUNCE_EVERY {
            return;
        }
        self.announced_at = now;
        if let Some((of, key)) = key.filter(|(of, _)| self.may_run(*of)) {
            let txs = announcement(self.place.me, of, &key);
            let receipts = txs.into_iter().map(|tx| Receipt { tx, stamp: 1 }).collect();
            let frame = Frame::Receipts { clock: 0, receipts };
            self.put(Output::Broadcast(SessionFrame::In { session, frame }.encode()));
        }
        self.put(Output::Broadcast(SessionFrame::Out(session).encode()));
    }
}
