//! The state of a replica over sessions, and what goes in and out.

use std::sync::Arc;
use std::time::Duration;

use themis::Error;

use crate::clients::Clients;
use crate::core::Core;
use crate::engine::{self, Engine};
use crate::sessions::behind::Behind;
use crate::sessions::between::Between;
use crate::sessions::frames::in_session;
use crate::sessions::history::{Ended, History, MadeAgain, Restart};
use crate::sessions::keys::{PublicKey, PublicKeys};
use crate::sessions::old::{Help, Old};
use crate::sessions::peers::{EarlyFrames, PeerSessions};
use crate::sessions::requests::{OpenLog, Recover};
use crate::sessions::returning::Returning;
use crate::sessions::running::Session;
use crate::sessions::{Found, Input, Output};
use crate::setting::{Options, Place};
use crate::time::Time;

/// How often the change of sessions is looked at.
const LOOK_EVERY: Duration = Duration::from_millis(100);

/// Where a replica stands in the session that comes next, or runs.
#[derive(Debug)]
pub(super) enum Stage<C> {
    /// Its store was made again: it asks in which session the others are.
    Returning(Returning),
    /// Its log was marked, and is being opened.
    Recovering,
    /// It runs.
    Running(Box<Engine<C>>),
    /// Its cut is being stored.
    Storing,
    /// Its log is being made.
    Opening,
    /// Its log is being marked.
    Marking(C),
    /// This replica takes no part: it has no key there, or has lost its log.
    Out,
    /// It is never opened here: the operator ends the cluster with the session before.
    Ended,
}

/// A replica over its sessions, without anything that it touches.
#[derive(Debug)]
pub struct Sessions<C> {
    pub(super) place: Place,
    pub(super) options: Options,
    pub(super) history: History,
    pub(super) stage: Stage<C>,
    pub(super) old: Option<Old<C>>,
    pub(super) peers: PeerSessions,
    pub(super) early: EarlyFrames,
    /// Peers from which a frame of the session that runs has come: bit i for replica i.
    pub(super) met: u16,
    /// The sessions up to this one are sat out: the store was lost, and the replica may have sealed
    /// there.
    pub(super) sits_out: Option<u32>,
    /// The session whose key is being made.
    pub(super) growing: Option<u32>,
    /// The own key that was made last, and its session.
    pub(super) own_key: Option<(u32, PublicKey)>,
    /// Any public key: all have the same head.
    pub(super) known_key: PublicKey,
    pub(super) behind: Option<Behind>,
    /// The session whose core is opened ahead.
    ahead: u32,
    /// What was received and has not arrived, between two sessions.
    pub(super) waiting: Between,
    /// How the session ended, while that is being stored.
    pub(super) ended: Option<Arc<Ended>>,
    /// The session that is to end as soon as it runs, as its operator wants it.
    pub(super) to_end: Option<u32>,
    /// Submissions that wait, between two sessions.
    pub(super) clients: Clients,
    /// What the engine that runs had made final when it last got on, and when that was.
    pub(super) progress: (usize, u32),
    pub(super) progress_at: Time,
    pub(super) announced_at: Time,
    pub(super) asks: Vec<crate::budget::Budget>,
    /// The session of the records that are being made durable.
    pub(super) pending_of: Option<u32>,
    /// Whether the engine of the session before prepares first, the next time.
    pub(super) is_old_next: bool,
    looked_at: Option<Time>,
    outputs: Vec<Output>,
}

impl<C: Core> Sessions<C> {
    /// A replica that starts with what its store holds.
    pub fn open(place: Place, options: Options, restart: Restart, now: Time) -> Sessions<C> {
        let known_key = restart.history.keys.iter().flatten().next().copied();
        let mut made = Sessions {
            place,
            options,
            history: restart.history,
            stage: Stage::Recovering,
            old: None,
            peers: PeerSessions::new(place.n),
            early: EarlyFrames::new(place.n),
            met: 0,
            sits_out: None,
            growing: None,
            own_key: None,
            known_key: known_key.unwrap_or([0; 60]),
            behind: None,
            ahead: 0,
            waiting: Between::default(),
            to_end: None,
            ended: None,
            clients: Clients::default(),
            progress: (0, 0),
            progress_at: now,
            announced_at: now,
            asks: vec![crate::budget::Budget::new(20.0, 40.0); place.n as usize],
            pending_of: None,
            is_old_next: false,
            looked_at: None,
            outputs: Vec::new(),
        };
        match restart.made_again {
            Some(MadeAgain::Unknown { drawn }) => {
                made.stage = Stage::Returning(Returning::new(drawn, place.n, place.f));
                return made;
            }
            Some(MadeAgain::SitsOut { through }) => made.sits_out = Some(through),
            None => {}
        }
        if restart.is_opened {
            let (session, keys) = (made.history.session, made.history.keys.clone());
            made.put(Output::Recover(Recover { session, keys }));
        } else {
            made.begin();
        }
        made.old = made.helped(restart.helped, now);
        made
    }

    /// The session before, whose log others may need.
    fn helped(&self, keys: Option<PublicKeys>, since: Time) -> Option<Old<C>> {
        let session = self.history.session.checked_sub(1)?;
        Some(Old { session, help: Help::Log(keys?), since })
    }

    /// Starts with the next session: its log first, or without part in it.
    pub(super) fn begin(&mut self) {
        if !self.may_open(self.history.session) {
            return self.finish();
        }
        let History { session, keys, .. } = &self.history;
        let has_key = keys.get(self.place.me as usize).is_some_and(Option::is_some);
        if has_key && self.may_run(*session) {
            let (session, keys) = (*session, keys.clone());
            self.stage = Stage::Opening;
            self.put(Output::OpenLog(OpenLog { session, keys }));
        } else {
            self.sit_out();
        }
    }

    /// Takes what happened. What it leads to comes with [`Sessions::prepare`] and the turns.
    pub fn take(&mut self, input: Input<C>, now: Time) -> Result<(), Error> {
        match input {
            Input::Frame { peer, frame, room } => self.hear(peer, frame, room, now)?,
            Input::Connected(peer) => {
                for engine in self.engines() {
                    engine.take(engine::Input::Connected(peer), now)?;
                }
            }
            Input::Submit { ticket, txs } => self.submit(ticket, txs, now)?,
            Input::Gone(ticket) => {
                self.clients.remove(ticket);
                if let Stage::Running(engine) = &mut self.stage {
                    engine.take(engine::Input::Gone(ticket), now)?;
                }
            }
            Input::Key { session, key } => self.take_key(session, key),
            Input::Found(found) => self.answer_peer(found),
            Input::Searched(searched) => {
                if let Stage::Running(engine) = &mut self.stage {
                    engine.take_searched(searched)?;
                }
            }
            Input::Stored(stored) => self.stored(&stored),
            Input::Opened(opened) => self.opened(opened),
            Input::Marked(marked) => self.marked(&marked, now)?,
            Input::Recovered(recovered) => self.recovered(recovered, now)?,
            Input::SatOut(sat_out) => self.sat_out(&sat_out),
        }
        self.collect(now)
    }

    fn answer_peer(&mut self, found: Found) {
        let Found { read, end, batches } = found;
        let part = crate::sessions::frames::HistoryPart {
            session: read.session,
            end,
            from: read.from,
            batches,
        };
        let frame = crate::sessions::frames::SessionFrame::Part(part).encode();
        self.put(Output::Send { to: read.peer, frame });
    }

    // ---- engines

    /// The engines that may have turns to make.
    pub(super) fn engines(&mut self) -> impl Iterator<Item = &mut Box<Engine<C>>> {
        let running = match &mut self.stage {
            Stage::Running(engine) => Some(engine),
            _ => None,
        };
        running.into_iter().chain(self.old.as_mut().and_then(Old::engine))
    }

    /// The engine of a session.
    pub(super) fn engine_of(&mut self, session: u32) -> Option<&mut Box<Engine<C>>> {
        match &mut self.stage {
            Stage::Running(engine) if self.history.session == session => Some(engine),
            _ => self.old.as_mut().filter(|it| it.session == session).and_then(Old::engine),
        }
    }

    // ---- what goes out

    /// What is to be done since the last call, in this order.
    pub fn outputs(&mut self) -> Vec<Output> {
        std::mem::take(&mut self.outputs)
    }

    pub(super) fn put(&mut self, output: Output) {
        self.outputs.push(output);
    }

    /// Takes the outputs of the engines, and sees whether the session is cut.
    pub(super) fn collect(&mut self, now: Time) -> Result<(), Error> {
        let old = self.old.as_mut().and_then(|it| Some((it.session, it.engine()?.outputs())));
        if let Some((session, outputs)) = old {
            for output in outputs {
                // What the old engine makes final is void.
                if !matches!(output, engine::Output::Batch { .. }) {
                    self.pass(session, output);
                }
            }
        }
        if let Stage::Running(engine) = &mut self.stage {
            let (session, is_cut, outputs) =
                (self.history.session, engine.is_cut(), engine.outputs());
            let search = engine.search(now).map(Output::Search);
            outputs.into_iter().for_each(|it| self.pass(session, it));
            self.outputs.extend(search);
            if is_cut {
                self.cut(now)?;
            }
        }
        Ok(())
    }

    fn pass(&mut self, session: u32, output: engine::Output) {
        let position = self.history.position;
        self.put(match output {
            engine::Output::Send { to, frame } => {
                Output::Send { to, frame: in_session(session, &frame) }
            }
            engine::Output::Broadcast(frame) => Output::Broadcast(in_session(session, &frame)),
            engine::Output::Answer(ticket, answer) => Output::Answer(ticket, answer),
            engine::Output::Batch { position: at, txs } => {
                Output::Batch { position: position + at, txs }
            }
            engine::Output::Received(txs) => Output::Received(txs),
            engine::Output::Freed(peer, count) => Output::Freed(peer, count),
            engine::Output::Noted(note) => Output::Noted(note),
        });
    }

    /// When [`Sessions::prepare`] is to be called at the latest.
    pub fn wake_at(&self) -> Time {
        let mut at = self.looked_at.unwrap_or_default() + LOOK_EVERY;
        if let Stage::Running(engine) = &self.stage {
            at = at.min(engine.wake_at());
        }
        if let Some(Old { help: Help::Engine(engine), .. }) = &self.old {
            at = at.min(engine.wake_at());
        }
        at
    }

    /// The next call of [`Sessions::prepare`] looks at the change of sessions.
    pub(super) fn look_soon(&mut self) {
        self.looked_at = None;
    }

    /// Looks at the change of sessions, now and then.
    pub(super) fn look(&mut self, now: Time) {
        if self.looked_at.is_none_or(|at| now.since(at) >= LOOK_EVERY) {
            self.looked_at = Some(now);
            self.retire_old(now);
            self.open_old();
            self.open_ahead();
            self.ask_for_session(now);
            self.announce_from_outside(now);
            self.announce_end(now);
            self.catch_up(now);
        }
    }

    /// The keys of the next session do not change once all of them are agreed.
    fn open_ahead(&mut self) {
        let next = self.history.session + 1;
        let Stage::Running(engine) = &self.stage else { return };
        let keys = engine.session().map(Session::next_keys).unwrap_or_default();
        let are_agreed = !keys.is_empty() && keys.iter().all(Option::is_some);
        if self.ahead != next && are_agreed && self.may_open(next) {
            self.ahead = next;
            self.put(Output::OpenAhead(next, keys));
        }
    }
}
