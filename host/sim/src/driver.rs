//! The engine of a process: one session, or sessions that follow one another.

use bytes::Bytes;
use themis::{Error, Tx};
use themis_engine::core::Core;
use themis_engine::frame::{Frame, HEAD_BYTES};
use themis_engine::sessions::frames::SessionFrame;
use themis_engine::sessions::running::Session;
use themis_engine::sessions::{self, Group, Sessions};
use themis_engine::{Engine, Input, Output, Pending, Sizes, Status, Ticket, Time};

use crate::tapped::Played;

/// The engine of a process.
pub enum Driver {
    /// One session.
    One(Box<Engine<Played>>),
    /// Sessions that follow one another.
    Many(Box<Sessions<Played>>),
}

/// Events whose records are to be durable.
pub enum Prepared {
    /// Of the only session.
    One(Pending),
    /// Of one of many.
    Many(Group),
}

impl Prepared {
    /// What is appended.
    pub fn records(&self) -> &[u8] {
        match self {
            Prepared::One(it) => it.records(),
            Prepared::Many(it) => it.records(),
        }
    }

    /// The session whose log takes it.
    pub fn session(&self) -> u32 {
        match self {
            Prepared::One(_) => 0,
            Prepared::Many(it) => it.session(),
        }
    }
}

/// The frame of one session in the bytes of a frame.
pub fn inner_frame(frame: &Bytes, is_many: bool) -> Option<Frame> {
    let payload = frame.slice(HEAD_BYTES..);
    if !is_many {
        return Frame::decode(frame[4], payload).ok();
    }
    match SessionFrame::decode(frame[4], &payload).ok()? {
        SessionFrame::In { frame, .. } => Some(frame),
        SessionFrame::Ask(_)
        | SessionFrame::Part(_)
        | SessionFrame::AskSession(_)
        | SessionFrame::Session { .. }
        | SessionFrame::Out(_)
        | SessionFrame::Ended(_) => None,
    }
}

impl Driver {
    /// Takes a frame of a peer; whether it was one.
    pub fn take_frame(
        &mut self,
        peer: u32,
        data: &Bytes,
        room: usize,
        now: Time,
    ) -> Result<bool, Error> {
        let payload = data.slice(HEAD_BYTES..);
        match self {
            Driver::One(engine) => {
                let Ok(frame) = Frame::decode(data[4], payload) else { return Ok(false) };
                engine.take(Input::Frame { peer, frame, room }, now)?;
            }
            Driver::Many(it) => {
                let Ok(frame) = SessionFrame::decode(data[4], &payload) else { return Ok(false) };
                it.take(sessions::Input::Frame { peer, frame, room }, now)?;
            }
        }
        Ok(true)
    }

    /// There is a new connection to a peer.
    pub fn connected(&mut self, peer: u32, now: Time) -> Result<(), Error> {
        match self {
            Driver::One(it) => it.take(Input::Connected(peer), now),
            Driver::Many(it) => it.take(sessions::Input::Connected(peer), now),
        }
    }

    /// A client submits.
    pub fn submit(&mut self, ticket: Ticket, txs: Vec<Tx>, now: Time) -> Result<(), Error> {
        match self {
            Driver::One(it) => it.take(Input::Submit { ticket, txs }, now),
            Driver::Many(it) => it.take(sessions::Input::Submit { ticket, txs }, now),
        }
    }

    /// Prepares the next events.
    pub fn prepare(&mut self, now: Time) -> Result<Option<Prepared>, Error> {
        Ok(match self {
            Driver::One(it) => it.prepare(now)?.map(Prepared::One),
            Driver::Many(it) => it.prepare(now)?.map(Prepared::Many),
        })
    }

    /// Their records are durable.
    pub fn durable(&mut self, prepared: Prepared) {
        match (self, prepared) {
            (Driver::One(it), Prepared::One(pending)) => it.durable(pending),
            (Driver::Many(it), Prepared::Many(group)) => it.durable(group),
            (Driver::One(_), Prepared::Many(_)) | (Driver::Many(_), Prepared::One(_)) => {}
        }
    }

    /// Makes the next turn.
    pub fn turn(&mut self, now: Time) -> Result<bool, Error> {
        match self {
            Driver::One(it) => it.turn(now),
            Driver::Many(it) => it.turn(now),
        }
    }

    /// What is to be done.
    pub fn outputs(&mut self) -> Vec<sessions::Output> {
        match self {
            Driver::One(it) => it.outputs().into_iter().map(of_one).collect(),
            Driver::Many(it) => it.outputs(),
        }
    }

    /// When it is to be called.
    pub fn wake_at(&self) -> Time {
        match self {
            Driver::One(it) => it.wake_at(),
            Driver::Many(it) => it.wake_at(),
        }
    }

    /// The engine of the session that runs.
    pub fn engine(&mut self) -> Option<&mut Engine<Played>> {
        match self {
            Driver::One(it) => Some(it),
            Driver::Many(it) => it.running(),
        }
    }

    /// Its views: in the session that runs, and in the one before while it helps others there.
    pub fn views(&mut self) -> Vec<(u32, u32)> {
        let running = self.engine().and_then(reached);
        let before = match self {
            Driver::One(_) => None,
            Driver::Many(it) => it.helping().and_then(reached),
        };
        running.into_iter().chain(before).collect()
    }

    /// Where the engine of the session that runs stands.
    pub fn status(&self, now: Time) -> Option<Status> {
        match self {
            Driver::One(it) => Some(it.status(now)),
            Driver::Many(it) => it.status(now).engine,
        }
    }

    /// How much the engine of the session that runs holds.
    pub fn sizes(&mut self) -> Sizes {
        self.engine().map(|it| it.sizes()).unwrap_or_default()
    }
}

/// The session of an engine, and its view there.
pub fn reached(engine: &mut Engine<Played>) -> Option<(u32, u32)> {
    let session = engine.session().map_or(0, Session::number);
    Some((session, engine.core_mut().views().ok()?.0))
}

fn of_one(output: Output) -> sessions::Output {
    match output {
        Output::Send { to, frame } => sessions::Output::Send { to, frame },
        Output::Broadcast(frame) => sessions::Output::Broadcast(frame),
        Output::Answer(ticket, answer) => sessions::Output::Answer(ticket, answer),
        Output::Batch { position, txs } => sessions::Output::Batch { position, txs },
        Output::Received(txs) => sessions::Output::Received(txs),
        Output::Freed(peer, count) => sessions::Output::Freed(peer, count),
        Output::Noted(note) => sessions::Output::Noted(note),
    }
}
