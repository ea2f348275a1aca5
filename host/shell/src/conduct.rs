//! What a program does to a replica besides running it: `themisd` nothing; the faulty replicas of
//! tests change what it receives and sends.

use bytes::Bytes;
use themis::{Error, Replica, Role};
use themis_engine::core::Core;
use themis_engine::frame::Frame;
use themis_engine::setting::Place;
use themis_engine::{Engine, Time};

use crate::timed::Timed;

/// What a replica was opened with.
pub struct Opened<'a> {
    /// The session: 0 where there is one alone.
    pub session: u32,
    /// What the library knows of it.
    pub role: Role,
    /// Its secret of the session.
    pub secret: [u8; 48],
    /// The keys of all replicas in the session.
    pub public_keys: &'a [[u8; 60]],
    /// Its log.
    pub log: &'a [u8],
}

impl Opened<'_> {
    /// A core as the log leaves it, and how many bytes of the log are whole records.
    pub fn replica(&self) -> Result<(Replica, usize), Error> {
        Replica::open(&self.role, &self.secret, self.public_keys, self.log)
    }
}

/// What a program does to a replica. Where sessions follow one another, the thread that opens cores has
/// a clone.
pub trait Conduct: Clone + Send + 'static {
    /// The name of the program.
    const NAME: &'static str;
    /// The core, as the engine has it.
    type Core: Core + Send;

    /// The conduct for the deeds of a configuration; the cause where this program does not run such a
    /// replica.
    fn of(deeds: &[String], place: Place, is_over_sessions: bool) -> Result<Self, String>;

    /// The core of a session, which was opened with that.
    fn core(&self, core: Timed, opened: &Opened) -> Result<Self::Core, Error>;

    /// The core below, which has the times of its calls.
    fn timed(core: &mut Self::Core) -> &mut Timed;

    /// A peer has sent this frame, of any session.
    fn receive(&mut self, frame: &Frame);

    /// What is sent, where the engine sends a frame to a peer.
    fn send(&mut self, to: u32, frame: Bytes) -> Option<Bytes>;

    /// What else is sent by now, in the engine's session. It is asked after each group of turns.
    fn act(
        &mut self,
        engine: &mut Engine<Self::Core>,
        now: Time,
    ) -> Result<Vec<(u32, Bytes)>, Error>;
}

/// The conduct of `themisd`: nothing is changed.
#[derive(Clone)]
pub struct Honest;

impl Conduct for Honest {
    const NAME: &'static str = "themisd";
    type Core = Timed;

    fn of(deeds: &[String], _place: Place, _is_over_sessions: bool) -> Result<Honest, String> {
        if deeds.is_empty() {
            return Ok(Honest);
        }
        Err(format!("deeds ({}) are for tests: themisd-faulty does them", deeds.join(", ")))
    }

    fn core(&self, core: Timed, _opened: &Opened) -> Result<Timed, Error> {
        Ok(core)
    }

    fn timed(core: &mut Timed) -> &mut Timed {
        core
    }

    fn receive(&mut self, _frame: &Frame) {}

    fn send(&mut self, _to: u32, frame: Bytes) -> Option<Bytes> {
        Some(frame)
    }

    fn act(&mut self, _engine: &mut Engine<Timed>, _now: Time) -> Result<Vec<(u32, Bytes)>, Error> {
        Ok(Vec::new())
    }
}
