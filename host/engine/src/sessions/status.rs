//! Where a replica stands over its sessions, for operators and tests.

use crate::core::Core;
use crate::engine::Engine;
use crate::sessions::old::{Help, Old};
use crate::sessions::service::{Sessions, Stage};
use crate::status;
use crate::time::Time;

/// Where a replica stands over its sessions.
#[derive(Clone, Debug)]
pub struct Status {
    /// The session that comes next, or runs.
    pub session: u32,
    /// What the replica does about it.
    pub stage: &'static str,
    /// The position of its first batch in the list of all sessions.
    pub first: usize,
    /// Final batches, over all sessions.
    pub position: usize,
    /// Chains these batches.
    pub digest: [u8; 32],
    /// Whether the engine of the session before is there, for those that are behind.
    pub helps: bool,
    /// The engine that runs.
    pub engine: Option<status::Status>,
}

impl<C: Core> Sessions<C> {
    /// Where the replica stands.
    pub fn status(&self, now: Time) -> Status {
        let (stage, engine) = match &self.stage {
            Stage::Returning(_) => ("returning", None),
            Stage::Recovering => ("recovering", None),
            Stage::Running(engine) => ("running", Some(engine.status(now))),
            Stage::Storing => ("storing", None),
            Stage::Opening => ("opening", None),
            Stage::Marking(_) => ("marking", None),
            Stage::Out => ("out", None),
            Stage::Ended => ("ended", None),
        };
        let batches = engine.as_ref().map_or(0, |it| it.batches);
        let digest = engine.as_ref().map_or(self.history.digest, |it| it.digest);
        Status {
            session: self.history.session,
            stage,
            first: self.history.position,
            position: self.history.position + batches,
            digest,
            helps: self.old.as_ref().is_some_and(|it| matches!(it.help, Help::Engine(_))),
            engine,
        }
    }

    /// The session that comes next, or runs.
    pub fn session(&self) -> u32 {
        self.history.session
    }

    /// The engine that runs, for a test or a simulator.
    pub fn running(&mut self) -> Option<&mut Engine<C>> {
        match &mut self.stage {
            Stage::Running(engine) => Some(engine),
            _ => None,
        }
    }

    /// The engine of the session before, for a test or a simulator.
    pub fn helping(&mut self) -> Option<&mut Engine<C>> {
        self.old.as_mut().and_then(Old::engine).map(|it| &mut **it)
    }
}
