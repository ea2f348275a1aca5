//! What an operator asks: that one session ends.

use std::fmt;

use crate::core::Core;
use crate::sessions::service::{Sessions, Stage};

/// Why a session is not to end.
#[derive(Clone, Copy, Debug, PartialEq, Eq)]
pub enum NotEnded {
    /// It has ended here.
    HasEnded(u32),
    /// It neither runs here, nor is it the next one.
    IsLater(u32),
    /// This replica has no part in it.
    HasNoPart(u32),
    /// It is never opened here: the cluster ends before it.
    IsAfterLast(u32),
    /// The store was made again, and this replica does not know yet which session runs.
    IsReturning,
}

impl fmt::Display for NotEnded {
    fn fmt(&self, to: &mut fmt::Formatter<'_>) -> fmt::Result {
        match self {
            NotEnded::HasEnded(session) => write!(to, "session {session} has ended"),
            NotEnded::IsLater(session) => write!(to, "session {session} does not run yet"),
            NotEnded::HasNoPart(session) => {
                write!(to, "the replica has no part in session {session}")
            }
            NotEnded::IsAfterLast(session) => {
                write!(to, "the cluster has ended: session {session} is never opened here")
            }
            NotEnded::IsReturning => to.write_str("the replica does not know which session runs"),
        }
    }
}

impl<C: Core> Sessions<C> {
    /// The operator wants a session to end; without a number, the one that the status names. One that
    /// is about to run ends once it does, and the order ends no later one.
    pub fn end(&mut self, session: Option<u32>) -> Result<(), NotEnded> {
        let session = session.unwrap_or(self.history.session);
        let due = self.history.session + u32::from(matches!(self.stage, Stage::Storing));
        match &mut self.stage {
            Stage::Returning(_) => Err(NotEnded::IsReturning),
            _ if session < due => Err(NotEnded::HasEnded(session)),
            Stage::Ended => Err(NotEnded::IsAfterLast(session)),
            _ if session > due => Err(NotEnded::IsLater(session)),
            Stage::Out => Err(NotEnded::HasNoPart(session)),
            Stage::Running(engine) => {
                engine.want_end();
                Ok(())
            }
            Stage::Recovering | Stage::Storing | Stage::Opening | Stage::Marking(_) => {
                self.to_end = Some(session);
                Ok(())
            }
        }
    }

    /// The session runs: it ends where its operator asked for that before.
    pub(super) fn end_if_asked(&mut self) {
        let is_asked = self.to_end.take() == Some(self.history.session);
        if let (Stage::Running(engine), true) = (&mut self.stage, is_asked) {
            engine.want_end();
        }
    }
}
