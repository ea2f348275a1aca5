//! Groups of turns, of the session that runs and of the one before: their engines take turns.

use themis::Error;

use crate::core::Core;
use crate::sessions::service::{Sessions, Stage};
use crate::sessions::Group;
use crate::time::Time;

impl<C: Core> Sessions<C> {
    /// Prepares the next events of one session, as [`Engine::prepare`] does.
    pub fn prepare(&mut self, now: Time) -> Result<Option<Group>, Error> {
        self.look(now);
        if self.pending_of.is_some() {
            return Ok(None);
        }
        self.is_old_next = !self.is_old_next;
        for is_old in [self.is_old_next, !self.is_old_next] {
            let found = if is_old {
                self.old.as_mut().and_then(|it| Some((it.session, it.engine()?)))
            } else if let Stage::Running(engine) = &mut self.stage {
                Some((self.history.session, engine))
            } else {
                None
            };
            let Some((session, engine)) = found else { continue };
            if let Some(pending) = engine.prepare(now)? {
                self.pending_of = Some(session);
                self.collect(now)?;
                return Ok(Some(Group { session, pending }));
            }
        }
        self.collect(now)?;
        Ok(None)
    }

    /// The records are durable: the turns on these events may be made.
    pub fn durable(&mut self, group: Group) {
        self.pending_of = None;
        if let Some(engine) = self.engine_of(group.session) {
            engine.durable(group.pending);
        }
    }

    /// Makes the turn on the next event whose record is durable; false where there is none.
    pub fn turn(&mut self, now: Time) -> Result<bool, Error> {
        let mut has_made = false;
        for engine in self.engines() {
            has_made = engine.turn(now)?;
            if has_made {
                break;
            }
        }
        self.collect(now)?;
        Ok(has_made)
    }

    /// Whether no event of this session is being made durable or waits for its turn.
    pub(super) fn is_idle(&mut self, session: u32) -> bool {
        self.pending_of != Some(session) && self.engine_of(session).is_none_or(|it| it.is_idle())
    }
}
