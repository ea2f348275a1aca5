//! The last session: with it the operators end a cluster, so that another one, with other members or
//! another setting, continues its list.
//!
//! The replica stores how the last session ended, and opens no later one: it makes no log there, so it
//! seals nothing. It goes on helping peers that have not ended the session, hands out how sessions
//! ended, and says to all that it has ended this one, so that those that are behind ask it.

use std::time::Duration;

use crate::core::Core;
use crate::sessions::between::Between;
use crate::sessions::frames::SessionFrame;
use crate::sessions::service::{Sessions, Stage};
use crate::sessions::Output;
use crate::time::Time;

/// How often peers hear that this replica has ended the last session.
const ANNOUNCE_EVERY: Duration = Duration::from_millis(500);

impl<C: Core> Sessions<C> {
    /// Whether the operator lets a session be opened here.
    pub(super) fn may_open(&self, session: u32) -> bool {
        self.options.last_session.is_none_or(|last| session <= last)
    }

    /// The last session has ended, and that is stored. What waits is not durable, so its clients hear
    /// that it was not taken.
    pub(super) fn finish(&mut self) {
        self.stage = Stage::Ended;
        self.waiting = Between::default();
        for (ticket, answer) in self.clients.end() {
            self.put(Output::Answer(ticket, answer));
        }
    }

    /// Says to all peers that the last session has ended here.
    pub(super) fn announce_end(&mut self, now: Time) {
        let Some(last) = self.history.session.checked_sub(1) else { return };
        let is_due = now.since(self.announced_at) >= ANNOUNCE_EVERY;
        if matches!(self.stage, Stage::Ended) && is_due {
            self.announced_at = now;
            self.put(Output::Broadcast(SessionFrame::Ended(last).encode()));
        }
    }

    /// A peer has ended a session, and opens no later one. It can say how that one ended.
    pub(super) fn hear_ended(&mut self, peer: u32, session: u32) {
        self.peers.hear(peer, session.saturating_add(1));
    }
}
