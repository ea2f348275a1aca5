//! The session before: its engine helps those that are behind, until none needs it.

use std::time::Duration;

use crate::engine::Engine;
use crate::sessions::keys::PublicKeys;
use crate::sessions::peers::PeerSessions;
use crate::time::Time;

/// For so long it stays, where not all peers are known to be in a later session.
const HELP_FOR: Duration = Duration::from_secs(20);

/// A session that has ended here, and whose log may still be needed.
#[derive(Debug)]
pub struct Old<C> {
    /// The session.
    pub session: u32,
    /// What helps others.
    pub help: Help<C>,
    /// When the session ended here, or when its log was opened; before that, when the process
    /// started.
    pub since: Time,
}

/// What helps those that have not ended a session.
#[derive(Debug)]
pub enum Help<C> {
    /// Its log, after a start. It is opened once a peer needs it: to play a session again takes as
    /// long as the start of a replica that runs it.
    Log(PublicKeys),
    /// Its log is being opened.
    Opening,
    /// Its engine. Nothing arrives there any more, and what it makes final is void.
    Engine(Box<Engine<C>>),
}

impl<C> Old<C> {
    /// The engine, where it is there.
    pub fn engine(&mut self) -> Option<&mut Box<Engine<C>>> {
        match &mut self.help {
            Help::Engine(engine) => Some(engine),
            Help::Log(_) | Help::Opening => None,
        }
    }

    /// Its public keys, where its log has to be opened now: a peer is heard that has not ended the
    /// session. One that is not heard needs no help until it is.
    pub fn wants_log(&mut self, peers: &PeerSessions) -> Option<PublicKeys> {
        match &mut self.help {
            Help::Log(keys) if peers.is_any_within(self.session) => {
                let keys = std::mem::take(keys);
                self.help = Help::Opening;
                Some(keys)
            }
            Help::Log(_) | Help::Opening | Help::Engine(_) => None,
        }
    }

    /// Whether nobody needs it any more: all are in a later session; or it was there for long, and so
    /// many are that f+1 honest ones can hand out the history. Were it to go before that, those that
    /// miss the certificate of the cut could be too few for another, and too many for f+1 answers.
    pub fn may_go(&self, peers: &PeerSessions, n: u32, f: u32, now: Time) -> bool {
        let later = 1 + peers.count_after(self.session);
        later >= n || now.since(self.since) > HELP_FOR && later > 2 * f
    }
}
