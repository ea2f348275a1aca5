//! What a replica has of the sessions that have ended: what its store holds.

use crate::sessions::keys::PublicKeys;
use crate::tx::Tx;
use crate::window::Windows;

/// One session, as it ended at this replica. All but `carried` is the same at all honest replicas.
#[derive(Clone, Debug, PartialEq, Eq)]
pub struct Ended {
    /// The session.
    pub session: u32,
    /// The position of its first batch in the list of all sessions.
    pub first: usize,
    /// Its batches, up to the one with the marker.
    pub batches: Vec<Vec<Tx>>,
    /// Chains all batches, from the first session on.
    pub digest: [u8; 32],
    /// The public keys of the next session.
    pub keys: PublicKeys,
    /// What arrived here, in its order, and is not final. It arrives first in the next session.
    pub carried: Vec<Tx>,
}

impl Ended {
    /// The position after its last batch.
    pub fn end(&self) -> usize {
        self.first + self.batches.len()
    }
}

/// Where the history stands: what a replica starts from.
#[derive(Clone, Debug, PartialEq, Eq)]
pub struct History {
    /// The session that comes next, or runs: all before have ended here.
    pub session: u32,
    /// How many batches they have together.
    pub position: usize,
    /// Chains these batches.
    pub digest: [u8; 32],
    /// The public keys of the session.
    pub keys: PublicKeys,
    /// What was carried over to it.
    pub carried: Vec<Tx>,
    /// Which numbers of clients are final.
    pub windows: Windows,
}

impl History {
    /// Before the first session, whose keys the operators chose.
    pub fn new(keys: PublicKeys) -> History {
        History {
            session: 0,
            position: 0,
            digest: [0; 32],
            keys,
            carried: Vec::new(),
            windows: Windows::default(),
        }
    }

    /// After one more session.
    pub fn extend(&mut self, ended: &Ended) {
        self.session = ended.session + 1;
        self.position = ended.end();
        self.digest = ended.digest;
        self.keys.clone_from(&ended.keys);
        self.carried.clone_from(&ended.carried);
        for tx in ended.batches.iter().flatten() {
            self.windows.settle(tx);
        }
    }
}

/// What a replica finds in its store when it starts.
#[derive(Clone, Debug, PartialEq, Eq)]
pub struct Restart {
    /// What the sessions that have ended left.
    pub history: History,
    /// The log of `history.session` was marked as opened.
    pub is_opened: bool,
    /// The public keys of the session before, if its log was marked as opened and is not given up:
    /// others may need it.
    pub helped: Option<PublicKeys>,
    /// The store was lost once, and made again.
    pub made_again: Option<MadeAgain>,
}

/// What a store that was made again knows of the one that was lost.
#[derive(Clone, Copy, Debug, PartialEq, Eq)]
pub enum MadeAgain {
    /// Nothing yet: the peers are asked. A number that is drawn at each start binds their answers.
    Unknown {
        /// The number.
        drawn: u64,
    },
    /// The replica may have sealed in the sessions up to this one, and sits them out.
    SitsOut {
        /// The last of them.
        through: u32,
    },
}
