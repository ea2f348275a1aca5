//! What goes into a replica, and comes out of it.

use crate::c;
use crate::error::Error;

/// A transaction.
pub use crate::c::CTx as Tx;

/// The trees of a key. The key gives 5 seals for each view.
#[derive(Clone, Copy, Debug, PartialEq, Eq)]
pub enum Height {
    /// One tree of 5 levels: 6 views.
    H5 = 5,
    /// One tree of 10 levels: 204 views.
    H10 = 10,
    /// A top tree of 5 levels, and lower trees of 5: 204 views.
    H5H5 = 505,
    /// A top tree of 5 levels, and lower trees of 10: 6553 views.
    H5H10 = 510,
}

/// What a replica is in a run.
#[derive(Clone, Copy, Debug, PartialEq, Eq)]
pub struct Role {
    /// How many replicas there are: 1 to 16.
    pub n: u32,
    /// How many of them may be faulty.
    pub f: u32,
    /// The fairness is p/q: above 1/2 and at most 1, with n(2p-q) > 4fq.
    pub p: u32,
    /// At most 1000.
    pub q: u32,
    /// The last view of the run.
    pub views: u32,
    /// This replica's number, below n.
    pub me: u32,
    /// The height of all keys.
    pub height: Height,
}

impl Role {
    pub(crate) fn for_c(&self) -> c::CRole {
        c::CRole {
            n: self.n,
            f: self.f,
            p: self.p,
            q: self.q,
            views: self.views,
            me: self.me,
            height: self.height as u32,
        }
    }
}

/// The run that an auditor expects, from its own configuration and never from the trace.
#[derive(Clone, Copy, Debug, PartialEq, Eq)]
pub struct Run {
    /// How many replicas there are: 1 to 16.
    pub n: u32,
    /// How many of them may be faulty.
    pub f: u32,
    /// The fairness is p/q: above 1/2 and at most 1, with n(2p-q) > 4fq.
    pub p: u32,
    /// At most 1000.
    pub q: u32,
    /// The last view of the run.
    pub views: u32,
    /// The height of all keys.
    pub height: Height,
}

impl Run {
    pub(crate) fn for_c(&self) -> c::CRun {
        c::CRun {
            n: self.n,
            f: self.f,
            p: self.p,
            q: self.q,
            views: self.views,
            height: self.height as u32,
        }
    }
}

impl From<&Role> for Run {
    /// The run in which a replica has this role.
    fn from(role: &Role) -> Run {
        Run {
            n: role.n,
            f: role.f,
            p: role.p,
            q: role.q,
            views: role.views,
            height: role.height,
        }
    }
}

/// Why a turn did what it did: `Done`, or the first test of the event's kind that refused it.
#[derive(Clone, Copy, Debug, PartialEq, Eq)]
#[allow(missing_docs)]
pub enum Reason {
    Done,
    BadWire,
    Foreign,
    ViewLimit,
    NotLeader,
    OldView,
    BadSeal,
    BadCert,
    Orphan,
    Misfit,
    Clash,
    Unsafe,
    Repeat,
    /// A number that this crate does not know: the library is newer.
    Unknown(u32),
}

const REASONS: [Reason; 13] = [
    Reason::Done,
    Reason::BadWire,
    Reason::Foreign,
    Reason::ViewLimit,
    Reason::NotLeader,
    Reason::OldView,
    Reason::BadSeal,
    Reason::BadCert,
    Reason::Orphan,
    Reason::Misfit,
    Reason::Clash,
    Reason::Unsafe,
    Reason::Repeat,
];

impl From<u32> for Reason {
    fn from(number: u32) -> Reason {
        let known = usize::try_from(number)
            .ok()
            .and_then(|at| REASONS.get(at).copied());
        known.unwrap_or(Reason::Unknown(number))
    }
}

/// A message that a turn sends.
#[derive(Clone, Debug, PartialEq, Eq)]
pub struct Message {
    /// The replica that it is for, which may be the sender.
    pub to: u32,
    /// Its bytes.
    pub bytes: Vec<u8>,
}

/// An entry of a replica's journal in a trace.
#[derive(Clone, Copy, Debug, PartialEq, Eq)]
pub struct Place {
    /// The replica.
    pub replica: u32,
    /// The entry, counted from 0.
    pub entry: u32,
}

/// The result of an audit.
#[derive(Clone, Debug, PartialEq, Eq)]
pub struct Audited {
    /// What it found.
    pub finding: Finding,
    /// The replicas that the trace names as faulty, at most f of them. The trace records nothing of
    /// these, and the audit claims nothing of them.
    pub faulty: Vec<u32>,
}

/// What an audit found.
#[derive(Clone, Copy, Debug, PartialEq, Eq)]
pub enum Finding {
    /// The promise holds of the run: each replica that is not named as faulty conforms to the
    /// protocol, no seal is forged, and no two blocks have the same digest.
    Lawful,
    /// A replica breaks a rule.
    Unlawful {
        /// Where.
        place: Place,
        /// 1 to 5; or 6 and 7, after the last entry.
        rule: u32,
    },
    /// A replica received a forged seal.
    Forged {
        /// Where.
        place: Place,
        /// The part of the message.
        part: u32,
        /// The replica whose seal it pretends to be.
        signer: u32,
    },
    /// Two blocks have the same digest.
    Collided {
        /// Where one was received.
        place: Place,
        /// Where the other was; none stands for the first block of every chain.
        second: Option<Place>,
    },
}

impl c::CFinding {
    fn place(&self) -> Place {
        Place {
            replica: self.replica,
            entry: self.entry,
        }
    }

    fn second(&self) -> Option<Place> {
        (self.has_second != 0).then_some(Place {
            replica: self.second_replica,
            entry: self.second_entry,
        })
    }

    /// The result of an audit with this status.
    pub(crate) fn audited(&self, status: u32) -> Result<Audited, Error> {
        Ok(Audited {
            finding: self.with(status)?,
            faulty: (0..u32::BITS)
                .filter(|replica| self.faulty >> replica & 1 == 1)
                .collect(),
        })
    }

    /// What an audit found, by its status.
    fn with(&self, status: u32) -> Result<Finding, Error> {
        match status {
            c::UNLAWFUL => Ok(Finding::Unlawful {
                place: self.place(),
                rule: self.rule,
            }),
            c::FORGED => Ok(Finding::Forged {
                place: self.place(),
                part: self.part,
                signer: self.signer,
            }),
            c::COLLIDED => Ok(Finding::Collided {
                place: self.place(),
                second: self.second(),
            }),
            c::BAD_TRACE => Err(Error::BadTrace { at: self.at }),
            status => Error::check(status).map(|()| Finding::Lawful),
        }
    }
}
