//! Cores over the logs of sessions: new ones, and those that a log leads to.
//!
//! The log of a session begins with its header and one event, by which the replica asks for the first
//! view. That seal takes longest: the first tree of the key grows for it. So both are made ahead,
//! while the session before runs. What the first turn sends stays in the core until the session runs.
//! Whenever a log is begun anew, the same keys lead to the same event and the same seal.

use themis::{Error, Replica, Role};
use themis_engine::sessions::keys::{for_library, PublicKey, PublicKeys};
use themis_engine::sessions::requests::{OpenLog, Opened, Recover, Recovered};
use themis_engine::sessions::secret::{secret_of, Master};

use crate::conduct::{self, Conduct};
use crate::exit::{Exit, Failure};
use crate::log::EventLog;
use crate::seal_threads::SealThreads;
use crate::session_logs::{Marked, SessionLogs, BEGINNING_BYTES};
use crate::timed::Timed;

/// What opens the cores of one replica.
#[derive(Clone)]
pub struct Cores<C> {
    /// The replica's logs.
    pub logs: SessionLogs,
    /// What the library is told of the replica.
    pub role: Role,
    /// What each session's secret is made from.
    pub master: Master,
    /// The session that came next, or ran, when the process started.
    pub first: u32,
    /// How many threads check seals for a core.
    pub seal_threads: usize,
    /// What the program does to cores.
    pub conduct: C,
}

/// A session that has not begun to run.
pub struct Begun<C> {
    session: u32,
    keys: PublicKeys,
    core: C,
    log: EventLog,
}

impl<C: Conduct> Cores<C> {
    /// What the core of a session is opened with.
    fn opening<'a>(
        &self,
        session: u32,
        public_keys: &'a [PublicKey],
        log: &'a [u8],
    ) -> conduct::Opened<'a> {
        let secret = secret_of(&self.master, session);
        conduct::Opened { session, role: self.role, secret, public_keys, log }
    }

    /// A replica as the engine has it.
    fn core(&self, replica: Replica, opening: &conduct::Opened) -> Result<C::Core, Error> {
        let seals = SealThreads::start(self.seal_threads, &self.role, opening.public_keys)?;
        self.conduct.core(Timed::new(replica, seals), opening)
    }

    /// A new core of a session after its first turn, and its log. None where the own key is not the
    /// agreed one.
    pub fn begin(
        &self,
        session: u32,
        keys: &PublicKeys,
    ) -> Result<Option<Begun<C::Core>>, Failure> {
        let public_keys = for_library(keys);
        let opening = self.opening(session, &public_keys, &[]);
        let mut replica = match opening.replica() {
            Ok((replica, _)) => replica,
            Err(Error::WrongSecret) => return Ok(None),
            Err(fault) => return Err(fault.into()),
        };
        let mut beginning = replica.header()?.to_vec();
        beginning.extend(replica.prepare_tick(0)?);
        let log = self.logs.make(session, &beginning)?;
        replica.act()?;
        tracing::info!(session, "a log was made");
        let core = self.core(replica, &opening)?;
        Ok(Some(Begun { session, keys: keys.clone(), core, log }))
    }

    /// What was begun ahead, if it is what is asked for, and otherwise something new.
    pub fn make(
        &self,
        it: OpenLog,
        ahead: Option<Begun<C::Core>>,
    ) -> Result<(Opened<C::Core>, Option<EventLog>), Failure> {
        let session = it.session();
        let ahead = ahead.filter(|begun| begun.session == session && begun.keys == *it.keys());
        let begun = match ahead {
            Some(begun) => Some(begun),
            None => self.begin(session, it.keys())?,
        };
        let Some(Begun { core, log, .. }) = begun else {
            tracing::error!(session, "the agreed key is not the own one; no part in the session");
            return Ok((it.other_key(), None));
        };
        Ok((it.opened(core), Some(log)))
    }

    /// The core to which a log leads that was marked. No log where it is lost.
    pub fn recover(&self, it: Recover) -> Result<(Recovered<C::Core>, Option<EventLog>), Failure> {
        let (session, start) = (it.session(), std::time::Instant::now());
        let keys = for_library(it.keys());
        let Marked::Found(mut log, mut data) = self.logs.open(session, BEGINNING_BYTES)? else {
            return Ok((lost(it, &"it is missing, or shorter than its beginning"), None));
        };
        let (mut replica, used) = match self.opening(session, &keys, &data).replica() {
            Ok(opened) => opened,
            Err(Error::NoMemory) => return Err(Failure::new(Exit::Core, Error::NoMemory)),
            Err(fault) if session < self.first => return Ok((lost(it, &fault), None)),
            Err(fault) => return Err(log.refused(fault)),
        };
        if used < data.len() {
            tracing::warn!(session, bytes = data.len() - used, "a torn record was truncated");
        }
        data.truncate(used);
        log.recover(&data)?;
        let header = replica.header()?.len();
        let seconds = start.elapsed().as_secs_f64();
        tracing::info!(session, log_bytes = used, seconds, "a log was opened");
        let core = self.core(replica, &self.opening(session, &keys, &data))?;
        Ok((it.recovered(core, data, header), Some(log)))
    }
}

fn lost<C>(it: Recover, cause: &dyn std::fmt::Display) -> Recovered<C> {
    let session = it.session();
    tracing::error!(session, %cause, "a log is lost: the replica has no part in this session");
    it.lost()
}
