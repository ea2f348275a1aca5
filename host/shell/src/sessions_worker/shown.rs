//! Where a replica stands over its sessions: for operators, for Prometheus, and for the live page.

use std::time::Instant;

use serde_json::{json, Value};
use themis::Standing;
use themis_engine::core::{Core, Desk};
use themis_engine::tx::Tx;
use themis_engine::{sessions, Status, Time};

use super::Working;
use crate::conduct::Conduct;
use crate::config::hex;
use crate::exit::Failure;
use crate::input::{Found, Pages};
use crate::link::Link;
use crate::metrics::{fault_of, page_of, Counted};
use crate::picture::{picture_of, Seen};
use crate::worker::{self, status_line};

/// The stage of a replica that opens no further session.
const ENDED: &str = "ended";

impl<C: Conduct> Working<C> {
    fn log_bytes(&self) -> u64 {
        self.logs.values().map(|it| it.end).sum()
    }

    /// What is counted next to the engine.
    fn standing(&self) -> worker::Standing {
        worker::Standing {
            dropped: self.shared.links.iter().flatten().map(Link::dropped).sum(),
            log_bytes: self.log_bytes(),
            syncs: self.syncs,
            frame_faults: self.frame_faults,
        }
    }

    /// Where the replica stands, as a line of JSON.
    pub(super) fn status(&mut self, now: Time) -> String {
        let it = self.sessions.status(now);
        let fault = fault_over_sessions(&it, self.setup.place().quorum());
        let ended = end_of(&it);
        let engine = it.engine.unwrap_or_else(|| between_sessions(it.stage));
        let mut fields = status_line(&self.setup, &engine, &self.standing());
        let calls = self.sessions.running().map(|it| C::timed(it.core_mut()).all());
        for (name, spent) in calls.into_iter().flatten() {
            fields.insert(format!("{name}_us"), Value::from(spent.micros()));
            fields.insert(format!("{name} calls"), Value::from(spent.calls));
        }
        fields.insert("fault".to_owned(), json!(fault));
        fields.insert("session".to_owned(), json!(it.session));
        fields.insert("first".to_owned(), json!(it.first));
        fields.insert("batches".to_owned(), json!(it.position));
        fields.insert("digest".to_owned(), json!(hex(&it.digest)));
        fields.insert("stage".to_owned(), json!(it.stage));
        fields.insert("helps".to_owned(), json!(it.helps));
        fields.insert("last_session".to_owned(), json!(self.setup.config.last_session));
        fields.insert("ended".to_owned(), ended);
        Value::Object(fields).to_string()
    }

    /// What Prometheus reads, and whether the replica is healthy.
    pub(super) fn pages(&mut self, now: Time) -> Pages {
        let it = self.sessions.status(now);
        let fault = fault_over_sessions(&it, self.setup.place().quorum());
        let status = it.engine.unwrap_or_else(|| between_sessions(it.stage));
        let standing = self.standing();
        let none = Default::default;
        let counted = Counted {
            replica: self.setup.me(),
            session: it.session,
            last_view: self.setup.cluster.views,
            quorum: self.setup.place().quorum(),
            log_bytes: standing.log_bytes,
            frames_dropped: standing.dropped,
            bad_frames: standing.frame_faults,
            syncs: standing.syncs,
            calls: self.sessions.running().map_or_else(none, |it| C::timed(it.core_mut()).all()),
            latency: self.observed.latency.histogram(),
        };
        Pages { metrics: page_of(&status, &counted), fault }
    }

    /// What the live page shows.
    pub(super) fn picture(&mut self, now: Time) -> String {
        let it = self.sessions.status(now);
        let status = it.engine.unwrap_or_else(|| between_sessions(it.stage));
        let running = self.sessions.running();
        let (heard, views) =
            running.map_or_else(Default::default, |it| (it.peers_heard(now), it.recent_views()));
        picture_of(&Seen {
            setup: &self.setup,
            session: it.session,
            first: it.position - status.batches,
            status: &status,
            heard: &heard,
            views: &views,
            observed: &self.observed,
            start: self.start,
            now: Instant::now(),
        })
    }

    /// What has become of a transaction, as far as memory says. The store, which knows those of
    /// sessions that have ended, is not asked here: turns would wait for it.
    pub(super) fn find(&mut self, tx: &Tx) -> Result<Found, Failure> {
        let standing = match self.sessions.running() {
            Some(engine) => engine.core_mut().desk().standing(tx)?,
            None => Standing::Unknown,
        };
        Ok(Found { standing, position: self.observed.position_of(tx) })
    }
}

/// Where the cluster has ended at this replica, by its operator's `last_session`: the last session, how
/// many batches are final, and what chains them. The cluster that continues this one starts there.
fn end_of(it: &sessions::Status) -> Value {
    match it.session.checked_sub(1) {
        Some(last) if it.stage == ENDED => {
            json!({ "session": last, "position": it.position, "digest": hex(&it.digest) })
        }
        _ => Value::Null,
    }
}

/// Why a replica is not healthy: its engine says so, it has no part in the session, or it has lost its
/// store and does not know yet where the others are. A change of session is no fault.
fn fault_over_sessions(it: &sessions::Status, quorum: u32) -> Option<&'static str> {
    match &it.engine {
        Some(engine) => fault_of(engine, quorum),
        None if it.stage == "out" => Some(
            "the replica has no part in this session: its key was not agreed, or its log or store is lost",
        ),
        None if it.stage == ENDED => Some(
            "the cluster has ended here: the session was the last one that last_session allows",
        ),
        None if it.stage == "returning" => Some(
            "the store was made again: the replica waits until n-f others say in which session they are",
        ),
        None => None,
    }
}

/// Where a replica stands while no session runs.
fn between_sessions(stage: &str) -> Status {
    Status {
        view: 0,
        commit: 0,
        batches: 0,
        digest: [0; 32],
        arrived: 0,
        finals: 0,
        pending: 0,
        queued: 0,
        given: 0,
        heard: 1,
        is_over: stage == ENDED,
        is_closing: false,
        counts: Vec::new(),
    }
}
