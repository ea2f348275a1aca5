//! Replicas that were opened over a new log. To grow their keys takes most of a short run, so it is done
//! once: each run is a fork of the process that did it, and takes them over.

use std::collections::BTreeMap;
use std::sync::{Mutex, MutexGuard, PoisonError};

use themis::{Error, Replica, Role};

use crate::keys::{public_keys, secret};

/// One replica of a cluster, by how many replicas that has, and the replica.
type Place = (u32, u32);

#[derive(Default)]
struct Opened {
    /// The header of a new log.
    headers: BTreeMap<Place, Vec<u8>>,
    /// Replicas that no run has taken.
    replicas: BTreeMap<Place, Replica>,
}

static OPENED: Mutex<Opened> =
    Mutex::new(Opened { headers: BTreeMap::new(), replicas: BTreeMap::new() });

fn opened() -> MutexGuard<'static, Opened> {
    OPENED.lock().unwrap_or_else(PoisonError::into_inner)
}

/// The header of a new log. The replica that was opened for it waits for a run.
pub fn header_of(role: &Role) -> Result<Vec<u8>, Error> {
    let place = (role.n, role.me);
    if let Some(header) = opened().headers.get(&place) {
        return Ok(header.clone());
    }
    let (mut replica, _) = Replica::open(role, &secret(role.me, 0), &public_keys(role.n), &[])?;
    let header = replica.header()?.to_vec();
    let mut opened = opened();
    opened.headers.insert(place, header.clone());
    opened.replicas.insert(place, replica);
    Ok(header)
}

/// Opens the replicas of a cluster over new logs, for all runs to come.
pub fn fill(role: &Role) -> Result<(), Error> {
    (0..role.n).try_for_each(|me| header_of(&Role { me, ..*role }).map(drop))
}

/// A replica that was opened over this log, if it is a new one.
pub fn take(role: &Role, log: &[u8]) -> Option<Replica> {
    let (mut opened, place) = (opened(), (role.n, role.me));
    let is_new = opened.headers.get(&place).is_some_and(|it| it == log);
    if is_new {
        opened.replicas.remove(&place)
    } else {
        None
    }
}
