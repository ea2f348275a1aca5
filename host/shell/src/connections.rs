//! Which client has which connections of the client port, and how many of them there may be.
//!
//! Those that follow batches are counted apart from the others, so that followers lock out nobody
//! who submits. In each of both rooms a client has a limit of its own; and where a room is full, a
//! client that has few connections takes the place of one that has many.

use std::cmp::Reverse;
use std::collections::{HashMap, VecDeque};
use std::sync::{Arc, Mutex, MutexGuard, PoisonError};

use tokio::task::JoinHandle;

use crate::identity::Identity;

/// Connections whose client is not known yet; the oldest gives way to a new one.
pub const MAX_STRANGERS: usize = 64;
/// Connections that do not follow: in all, and of a client.
const SUBMITTERS: (usize, usize) = (256, 32);
/// Connections that follow: in all, and of a client.
const FOLLOWERS: (usize, usize) = (256, 16);

/// All connections of a port, by who has them.
pub struct Connections(Mutex<All>);

struct All {
    next: u64,
    /// The oldest first.
    strangers: VecDeque<(u64, JoinHandle<()>)>,
    submitters: Room<JoinHandle<()>>,
    followers: Room<JoinHandle<()>>,
}

impl Connections {
    /// No connection.
    pub fn new() -> Arc<Connections> {
        let (submitters, followers) = (Room::new(SUBMITTERS), Room::new(FOLLOWERS));
        let strangers = VecDeque::new();
        Arc::new(Connections(Mutex::new(All { next: 0, strangers, submitters, followers })))
    }

    fn all(&self) -> MutexGuard<'_, All> {
        self.0.lock().unwrap_or_else(PoisonError::into_inner)
    }

    /// Starts the task of a new connection, which is a stranger's. It gets its number.
    pub fn begin(&self, start: impl FnOnce(u64) -> JoinHandle<()>) {
        let mut all = self.all();
        if all.strangers.len() >= MAX_STRANGERS {
            if let Some((_, oldest)) = all.strangers.pop_front() {
                oldest.abort();
            }
        }
        let id = all.next;
        all.next += 1;
        // The lock is held until the task is among the strangers, so it finds itself there.
        let task = start(id);
        all.strangers.push_back((id, task));
    }

    /// A stranger has gone.
    pub fn forget(&self, id: u64) {
        self.all().strangers.retain(|(it, _)| *it != id);
    }

    /// A stranger showed who it is. None where there is no room for it.
    pub fn meet(self: &Arc<Connections>, id: u64, who: Identity) -> Option<Seat> {
        let mut all = self.all();
        let at = all.strangers.iter().position(|(it, _)| *it == id)?;
        let (_, task) = all.strangers.remove(at)?;
        if let Some(other) = all.submitters.put(who, id, task).ok()? {
            other.abort();
        }
        Some(Seat { connections: self.clone(), id, who })
    }
}

/// The place of one connection; it is free once this is dropped.
pub struct Seat {
    connections: Arc<Connections>,
    id: u64,
    /// Who has it.
    pub who: Identity,
}

impl Seat {
    /// The connection follows batches from now on; whether there is room for one more that does.
    pub fn follow(&self) -> bool {
        let mut all = self.connections.all();
        let Some(task) = all.submitters.remove(self.who, self.id) else { return false };
        match all.followers.put(self.who, self.id, task) {
            Ok(other) => {
                if let Some(other) = other {
                    other.abort();
                }
                true
            }
            Err(NoRoom) => false,
        }
    }
}

impl Drop for Seat {
    fn drop(&mut self) {
        let mut all = self.connections.all();
        all.submitters.remove(self.who, self.id);
        all.followers.remove(self.who, self.id);
    }
}

/// There is no room for a connection.
#[derive(Debug, PartialEq, Eq)]
struct NoRoom;

/// A bounded number of connections.
struct Room<H> {
    most: usize,
    most_of_one: usize,
    count: usize,
    /// By client, the oldest first.
    of: HashMap<Identity, VecDeque<(u64, H)>>,
}

impl<H> Room<H> {
    fn new((most, most_of_one): (usize, usize)) -> Room<H> {
        Room { most, most_of_one, count: 0, of: HashMap::new() }
    }

    fn count_of(&self, who: Identity) -> usize {
        self.of.get(&who).map_or(0, VecDeque::len)
    }

    /// Takes one more connection; returns the one that gives way to it, if one has to. Without TLS
    /// all are of one client, so its own limit is the room's.
    fn put(&mut self, who: Identity, id: u64, handle: H) -> Result<Option<H>, NoRoom> {
        let own = self.count_of(who);
        if own >= self.most_of_one && who != Identity::Anyone {
            return Err(NoRoom);
        }
        let mut given_way = None;
        if self.count >= self.most {
            let oldest = |them: &VecDeque<(u64, H)>| them.front().map(|(id, _)| *id);
            let all =
                self.of.iter().filter_map(|(it, them)| Some((*it, them.len(), oldest(them)?)));
            // Of several that have the most, the one with the oldest connection.
            let most = all.max_by_key(|(_, count, oldest)| (*count, Reverse(*oldest)));
            let (most, theirs, oldest) = most.ok_or(NoRoom)?;
            if theirs <= own + 1 {
                return Err(NoRoom);
            }
            given_way = self.remove(most, oldest);
        }
        self.of.entry(who).or_default().push_back((id, handle));
        self.count += 1;
        Ok(given_way)
    }

    fn remove(&mut self, who: Identity, id: u64) -> Option<H> {
        let theirs = self.of.get_mut(&who)?;
        let at = theirs.iter().position(|(it, _)| *it == id)?;
        let (_, handle) = theirs.remove(at)?;
        if theirs.is_empty() {
            self.of.remove(&who);
        }
        self.count -= 1;
        Some(handle)
    }
}

#[cfg(test)]
mod tests {
    use super::*;

    const ONE: Identity = Identity::Client(1);
    const TWO: Identity = Identity::Client(2);

    #[test]
    fn a_client_has_a_limit_of_its_own() {
        let mut room = Room::new((8, 3));
        for id in 0..3 {
            assert_eq!(room.put(ONE, id, id), Ok(None));
        }
        assert_eq!(room.put(ONE, 3, 3), Err(NoRoom));
        assert_eq!(room.put(TWO, 4, 4), Ok(None));
        assert_eq!(room.remove(ONE, 1), Some(1));
        assert_eq!(room.remove(ONE, 1), None);
        assert_eq!(room.put(ONE, 5, 5), Ok(None));
    }

    #[test]
    fn in_a_full_room_who_has_many_gives_way_to_who_has_few() {
        let mut room = Room::new((4, 4));
        for id in 0..4 {
            assert_eq!(room.put(ONE, id, id), Ok(None));
        }
        assert_eq!(room.put(TWO, 4, 4), Ok(Some(0)));
        assert_eq!(room.put(TWO, 5, 5), Ok(Some(1)));
        // Both have two: nobody gives way to either of them.
        assert_eq!(room.put(TWO, 6, 6), Err(NoRoom));
        assert_eq!(room.put(ONE, 7, 7), Err(NoRoom));
        assert_eq!(room.put(Identity::Reader, 8, 8), Ok(Some(2)));
        assert_eq!(room.count, 4);
    }

    #[test]
    fn without_tls_one_more_than_the_room_is_refused() {
        let mut room = Room::new((4, 2));
        for id in 0..4 {
            assert_eq!(room.put(Identity::Anyone, id, id), Ok(None));
        }
        assert_eq!(room.put(Identity::Anyone, 4, 4), Err(NoRoom));
    }
}
