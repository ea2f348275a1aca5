//! What the other replicas say of where they stand. A faulty one says anything.

use std::time::Duration;

use crate::catch_up::FAR;
use crate::frame::Standing;
use crate::recent;
use crate::time::Time;

/// Without a status for so long a peer counts as gone.
const SILENT_AFTER: Duration = Duration::from_millis(1200);
/// A peer that is far behind and has committed nothing for so long does not catch up.
const STUCK_AFTER: Duration = Duration::from_secs(2);
/// For so long a peer's waiting transactions count.
const FRESH_FOR: Duration = Duration::from_secs(1);

/// The last status of each peer, and when it came.
#[derive(Debug)]
pub struct Peers {
    f: usize,
    /// By replica; none of this one.
    heard: Vec<Option<Heard>>,
}

#[derive(Clone, Copy, Debug, Default)]
struct Heard {
    at: Option<Time>,
    standing: Standing,
    /// When its commit last changed, or it was heard again after a silence.
    moved_at: Time,
}

impl Heard {
    fn is_older(&self, than: Duration, now: Time) -> bool {
        self.at.is_none_or(|at| now.since(at) > than)
    }

    /// Whether it can vote and lead while others have committed the block of this view: it is heard,
    /// and does not catch up from far behind. One that makes no progress takes part: it may have all
    /// blocks, and lack a certificate that only another view shows.
    fn takes_part(&self, commit: u32, now: Time) -> bool {
        let is_far = self.standing.commit.saturating_add(FAR) < commit;
        !self.is_older(SILENT_AFTER, now) && (!is_far || now.since(self.moved_at) > STUCK_AFTER)
    }
}

impl Peers {
    /// Nothing was heard of the peers yet.
    pub fn new(n: u32, me: u32, f: u32) -> Peers {
        let heard = (0..n).map(|it| (it != me).then(Heard::default)).collect();
        Peers { f: f as usize, heard }
    }

    /// Takes the status of a peer.
    pub fn hear(&mut self, peer: u32, standing: Standing, now: Time) {
        let before = self.heard[peer as usize].unwrap_or_default();
        let is_new = before.is_older(SILENT_AFTER, now);
        let has_moved = is_new || before.standing.commit != standing.commit;
        let moved_at = if has_moved { now } else { before.moved_at };
        self.heard[peer as usize] = Some(Heard { at: Some(now), standing, moved_at });
    }

    fn all(&self) -> impl Iterator<Item = &Heard> {
        self.heard.iter().flatten()
    }

    /// Whether a peer leads no view now: nothing came from it of late, or it is far behind. This
    /// replica itself is always there.
    pub fn is_absent(&self, peer: u32, own: Standing, now: Time) -> bool {
        let commit = own.commit.max(self.commit_reached());
        self.heard[peer as usize].is_some_and(|it| !it.takes_part(commit, now))
    }

    /// How many replicas can vote now, this one among them.
    pub fn count_taking_part(&self, own: Standing, now: Time) -> u32 {
        let commit = own.commit.max(self.commit_reached());
        1 + self.all().filter(|it| it.takes_part(commit, now)).count() as u32
    }

    /// What a peer reported last.
    pub fn last_of(&self, peer: u32, now: Time) -> recent::Heard {
        let it = self.heard[peer as usize].unwrap_or_default();
        let age = it.at.map(|at| now.since(at));
        let is_heard = !it.is_older(SILENT_AFTER, now);
        recent::Heard { peer, age, is_heard, standing: it.standing }
    }

    /// How many replicas are heard, this one among them.
    pub fn count_heard(&self, now: Time) -> u32 {
        1 + self.all().filter(|it| !it.is_older(SILENT_AFTER, now)).count() as u32
    }

    /// How many replicas are in this view or a later one, this one among them.
    pub fn count_at(&self, view: u32) -> u32 {
        1 + self.all().filter(|it| it.standing.view >= view).count() as u32
    }

    /// The view that an honest peer has reached.
    pub fn view_reached(&self) -> u32 {
        self.reached(|it| it.view)
    }

    /// The commit that an honest peer has reached.
    pub fn commit_reached(&self) -> u32 {
        self.reached(|it| it.commit)
    }

    /// What an honest peer has reached: f+1 peers say at least this, and one is honest. The
    /// greatest value heard would be a weapon: one faulty peer that names the last view would make
    /// all others use up their views.
    fn reached(&self, field: impl Fn(&Standing) -> u32) -> u32 {
        let mut said: Vec<u32> = self.all().map(|it| field(&it.standing)).collect();
        said.sort_unstable_by(|a, b| b.cmp(a));
        said.get(self.f).copied().unwrap_or(0)
    }

    /// Whether more peers have waiting transactions than may be faulty.
    pub fn someone_waits(&self, now: Time) -> bool {
        let waits = |it: &&Heard| it.standing.waiting > 0 && !it.is_older(FRESH_FOR, now);
        self.all().filter(waits).count() > self.f
    }

    /// Peers with more final batches or, while something is wanted, with a later commit.
    pub fn ahead_of(&self, own: Standing, is_wanted: bool) -> Vec<u32> {
        let is_ahead =
            |it: &Standing| it.batches > own.batches || is_wanted && it.commit > own.commit;
        let numbered = (0..).zip(&self.heard);
        let ahead = numbered.filter(|(_, it)| it.is_some_and(|it| is_ahead(&it.standing)));
        ahead.map(|(peer, _)| peer).collect()
    }
}

#[cfg(test)]
mod tests {
    use super::*;

    #[test]
    fn one_liar_reaches_nothing() {
        let now = Time::default();
        let mut peers = Peers::new(5, 0, 1);
        peers.hear(1, Standing { view: 2600, waiting: 1, ..Standing::default() }, now);
        assert_eq!(peers.view_reached(), 0);
        assert!(!peers.someone_waits(now));
        peers.hear(2, Standing { view: 7, waiting: 1, ..Standing::default() }, now);
        assert_eq!(peers.view_reached(), 7);
        assert!(peers.someone_waits(now));
        assert_eq!(peers.count_heard(now), 3);
        assert_eq!(peers.count_heard(now + SILENT_AFTER * 2), 1);
        let own = Standing::default();
        assert!(!peers.is_absent(0, own, now) && peers.is_absent(3, own, now));
    }

    #[test]
    fn one_that_is_far_behind_takes_no_part_and_one_liar_makes_nobody_so() {
        let (now, mut peers) = (Time::default(), Peers::new(5, 0, 1));
        let at = |commit| Standing { commit, ..Standing::default() };
        for (peer, commit) in [(1, 2600), (2, 50), (3, 45), (4, 39)] {
            peers.hear(peer, at(commit), now);
        }
        let own = at(48);
        assert_eq!(peers.count_taking_part(own, now), 4);
        let absent: Vec<u32> = (0..5).filter(|it| peers.is_absent(*it, own, now)).collect();
        assert_eq!(absent, [4]);
        peers.hear(4, at(40), now); // it has caught up
        assert_eq!(peers.count_taking_part(own, now), 5);
        assert_eq!(peers.count_taking_part(own, now + SILENT_AFTER * 2), 1);
    }

    #[test]
    fn one_that_claims_the_greatest_commit_is_not_far_behind() {
        let (now, mut peers) = (Time::default(), Peers::new(5, 0, 1));
        peers.hear(1, Standing { commit: u32::MAX, ..Standing::default() }, now);
        let own = Standing { commit: 48, ..Standing::default() };
        assert_eq!(peers.count_taking_part(own, now), 2);
        assert!(!peers.is_absent(1, own, now));
    }

    /// A certificate that made much final may have come to few replicas. Others need a view to learn
    /// of it, and could not have one if they did not count.
    #[test]
    fn one_that_is_far_behind_and_does_not_catch_up_takes_part() {
        let (mut now, mut peers) = (Time::default() + SILENT_AFTER * 2, Peers::new(5, 0, 1));
        let own = Standing { commit: 60, ..Standing::default() };
        let mut hear = |commit, seconds| {
            for _ in 0..seconds * 10 {
                now = now + Duration::from_millis(100);
                peers.hear(1, Standing { commit, ..own }, now);
            }
            peers.count_taking_part(own, now)
        };
        assert_eq!(
            [hear(40, 1), hear(40, 2), hear(41, 1), hear(42, 2), hear(42, 1)],
            [1, 2, 1, 1, 2]
        );
    }
}
