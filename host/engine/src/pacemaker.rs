//! When to ask for the next view.
//!
//! Views are few, and each is used for good. So an idle session uses none, an outage uses none, and
//! no faulty peer can make others use them up.

use std::time::Duration;

use crate::frame::Standing;
use crate::peers::Peers;
use crate::setting::{Options, Place};
use crate::time::Time;

/// Patience with a leader that is silent, or far behind.
const SKIP_AFTER: Duration = Duration::from_millis(10);
const MAX_VIEW_TIME: Duration = Duration::from_secs(1);
/// A timeout is at least this many times what a view takes.
const VIEWS_PER_TIMEOUT: u32 = 4;
const BACKOFF: f64 = 1.5;
/// And at least this many times what the last view took: one that is as slow does not fail.
const LIKE_THE_LAST: u32 = 2;

/// Decides when a view has failed.
#[derive(Debug)]
pub struct Pacemaker {
    place: Place,
    least: Duration,
    most: Duration,
    timeout: Duration,
    /// What a view took of late, in seconds.
    view_time: f64,
    /// What the last view took, unless a tick ended it.
    last_view: Duration,
    moved_at: Time,
    has_ticked: bool,
}

impl Pacemaker {
    /// A pacemaker that starts now.
    pub fn new(place: Place, options: &Options, now: Time) -> Pacemaker {
        Pacemaker {
            place,
            least: options.timeout,
            most: options.max_timeout,
            timeout: options.timeout,
            view_time: 0.0,
            last_view: Duration::ZERO,
            moved_at: now,
            has_ticked: false,
        }
    }

    fn least_timeout(&self) -> Duration {
        let by_views = Duration::from_secs_f64(self.view_time) * VIEWS_PER_TIMEOUT;
        self.least.max(by_views)
    }

    /// Enough for a view that takes as long as the last one. Were the timeout to shrink below that on
    /// a slow machine, every second view would fail, and no block would ever be committed. A faulty
    /// leader that is slow lengthens the timeout of the next view alone.
    fn enough(&self) -> Duration {
        self.least_timeout().max((self.last_view * LIKE_THE_LAST).min(self.most))
    }

    /// A message led to a new view, so the timeout shrinks again.
    pub fn view_changed(&mut self, now: Time) {
        if !self.has_ticked {
            self.last_view = now.since(self.moved_at);
            let took = self.last_view.min(MAX_VIEW_TIME).as_secs_f64();
            self.view_time += 0.1 * (took - self.view_time);
            self.timeout = self.enough().max(self.timeout / 2);
        }
        (self.moved_at, self.has_ticked) = (now, false);
    }

    /// A block was committed.
    pub fn committed(&mut self) {
        self.timeout = self.enough();
    }

    /// Whether no view is left to ask for.
    pub fn is_over(&self, own: Standing, peers: &Peers) -> bool {
        own.view.max(peers.view_reached()) >= self.place.views
    }

    /// The floor of a tick that is due.
    ///
    /// A tick asks for a view above the floor. A replica that is behind joins the view that an
    /// honest peer has reached, and none above it. Without a quorum a tick would use up a view for
    /// nothing, and timeouts would grow, until those that can't vote have their blocks. A replica that
    /// is ahead waits until a quorum has reached its view: were it to tick as often as the others, it
    /// would stay ahead, and be missing in each of their views.
    pub fn due_floor(
        &mut self,
        own: Standing,
        peers: &Peers,
        is_wanted: bool,
        now: Time,
    ) -> Option<u32> {
        let reached = peers.view_reached();
        let has_quorum = peers.count_taking_part(own, now) >= self.place.quorum();
        let is_ahead = reached <= own.view && peers.count_at(own.view) < self.place.quorum();
        if !is_wanted || !has_quorum || is_ahead {
            self.moved_at = now;
            return None;
        }
        let patience = self.patience(own, peers, now);
        if now.since(self.moved_at) <= patience || self.is_over(own, peers) {
            return None;
        }
        (self.moved_at, self.has_ticked) = (now, true);
        // Only a view that took too long says that the timeout is too short: not a leader that is passed
        // over, nor a view that the others have left.
        if patience >= self.timeout {
            self.timeout = self.timeout.mul_f64(BACKOFF).min(self.most);
        }
        Some(own.view.max(reached.saturating_sub(1)))
    }

    /// How long the present view may take.
    fn patience(&self, own: Standing, peers: &Peers, now: Time) -> Duration {
        if peers.commit_reached() > own.commit {
            return self.timeout * VIEWS_PER_TIMEOUT; // blocks are missing, and come first
        }
        if own.view == 0 || peers.is_absent(self.place.leader_of(own.view), own, now) {
            return SKIP_AFTER;
        }
        if peers.view_reached() > own.view {
            self.least_timeout() / 2
        } else {
            self.timeout
        }
    }
}

#[cfg(test)]
mod tests {
    use super::*;

    fn standing(view: u32) -> Standing {
        Standing { view, ..Standing::default() }
    }

    #[test]
    fn ticks_only_with_a_quorum_and_not_ahead_of_it() {
        let timeout = Duration::from_millis(300);
        let place = Place { me: 0, n: 5, f: 1, views: 100 };
        let options = Options { timeout, max_timeout: timeout * 10, ..Options::default() };
        let start = Time::default();
        let later = start + timeout * 2;
        let mut maker = Pacemaker::new(place, &options, start);
        let mut peers = Peers::new(5, 0, 1);
        let own = standing(3);
        assert_eq!(maker.due_floor(own, &peers, true, later), None);
        for peer in 1..4 {
            peers.hear(peer, own, later);
        }
        assert_eq!(maker.due_floor(own, &peers, true, later), None); // it waited from then on
        let due = later + timeout + Duration::from_millis(1);
        assert_eq!(maker.due_floor(own, &peers, false, due), None);
        assert_eq!(maker.due_floor(own, &peers, true, due + timeout * 2), Some(3));
        assert_eq!(maker.due_floor(standing(4), &peers, true, due + timeout * 9), None);
        // ahead
    }

    const TIMEOUT: Duration = Duration::from_millis(300);

    /// When and with which floors replica 0 of five ticks in ten seconds, in which it hears some peers
    /// in these views all the time.
    fn ticks(own: Standing, heard: &[(u32, u32)]) -> Vec<(Duration, u32)> {
        let heard: Vec<_> = heard.iter().map(|(peer, view)| (*peer, standing(*view))).collect();
        ticks_where(own, &heard)
    }

    /// The same, where the peers are there.
    fn ticks_where(own: Standing, heard: &[(u32, Standing)]) -> Vec<(Duration, u32)> {
        let place = Place { me: 0, n: 5, f: 1, views: 200 };
        let options = Options { timeout: TIMEOUT, max_timeout: TIMEOUT * 10, ..Options::default() };
        let start = Time::default();
        let mut maker = Pacemaker::new(place, &options, start);
        let mut peers = Peers::new(5, 0, 1);
        let mut out = Vec::new();
        for step in 0..1000 {
            let after = Duration::from_millis(step * 10);
            for (peer, at) in heard {
                peers.hear(*peer, *at, start + after);
            }
            let floor = maker.due_floor(own, &peers, true, start + after);
            out.extend(floor.map(|it| (after, it)));
        }
        out
    }

    /// Views that take four seconds: the timeout has to stay above that, also after a commit.
    #[test]
    fn slow_views_do_not_fail() {
        let place = Place { me: 0, n: 5, f: 1, views: 200 };
        let options = Options { timeout: TIMEOUT, ..Options::default() };
        let (slow, step) = (Duration::from_secs(4), Duration::from_millis(10));
        let mut maker = Pacemaker::new(place, &options, Time::default());
        let mut peers = Peers::new(5, 0, 1);
        let (mut view, mut ticks, mut at) = (1, Vec::new(), Time::default());
        let mut began = at;
        while view < 12 {
            at = at + step;
            (1..5).for_each(|peer| peers.hear(peer, standing(view), at));
            if maker.due_floor(standing(view), &peers, true, at).is_some() {
                ticks.push(view);
                began = at; // the others tick too, and the next view begins
                view += 1;
            } else if at.since(began) >= slow {
                maker.view_changed(at);
                if view > 8 {
                    maker.committed();
                }
                began = at;
                view += 1;
            }
        }
        assert!(!ticks.is_empty() && ticks.iter().all(|it| *it < 8), "{ticks:?}");
    }

    #[test]
    fn a_leader_that_is_passed_over_lengthens_no_timeout() {
        let place = Place { me: 0, n: 5, f: 1, views: 200 };
        let options = Options { timeout: TIMEOUT, ..Options::default() };
        let mut maker = Pacemaker::new(place, &options, Time::default());
        let (mut peers, own) = (Peers::new(5, 0, 1), standing(9)); // replica 4 leads it, and is silent
        let mut ticks = 0;
        for step in 0..50 {
            let at = Time::default() + Duration::from_millis(step * 10);
            (1..4).for_each(|peer| peers.hear(peer, own, at));
            ticks += u32::from(maker.due_floor(own, &peers, true, at).is_some());
        }
        assert!(ticks > 10);
        assert_eq!(maker.timeout, TIMEOUT);
    }

    /// The view of a slow leader lengthens the next timeout, and no further ones.
    #[test]
    fn a_leader_that_is_slow_once_is_forgotten() {
        let place = Place { me: 0, n: 5, f: 1, views: 200 };
        let options = Options { timeout: TIMEOUT, ..Options::default() };
        let mut maker = Pacemaker::new(place, &options, Time::default());
        let mut at = Time::default() + TIMEOUT;
        maker.view_changed(at);
        assert_eq!(maker.timeout, TIMEOUT * 2);
        for _ in 0..3 {
            at = at + Duration::from_millis(20);
            maker.view_changed(at);
        }
        assert_eq!(maker.timeout, TIMEOUT);
    }

    #[test]
    fn a_silent_leader_is_passed_over() {
        let with_leader = ticks(standing(8), &[(1, 8), (2, 8), (3, 8)]); // 3 leads view 8
        let without = ticks(standing(9), &[(1, 9), (2, 9), (3, 9)]); // 4, which is silent
        assert!(with_leader[0].0 > TIMEOUT);
        assert!(without[0].0 < TIMEOUT / 3);
    }

    #[test]
    fn a_leader_that_lacks_blocks_is_passed_over() {
        let at = |commit| Standing { view: 59, commit, ..Standing::default() };
        let led_by_4 =
            |commit| ticks_where(at(57), &[(1, at(57)), (2, at(57)), (3, at(56)), (4, at(commit))]);
        assert!(led_by_4(50)[0].0 > TIMEOUT);
        assert!(led_by_4(20)[0].0 < TIMEOUT / 3);
    }

    /// A replica is away, and another one that was has to fetch blocks before it can vote.
    #[test]
    fn no_tick_while_too_few_have_the_blocks() {
        let at = |commit| Standing { view: 58, commit, ..Standing::default() };
        let with = |commit| ticks_where(at(57), &[(1, at(57)), (2, at(57)), (3, at(commit))]);
        let first = |commit| with(commit)[0].0;
        // It gets none for a while; what happens then is `Peers`'s to decide.
        assert!(first(20) > Duration::from_secs(2) && first(50) < Duration::from_secs(1));
    }

    #[test]
    fn one_that_is_behind_joins_the_view_of_an_honest_peer() {
        let found = ticks(standing(3), &[(1, 199), (2, 40), (3, 38), (4, 0)]);
        assert!(found.iter().all(|it| it.1 == 39) && found[0].0 < TIMEOUT);
    }

    #[test]
    fn the_last_view_is_never_left() {
        assert!(ticks(standing(200), &[(1, 200), (2, 200), (3, 200)]).is_empty());
        assert!(!ticks(standing(199), &[(1, 199), (2, 199), (3, 199)]).is_empty());
    }

    #[test]
    fn no_tick_once_a_quorum_is_no_longer_heard() {
        let place = Place { me: 0, n: 5, f: 1, views: 200 };
        let (own, start) = (standing(7), Time::default());
        let mut maker = Pacemaker::new(place, &Options::default(), start);
        let mut peers = Peers::new(5, 0, 1);
        (1..5).for_each(|peer| peers.hear(peer, own, start));
        for step in 200..6000 {
            let now = start + Duration::from_millis(step * 10);
            (1..3).for_each(|peer| peers.hear(peer, own, now));
            assert_eq!(maker.due_floor(own, &peers, true, now), None);
        }
    }
}
