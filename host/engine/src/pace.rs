//! How fast views follow one another.

use std::time::Duration;

use crate::budget::Budget;
use crate::setting::PaceOptions;
use crate::time::Time;

/// Views are few, and each is used for good. So they are paced: a few in a row are free, so that a
/// transaction after a pause is final as soon as it can be; from then on they follow one another at
/// a rate which depends on how much waits. A lone client, or the junk of a faulty replica, can't use
/// up a session's views in a minute. A proposal that shows the others what is final is not held back
/// by it, so under load views follow one another as fast as the cluster can.
///
/// Each honest leader goes by what it saw. A faulty one can only hurry its own views.
#[derive(Debug)]
pub struct ViewPace {
    options: PaceOptions,
    views: Budget,
    /// When the next view may begin, where it might not when that was asked last.
    due_at: Time,
}

/// What is rounded.
const MOMENT: Duration = Duration::from_micros(10);

impl ViewPace {
    /// All free views are left.
    pub fn new(options: PaceOptions) -> ViewPace {
        let rate = 1.0 / options.floor.as_secs_f64().max(1e-6);
        let views = Budget::new(rate, f64::from(options.free));
        ViewPace { options, views, due_at: Time::default() }
    }

    /// The replica went to a later view. Nothing is owed for views that passed faster: a replica that
    /// caught up would be late in each of its own.
    pub fn view_changed(&mut self, now: Time) {
        self.views.use_up(1.0, now);
    }

    /// Whether the next view may begin, while that many transactions wait.
    pub fn is_due(&mut self, waiting: usize, now: Time) -> bool {
        let floor = self.floor(waiting);
        let left = self.views.refill(1.0 / floor.as_secs_f64().max(1e-6), now);
        if left < 1.0 {
            self.due_at = now + floor.mul_f64(1.0 - left) + MOMENT;
        }
        left >= 1.0
    }

    /// When the next view may begin, while as many wait as when [`ViewPace::is_due`] was false.
    pub fn due_at(&self) -> Time {
        self.due_at
    }

    /// The least time between two views, once the free ones are used.
    fn floor(&self, waiting: usize) -> Duration {
        if waiting >= self.options.much {
            self.options.floor
        } else {
            self.options.idle_floor
        }
    }
}

#[cfg(test)]
mod tests {
    use super::*;

    /// How many views begin within ten seconds, where a view takes 10 ms.
    fn views_in_ten_seconds(options: PaceOptions, waiting: usize) -> u32 {
        let (mut pace, mut now, mut count) = (ViewPace::new(options), Time::default(), 0);
        while now < Time::default() + Duration::from_secs(10) {
            if pace.is_due(waiting, now) {
                pace.view_changed(now);
                count += 1;
            }
            now = now + Duration::from_micros(2500);
        }
        count
    }

    #[test]
    fn little_that_waits_uses_few_views() {
        let options = PaceOptions::default();
        assert!((100..=125).contains(&views_in_ten_seconds(options, 1)));
        assert!((395..=415).contains(&views_in_ten_seconds(options, 100)));
        // Without the guard each view follows the one before at once.
        let none = Duration::ZERO;
        let options = PaceOptions { floor: none, idle_floor: none, ..options };
        assert_eq!(views_in_ten_seconds(options, 1), 4000);
    }

    #[test]
    fn it_says_when_the_next_view_may_begin() {
        let (mut pace, now) = (ViewPace::new(PaceOptions::default()), Time::default());
        for _ in 0..12 {
            pace.view_changed(now);
        }
        assert!(!pace.is_due(16, now));
        let due = pace.due_at();
        assert!(due.since(now) <= PaceOptions::default().floor + MOMENT);
        assert!(pace.is_due(16, due));
    }

    #[test]
    fn the_first_views_after_a_pause_are_free() {
        let (mut pace, now) = (ViewPace::new(PaceOptions::default()), Time::default());
        for _ in 0..12 {
            assert!(pace.is_due(1, now));
            pace.view_changed(now);
        }
        assert!(!pace.is_due(1, now));
    }

    #[test]
    fn a_replica_that_caught_up_is_not_late() {
        let (mut pace, now) = (ViewPace::new(PaceOptions::default()), Time::default());
        for _ in 0..500 {
            pace.view_changed(now);
        }
        assert!(!pace.is_due(1, now));
        assert!(pace.is_due(1, now + PaceOptions::default().idle_floor));
    }
}
