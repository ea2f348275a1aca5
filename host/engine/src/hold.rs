//! When this replica's proposal goes out, and whether blocks show all that is final.

use std::time::Duration;

use themis::Message;

use crate::setting::Options;
use crate::time::Time;
use crate::wire::BlockViews;

/// The certificate of a view commits the block two views earlier.
const COMMIT_LAG: u32 = 2;
/// After this number of views without a batch, proposals slow down.
const STUCK_VIEWS: u32 = 50;
const STUCK_PAUSE: Duration = Duration::from_secs(1);

/// Keeps this replica's proposal back while no transaction waits anywhere.
///
/// The core proposes as soon as it can. A proposal whose certificate makes batches final is not
/// held, since the others learn of them by it.
#[derive(Debug)]
pub struct Hold {
    is_on: bool,
    interval: Duration,
    proposed_at: Time,
    held: Option<Vec<Message>>,
    is_needed: bool,
}

/// What the release of a proposal depends on.
#[derive(Clone, Copy, Debug)]
pub struct Wish {
    /// Further views are wanted.
    pub is_wanted: bool,
    /// The pace of views allows the next one.
    pub is_due: bool,
    /// Views since batches became final.
    pub idle_views: u32,
}

impl Hold {
    /// Nothing is held.
    pub fn new(options: &Options, now: Time) -> Hold {
        Hold {
            is_on: options.hold,
            interval: options.interval,
            proposed_at: now,
            held: None,
            is_needed: false,
        }
    }

    /// Whether no proposal is held.
    pub fn is_empty(&self) -> bool {
        self.held.is_none()
    }

    /// Some replica's proposal was accepted.
    pub fn proposed(&mut self, now: Time) {
        self.proposed_at = now;
    }

    /// Takes a proposal, instead of an older one.
    pub fn put(&mut self, sends: Vec<Message>, makes_final: bool) {
        self.held = Some(sends);
        self.is_needed = makes_final || !self.is_on;
    }

    /// The proposal, once it is wanted and the pace allows it.
    pub fn release(&mut self, wish: Wish, now: Time) -> Vec<Message> {
        let is_stuck = wish.idle_views > STUCK_VIEWS;
        let pause = self.interval.max(if is_stuck { STUCK_PAUSE } else { Duration::ZERO });
        let may_go = self.is_needed || wish.is_wanted && wish.is_due;
        if !may_go || now.since(self.proposed_at) < pause {
            return Vec::new();
        }
        self.held.take().unwrap_or_default()
    }
}

/// Whether a stored block has the certificate by which batches became final last.
///
/// A replica may learn of that certificate from a call for a view or from an Ask alone: the leader
/// that formed it then failed. A peer that missed those can fetch blocks only. So another block is
/// wanted, even if nothing waits here, or that peer would never learn that its transactions are
/// final.
#[derive(Debug, Default)]
pub struct Shown {
    /// The view of the last certificate in a stored block.
    certificate: u32,
    /// The view of the block whose commit made batches final last.
    commit: u32,
}

impl Shown {
    /// Takes the views of a block that was stored.
    pub fn store(&mut self, views: Option<BlockViews>) {
        self.certificate = self.certificate.max(views.map_or(0, |it| it.parent));
    }

    /// The commit of this view made batches final.
    pub fn made_final(&mut self, commit: u32) {
        self.commit = commit;
    }

    /// Whether blocks alone show all that is final.
    pub fn is_all(&self) -> bool {
        self.commit == 0 || self.certificate >= self.commit + COMMIT_LAG
    }
}

#[cfg(test)]
mod tests {
    use super::*;

    const IDLE: Wish = Wish { is_wanted: false, is_due: true, idle_views: 0 };
    const WANTED: Wish = Wish { is_wanted: true, ..IDLE };

    fn held(options: &Options, makes_final: bool) -> Hold {
        let mut hold = Hold::new(options, Time::default());
        hold.put(vec![Message { to: 1, bytes: vec![2, 4] }], makes_final);
        hold
    }

    #[test]
    fn a_proposal_waits_until_it_is_wanted() {
        let (on, now) = (Options::default(), Time::default());
        let mut hold = held(&on, false);
        assert!(hold.release(IDLE, now).is_empty());
        assert!(hold.release(Wish { is_due: false, ..WANTED }, now).is_empty());
        assert_eq!(hold.release(WANTED, now).len(), 1);
        assert!(hold.is_empty());
        assert_eq!(held(&on, true).release(IDLE, now).len(), 1); // others learn by it
        let off = Options { hold: false, ..on };
        assert_eq!(held(&off, false).release(IDLE, now).len(), 1); // without the guard
    }

    #[test]
    fn the_interval_between_proposals() {
        let options = Options { interval: Duration::from_millis(100), ..Options::default() };
        let mut hold = Hold::new(&options, Time::default());
        let mut count = 0;
        for step in 0..100 {
            let now = Time::default() + Duration::from_millis(step * 10);
            hold.put(vec![Message { to: 1, bytes: vec![2, 4] }], false);
            if !hold.release(WANTED, now).is_empty() {
                hold.proposed(now);
                count += 1;
            }
        }
        assert_eq!(count, 9);
    }

    #[test]
    fn a_stuck_session_slows_down() {
        let mut hold = held(&Options::default(), false);
        let stuck = Wish { idle_views: STUCK_VIEWS + 1, ..WANTED };
        assert!(hold.release(stuck, Time::default()).is_empty());
        assert_eq!(hold.release(stuck, Time::default() + STUCK_PAUSE).len(), 1);
    }

    #[test]
    fn views_go_on_until_a_block_shows_what_is_final() {
        let mut shown = Shown::default();
        assert!(shown.is_all());
        shown.made_final(5);
        shown.store(Some(BlockViews { view: 7, parent: 6 }));
        assert!(!shown.is_all());
        shown.store(Some(BlockViews { view: 8, parent: 7 }));
        assert!(shown.is_all());
    }
}
