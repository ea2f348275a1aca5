//! How honest replicas come to views, for two checks: they skip none, whatever a faulty replica says,
//! and nobody asks for a view without a quorum.

use std::collections::BTreeMap;
use std::time::Duration;

use themis_engine::Time;

use crate::node::Violation;

/// A peer from which nothing came for so long is silent, by any clock of the simulation.
const SILENT_AFTER: Duration = Duration::from_millis(1250);

/// In which views honest replicas were, and whom they heard.
#[derive(Debug)]
pub struct Views {
    honest: Vec<u32>,
    n: u32,
    f: u32,
    /// By session and replica: the last view in which it was.
    reached: BTreeMap<u32, Vec<u32>>,
    /// By replica and peer: when a frame was handed over last.
    heard: Vec<Vec<Option<Time>>>,
}

impl Views {
    /// All are in view 0 of each session.
    pub fn new(honest: impl Iterator<Item = u32>, n: u32, f: u32) -> Views {
        let heard = vec![vec![None; n as usize]; n as usize];
        Views { honest: honest.collect(), n, f, reached: BTreeMap::new(), heard }
    }

    /// A replica gets a frame of a peer.
    pub fn hears(&mut self, replica: u32, peer: u32, now: Time) {
        self.heard[replica as usize][peer as usize] = Some(now);
    }

    /// A replica is in a view. Where no honest one was there before, n-2f of them were in the view
    /// before it: n-f have voted there, or have reported it, and of these f may lie.
    pub fn enters(&mut self, replica: u32, session: u32, view: u32) -> Result<(), Violation> {
        let reached = self.reached_in(session).clone();
        let least = |view| self.honest.iter().filter(|it| reached[**it as usize] >= view).count();
        let needed = (self.n - 2 * self.f) as usize;
        let (is_first, before) = (least(view) == 0, least(view.saturating_sub(1)));
        if self.honest.contains(&replica) && is_first && before < needed {
            return Err(Violation(format!(
                "replica {replica} is in view {view}, and {before} honest ones were in the one before"
            )));
        }
        self.restores(replica, session, view);
        Ok(())
    }

    /// A replica that starts is in the view to which its log leads. That counts a record that was
    /// durable at a crash, though the replica never made its turn.
    pub fn restores(&mut self, replica: u32, session: u32, view: u32) {
        let reached = self.reached_in(session);
        reached[replica as usize] = reached[replica as usize].max(view);
    }

    fn reached_in(&mut self, session: u32) -> &mut Vec<u32> {
        self.reached.entry(session).or_insert_with(|| vec![0; self.n as usize])
    }

    /// A replica asks for a view, as the present one takes too long.
    pub fn asks(&self, replica: u32, now: Time) -> Result<(), Violation> {
        let is_heard = |it: &&Option<Time>| it.is_some_and(|at| now.since(at) <= SILENT_AFTER);
        let count = 1 + self.heard[replica as usize].iter().filter(is_heard).count() as u32;
        if self.honest.contains(&replica) && count < self.n - self.f {
            return Err(Violation(format!(
                "replica {replica} asks for a view, and hears {count} of {} replicas",
                self.n
            )));
        }
        Ok(())
    }
}

#[cfg(test)]
mod tests {
    use super::*;

    #[test]
    fn a_view_that_is_skipped_is_seen() {
        let mut it = Views::new(0..4, 5, 1);
        assert!(it.enters(0, 7, 2).is_err());
        assert!(it.enters(0, 7, 1).is_ok());
        assert!(it.enters(0, 7, 2).is_err(), "ahead of the others");
        assert!(it.enters(4, 7, 9).is_ok(), "a faulty one is anywhere");
        assert!(it.enters(1, 7, 1).is_ok());
        assert!(it.enters(0, 7, 2).is_err(), "two honest ones of five and one that lies");
        assert!(it.enters(2, 7, 1).is_ok() && it.enters(0, 7, 2).is_ok());
        assert!(it.enters(3, 7, 2).is_ok(), "others were there");
        assert!(it.enters(3, 8, 2).is_err(), "of another session");
    }

    #[test]
    fn a_log_may_lead_to_a_view() {
        let mut it = Views::new(0..4, 5, 1);
        it.restores(0, 7, 5);
        assert!(it.enters(0, 7, 5).is_ok() && it.enters(1, 7, 5).is_ok(), "one was there");
        assert!(it.enters(1, 7, 6).is_err(), "two honest ones of five");
    }

    #[test]
    fn a_view_is_asked_for_while_a_quorum_is_heard() {
        let mut it = Views::new(0..5, 5, 1);
        let now = Time::default() + SILENT_AFTER;
        it.hears(0, 1, Time::default());
        it.hears(0, 2, now);
        assert!(it.asks(0, now).is_err());
        it.hears(0, 4, now);
        assert!(it.asks(0, now).is_ok());
        assert!(it.asks(0, now + Duration::from_millis(1)).is_err());
    }
}
