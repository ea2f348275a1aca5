//! What replicas may receive after a start: their clocks start at 0, so they hear those of others first.

use std::collections::BTreeSet;
use std::time::Duration;

use themis_engine::Time;

use crate::node::Violation;

/// For so long a replica waits for clocks, by any clock of the simulation.
const OPEN_AFTER: Duration = Duration::from_millis(980);

/// The last start of each replica, and who has reported a clock to it since.
#[derive(Debug)]
pub struct Starts {
    /// So many peers have to report theirs.
    needed: usize,
    of: Vec<(Time, BTreeSet<u32>)>,
}

impl Starts {
    /// All start at the same moment.
    pub fn new(n: u32, f: u32) -> Starts {
        let none = (Time::default(), BTreeSet::new());
        Starts { needed: (n - f - 1) as usize, of: vec![none; n as usize] }
    }

    /// A replica starts.
    pub fn starts(&mut self, replica: u32, now: Time) {
        self.of[replica as usize] = (now, BTreeSet::new());
    }

    /// A peer reports its clock to a replica.
    pub fn reports(&mut self, replica: u32, peer: u32) {
        self.of[replica as usize].1.insert(peer);
    }

    /// A replica receives a transaction, and stamps it.
    pub fn receives(&self, replica: u32, now: Time) -> Result<(), Violation> {
        let (at, peers) = &self.of[replica as usize];
        if peers.len() >= self.needed || now.since(*at) >= OPEN_AFTER {
            return Ok(());
        }
        let count = peers.len();
        Err(Violation(format!(
            "replica {replica} stamps a receipt, and knows {count} other clocks"
        )))
    }
}

#[cfg(test)]
mod tests {
    use super::*;

    #[test]
    fn a_receipt_is_stamped_once_enough_clocks_are_known() {
        let (mut it, now) = (Starts::new(5, 1), Time::default());
        it.starts(0, now);
        [1, 2, 2].into_iter().for_each(|peer| it.reports(0, peer));
        assert!(it.receives(0, now).is_err());
        assert!(it.receives(0, now + OPEN_AFTER).is_ok());
        it.reports(0, 3);
        assert!(it.receives(0, now).is_ok());
        it.starts(0, now);
        assert!(it.receives(0, now).is_err());
    }
}
