//! The clock of a replica, which drifts.

use std::time::Duration;

use themis_engine::Time;

/// A clock that starts somewhere, and is faster or slower than the simulation's.
#[derive(Clone, Copy, Debug)]
pub struct Clock {
    offset: u64,
    rate: f64,
}

impl Clock {
    /// A clock that is ahead by so much at the start, and runs at that rate.
    pub fn new(offset: Duration, rate: f64) -> Clock {
        Clock { offset: offset.as_nanos() as u64, rate }
    }

    /// What the clock shows at a moment of the simulation.
    pub fn local(&self, now: Time) -> Time {
        Time::from_nanos(self.offset + (now.nanos() as f64 * self.rate) as u64)
    }

    /// The moment of the simulation at which the clock shows that, or a moment after.
    pub fn global(&self, local: Time) -> Time {
        let since = local.nanos().saturating_sub(self.offset);
        Time::from_nanos((since as f64 / self.rate) as u64 + 2)
    }
}
