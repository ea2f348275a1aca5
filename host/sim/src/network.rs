//! Connections between replicas: one from each to each, with frames in order.

use std::time::Duration;

use rand::Rng;
use rand_chacha::ChaCha8Rng;
use themis_engine::Time;

/// A sender drops what waited for longer, as it does on a real link.
const STALE_AFTER: Duration = Duration::from_secs(3);
const MIN_DELAY: Duration = Duration::from_millis(50);

/// A connection in one direction.
#[derive(Clone, Debug)]
pub struct Link {
    latency: Duration,
    jitter: Duration,
    /// Frames arrive in order: none before this moment.
    last: Time,
    /// Frames of an earlier connection are lost.
    pub epoch: u32,
    /// There is no connection before this moment.
    pub up_at: Time,
    /// Nothing goes through before this moment.
    cut_until: Time,
}

impl Link {
    /// A link of that latency, which varies.
    pub fn new(latency: Duration, jitter: Duration) -> Link {
        let start = Time::default();
        Link { latency, jitter, last: start, epoch: 0, up_at: start, cut_until: start }
    }

    /// It is longer by so much, and varies the more.
    pub fn lengthen(&mut self, by: Duration) {
        self.latency += by;
        self.jitter += by / 2;
    }

    /// The greatest time that a frame takes while the link is up.
    pub fn longest(&self) -> Duration {
        self.latency + self.jitter
    }

    /// Nothing goes through until then.
    pub fn cut(&mut self, until: Time) {
        self.cut_until = self.cut_until.max(until);
    }

    /// The connection ends, with all that is on its way; the next one comes a while later.
    pub fn break_off(&mut self, now: Time, rng: &mut ChaCha8Rng) {
        self.epoch += 1;
        self.up_at = self.up_at.max(now + MIN_DELAY.mul_f64(1.0 + rng.gen::<f64>() * 10.0));
    }

    /// When a frame that is sent now arrives; none where it is lost.
    pub fn send(&mut self, now: Time, rng: &mut ChaCha8Rng) -> Option<Time> {
        if self.cut_until > now || self.up_at.since(now) > STALE_AFTER {
            return None;
        }
        let took = self.latency + self.jitter.mul_f64(rng.gen());
        let arrives = (now.max(self.up_at) + took).max(self.last + Duration::from_nanos(1));
        self.last = arrives;
        Some(arrives)
    }
}
