//! How long transactions take from when this replica received them until they are final here.

use std::collections::{HashMap, VecDeque};
use std::time::{Duration, Instant};

use themis_engine::tx::Tx;

/// The library holds fewer transactions that are not final.
const MAX_RECEIVED: usize = 40_000;
/// Of what became final last.
const MAX_RECENT: usize = 2048;
/// Milliseconds.
const BUCKETS: [u64; 12] = [25, 50, 75, 100, 150, 200, 300, 500, 1000, 2000, 5000, 10_000];

/// Latencies, as a histogram of Prometheus counts them.
#[derive(Clone, Debug, Default)]
pub struct Histogram {
    counts: [u64; BUCKETS.len()],
    /// How many in all.
    pub count: u64,
    /// All of them together.
    pub sum: Duration,
}

impl Histogram {
    fn put(&mut self, took: Duration) {
        let at = BUCKETS.iter().position(|it| took <= Duration::from_millis(*it));
        if let Some(at) = at {
            self.counts[at] += 1;
        }
        self.count += 1;
        self.sum += took;
    }

    /// The upper bound of each bucket in seconds, and how many are at most that.
    pub fn buckets(&self) -> impl Iterator<Item = (f64, u64)> + '_ {
        let mut below = 0;
        BUCKETS.iter().zip(&self.counts).map(move |(bound, count)| {
            below += count;
            (*bound as f64 / 1000.0, below)
        })
    }
}

/// When transactions were received, and how long they took.
#[derive(Debug, Default)]
pub struct Latency {
    received: HashMap<Tx, Instant>,
    recent: VecDeque<(Instant, Duration)>,
    histogram: Histogram,
}

impl Latency {
    /// Transactions were received.
    pub fn received(&mut self, txs: &[Tx], now: Instant) {
        for tx in txs {
            if self.received.len() < MAX_RECEIVED {
                self.received.insert(*tx, now);
            }
        }
    }

    /// Transactions became final. Returns how long the slowest took; none where none was received
    /// since the start.
    pub fn became_final(&mut self, txs: &[Tx], now: Instant) -> Option<Duration> {
        let mut slowest = None;
        for tx in txs {
            let Some(at) = self.received.remove(tx) else { continue };
            let took = now.saturating_duration_since(at);
            self.histogram.put(took);
            if self.recent.len() == MAX_RECENT {
                self.recent.pop_front();
            }
            self.recent.push_back((now, took));
            slowest = slowest.max(Some(took));
        }
        slowest
    }

    /// Latencies since the start.
    pub fn histogram(&self) -> &Histogram {
        &self.histogram
    }

    /// The median and the 99th percentile of what became final within some time, if anything did.
    pub fn percentiles(&self, within: Duration, now: Instant) -> Option<(Duration, Duration)> {
        let is_recent =
            |(at, _): &&(Instant, Duration)| now.saturating_duration_since(*at) < within;
        let recent = self.recent.iter().rev().take_while(is_recent);
        let mut all: Vec<Duration> = recent.map(|(_, took)| *took).collect();
        all.sort_unstable();
        let last = all.len().checked_sub(1)?;
        Some((all[last / 2], all[last * 99 / 100]))
    }
}

#[cfg(test)]
mod tests {
    use super::*;

    const MS: Duration = Duration::from_millis(1);

    fn tx(number: u32) -> Tx {
        Tx { client: 1, number, payload: 0 }
    }

    #[test]
    fn from_receipt_to_final() {
        let (start, mut latency) = (Instant::now(), Latency::default());
        assert_eq!(latency.percentiles(MS, start), None);
        latency.received(&[tx(1), tx(2)], start);
        latency.received(&[tx(3)], start + 60 * MS);
        let at = start + 100 * MS;
        assert_eq!(latency.became_final(&[tx(9)], at), None);
        assert_eq!(latency.became_final(&[tx(3), tx(1), tx(9)], at), Some(100 * MS));
        // Each counts once.
        assert_eq!(latency.became_final(&[tx(1)], at), None);
        assert_eq!(latency.became_final(&[tx(2)], start + 20_000 * MS), Some(20_000 * MS));
        let histogram = latency.histogram();
        assert_eq!((histogram.count, histogram.sum), (3, 20_140 * MS));
        let buckets: Vec<(f64, u64)> = histogram.buckets().collect();
        assert_eq!(buckets[..4], [(0.025, 0), (0.05, 1), (0.075, 1), (0.1, 2)]);
        assert_eq!(buckets.last(), Some(&(10.0, 2)));
        let now = start + 20_000 * MS;
        assert_eq!(latency.percentiles(MS, now), Some((20_000 * MS, 20_000 * MS)));
        assert_eq!(latency.percentiles(30_000 * MS, now), Some((100 * MS, 100 * MS)));
    }

    #[test]
    fn what_it_holds_is_bounded() {
        let (now, mut latency) = (Instant::now(), Latency::default());
        let many: Vec<Tx> = (0..MAX_RECEIVED as u32 + 9).map(tx).collect();
        latency.received(&many, now);
        assert_eq!(latency.received.len(), MAX_RECEIVED);
        latency.became_final(&many, now);
        assert_eq!((latency.received.len(), latency.recent.len()), (0, MAX_RECENT));
    }
}
