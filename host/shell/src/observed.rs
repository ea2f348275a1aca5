//! What clients and operators ask of transactions: where they are final, and how long they took.

use std::collections::{HashMap, VecDeque};
use std::time::{Duration, Instant};

use themis_engine::tx::Tx;

use crate::latency::Latency;

const MAX_LATEST: usize = 10;

/// A batch that became final.
#[derive(Debug)]
pub struct LatestBatch {
    /// Its position.
    pub position: usize,
    /// Its transactions.
    pub txs: Vec<Tx>,
    /// How long the slowest of them took.
    pub took: Option<Duration>,
    /// When it became final.
    pub at: Instant,
}

/// What is remembered of transactions.
#[derive(Debug, Default)]
pub struct Observed {
    positions: HashMap<Tx, usize>,
    latest: VecDeque<LatestBatch>,
    /// How long they took.
    pub latency: Latency,
}

impl Observed {
    /// A batch became final.
    pub fn became_final(&mut self, position: usize, txs: &[Tx], at: Instant) {
        self.positions.extend(txs.iter().map(|it| (*it, position)));
        let took = self.latency.became_final(txs, at);
        if self.latest.len() == MAX_LATEST {
            self.latest.pop_front();
        }
        self.latest.push_back(LatestBatch { position, txs: txs.to_vec(), took, at });
    }

    /// The batches before this position are in the store, which knows their transactions.
    pub fn stored(&mut self, end: usize) {
        self.positions.retain(|_, position| *position >= end);
        self.positions.shrink_to_fit();
    }

    /// The batch that holds a transaction.
    pub fn position_of(&self, tx: &Tx) -> Option<usize> {
        self.positions.get(tx).copied()
    }

    /// The latest batches, the last one first.
    pub fn latest(&self) -> impl Iterator<Item = &LatestBatch> {
        self.latest.iter().rev()
    }
}

#[cfg(test)]
mod tests {
    use super::*;

    #[test]
    fn where_transactions_are_final() {
        let (mut observed, now) = (Observed::default(), Instant::now());
        let tx = |number| Tx { client: 1, number, payload: 0 };
        observed.latency.received(&[tx(5)], now);
        for position in 0..20 {
            let at = position as u32 * 2;
            observed.became_final(position, &[tx(at), tx(at + 1)], now);
        }
        assert_eq!(observed.position_of(&tx(5)), Some(2));
        assert_eq!(observed.position_of(&tx(40)), None);
        let latest: Vec<usize> = observed.latest().map(|it| it.position).collect();
        assert_eq!(latest, (10..20).rev().collect::<Vec<_>>());
    }
}
