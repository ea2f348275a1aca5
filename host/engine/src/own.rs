//! What each client has waiting here: received from it, and not final.

use std::collections::{HashMap, HashSet};

use themis::Tx;

/// The transactions of the own clients that are not final, counted by client.
#[derive(Debug, Default)]
pub struct Own {
    waiting: HashSet<Tx>,
    counts: HashMap<u32, usize>,
}

impl Own {
    /// A client submitted a transaction.
    pub fn put(&mut self, tx: Tx) {
        if self.waiting.insert(tx) {
            *self.counts.entry(tx.client).or_default() += 1;
        }
    }

    /// A transaction is final.
    pub fn remove(&mut self, tx: &Tx) {
        if !self.waiting.remove(tx) {
            return;
        }
        if let Some(count) = self.counts.get_mut(&tx.client) {
            *count -= 1;
            if *count == 0 {
                self.counts.remove(&tx.client);
            }
        }
    }

    /// How many wait.
    pub fn len(&self) -> usize {
        self.waiting.len()
    }

    /// Whether a client submitted it here.
    pub fn has(&self, tx: &Tx) -> bool {
        self.waiting.contains(tx)
    }

    /// Whether each client has at most so many waiting with these, which may be known already.
    pub fn has_room(&self, txs: &[Tx], most: usize) -> bool {
        let mut counts: HashMap<u32, usize> = HashMap::new();
        txs.iter().all(|tx| {
            let own = self.counts.get(&tx.client).copied().unwrap_or_default();
            let count = counts.entry(tx.client).or_insert(own);
            *count += 1;
            *count <= most
        })
    }
}

#[cfg(test)]
mod tests {
    use super::*;

    fn tx(client: u32, number: u32) -> Tx {
        Tx { client, number, payload: 0 }
    }

    #[test]
    fn each_client_has_a_quota_of_its_own() {
        let mut own = Own::default();
        for number in 0..3 {
            own.put(tx(1, number));
        }
        own.put(tx(1, 0)); // known
        assert!(own.has_room(&[tx(1, 3)], 4));
        assert!(!own.has_room(&[tx(1, 3), tx(2, 0), tx(1, 4)], 4));
        assert!(own.has_room(&[tx(2, 0), tx(2, 1), tx(2, 2), tx(2, 3)], 4));
        own.remove(&tx(1, 0));
        own.remove(&tx(1, 0));
        own.remove(&tx(3, 0)); // another replica's client submitted it
        assert!(own.has_room(&[tx(1, 3), tx(1, 4)], 4));
        for number in 0..3 {
            own.remove(&tx(1, number));
        }
        assert!(own.counts.is_empty() && own.waiting.is_empty());
    }
}
