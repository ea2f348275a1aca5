//! Asks that come before their view.

use std::collections::BTreeMap;

use bytes::Bytes;

use crate::core::Delivered;
use crate::wire;

/// Asks that wait until enough replicas are in their view.
///
/// The core takes an Ask from the view's leader alone, and goes to its view. So one faulty leader
/// could end the session: by an Ask for the last view that it leads, or by many, each for the next
/// one. An honest leader asks once n-f replicas have called for the view, so n-2f honest ones are in
/// it. An Ask is delivered once this replica is in its view, or f+1 peers say that they are. Until
/// then the last Ask of each peer waits.
#[derive(Debug, Default)]
pub struct EarlyAsks {
    waiting: BTreeMap<u32, Bytes>,
}

impl EarlyAsks {
    /// Whether a message is an early Ask, which now waits.
    pub fn holds(&mut self, peer: u32, data: &Bytes, known_view: u32) -> bool {
        let is_early = wire::asked_view(data).is_some_and(|it| it > known_view);
        if is_early {
            self.waiting.insert(peer, data.clone());
        }
        is_early
    }

    /// Those that are no longer early. They wait no more.
    pub fn take(&mut self, known_view: u32) -> Vec<Delivered> {
        let is_due = |data: &Bytes| wire::asked_view(data).is_none_or(|it| it <= known_view);
        let waiting = std::mem::take(&mut self.waiting);
        let (due, early): (BTreeMap<_, _>, _) =
            waiting.into_iter().partition(|(_, data)| is_due(data));
        self.waiting = early;
        due.into_iter().map(|(from, data)| Delivered { from, data }).collect()
    }
}

#[cfg(test)]
mod tests {
    use super::*;

    #[test]
    fn an_early_ask_waits() {
        let mut asks = EarlyAsks::default();
        let data = Bytes::from_static(&[2, 2, 1, 0, 0, 0, 9]);
        assert!(!asks.holds(1, &data, 9));
        assert!(asks.holds(1, &data, 8));
        assert!(asks.take(8).is_empty());
        assert_eq!(asks.take(9), [Delivered { from: 1, data }]);
        assert!(asks.take(9).is_empty());
    }
}
