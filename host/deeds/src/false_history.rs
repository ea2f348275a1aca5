//! What a faulty replica tells those that are behind: another end of a session, with the batches that
//! lead to it.

use std::collections::BTreeMap;

use themis_engine::sessions::chained;
use themis_engine::sessions::frames::{End, HistoryPart};
use themis_engine::tx::Tx;

/// The batch of each session that is told of.
const MADE_UP: [Tx; 1] = [Tx { client: 1, number: 1, payload: u64::MAX }];

/// The true ends of sessions, as far as they are known: a false one follows from the one before.
#[derive(Clone, Debug)]
pub struct FalseHistory {
    /// By session: where the one before it ended.
    starts: BTreeMap<u32, End>,
}

impl Default for FalseHistory {
    fn default() -> FalseHistory {
        FalseHistory { starts: BTreeMap::from([(0, End { position: 0, digest: [0; 32] })]) }
    }
}

impl FalseHistory {
    /// What it tells instead: one made-up batch, which leads to the end that it claims. Where it does
    /// not know from where, other batches that lead nowhere.
    pub fn tell(&mut self, mut part: HistoryPart) -> HistoryPart {
        self.starts.insert(part.session + 1, part.end);
        let Some(start) = self.starts.get(&part.session) else {
            part.end.digest[0] ^= 1;
            part.batches.iter_mut().flatten().for_each(|it| it.payload ^= 1);
            return part;
        };
        let digest = chained(&start.digest, &MADE_UP);
        part.end = End { position: start.position + 1, digest };
        part.batches.truncate(usize::from(part.from == start.position));
        part.batches.iter_mut().for_each(|it| *it = MADE_UP.to_vec());
        part
    }
}

#[cfg(test)]
mod tests {
    use super::*;

    fn part(session: u32, from: usize, position: usize) -> HistoryPart {
        let batches = vec![vec![Tx { client: 2, number: 1, payload: 0 }]; position - from];
        HistoryPart { session, end: End { position, digest: [9; 32] }, from, batches }
    }

    #[test]
    fn its_batches_lead_to_its_end() {
        let mut it = FalseHistory::default();
        let told = it.tell(part(0, 0, 3));
        let end = End { position: 1, digest: chained(&[0; 32], &MADE_UP) };
        assert_eq!((told.end, &told.batches), (end, &vec![MADE_UP.to_vec()]));
        let next = it.tell(part(1, 3, 5));
        assert_eq!((next.end.position, next.batches.len()), (4, 1));
        assert_ne!(next.end.digest, told.end.digest);
        assert!(it.tell(part(1, 4, 5)).batches.is_empty());
    }

    #[test]
    fn where_the_start_is_unknown_its_batches_are_others() {
        let (told, truth) = (FalseHistory::default().tell(part(4, 7, 9)), part(4, 7, 9));
        assert_ne!(told.end.digest, truth.end.digest);
        assert_ne!(told.batches, truth.batches);
    }
}
