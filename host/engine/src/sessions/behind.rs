//! How a replica that can't end a session by itself takes its end from others: f+1 peers that report
//! the same end include an honest one, and all honest ones end a session alike.

use std::collections::BTreeMap;
use std::time::Duration;

use sha2::{Digest, Sha256};

use crate::sessions::frames::{AskHistory, End, HistoryPart, MAX_PART};
use crate::time::Time;
use crate::tx::{self, Tx, TX_BYTES};

/// Between requests for the end.
const ASK_EVERY: Duration = Duration::from_millis(500);
/// For so long the next batches of a peer are waited for.
const PATIENCE: Duration = Duration::from_secs(1);
/// A peer may take so long for all of them, and [`PATIENCE`] for each part that they can fill.
const START: Duration = Duration::from_secs(2);
/// Transactions of one session. No honest replica has more of it.
const MAX_TXS: usize = 1 << 17;
/// Parts that these fill, each at least by half.
const MAX_PARTS: usize = 2 * MAX_TXS * TX_BYTES / MAX_PART;

/// The digest of a list with one more batch.
pub fn chained(digest: &[u8; 32], txs: &[Tx]) -> [u8; 32] {
    let mut data = digest.to_vec();
    txs.iter().for_each(|it| tx::put(it, &mut data));
    Sha256::digest(&data).into()
}

/// What was asked and heard of the end of one session.
#[derive(Debug)]
pub struct Behind {
    session: u32,
    /// What this replica has of the list of all sessions, up to that session's start.
    first: usize,
    digest: [u8; 32],
    f: usize,
    /// What each peer reports.
    ends: BTreeMap<u32, End>,
    asked_at: Option<Time>,
    /// The peer whose batches are taken.
    giver: Option<Giver>,
    batches: Vec<Vec<Tx>>,
    /// Peers whose batches did not lead to the end that they reported, or did not come.
    refused: Vec<u32>,
}

#[derive(Clone, Copy, Debug)]
struct Giver {
    peer: u32,
    /// When it was asked last.
    asked_at: Time,
    /// When it has to be done.
    until: Time,
}

impl Giver {
    /// One that brings a little now and then could keep the replica from all others.
    fn is_late(&self, now: Time) -> bool {
        now.since(self.asked_at) >= PATIENCE || now >= self.until
    }
}

/// What a peer is asked.
pub type Asked = (u32, AskHistory);

/// The batches of a session, and the digest that they lead to.
#[derive(Debug, PartialEq, Eq)]
pub struct Taken {
    /// Its batches.
    pub batches: Vec<Vec<Tx>>,
    /// Chains all batches up to its end.
    pub digest: [u8; 32],
}

impl Behind {
    /// Nothing is known of the end of a session, before which the list has that many batches.
    pub fn new(session: u32, first: usize, digest: [u8; 32], f: u32) -> Behind {
        Behind {
            session,
            first,
            digest,
            f: f as usize,
            ends: BTreeMap::new(),
            asked_at: None,
            giver: None,
            batches: Vec::new(),
            refused: Vec::new(),
        }
    }

    /// The end that more than f peers report.
    fn known_end(&self) -> Option<End> {
        let count = |end: &End| self.ends.values().filter(|it| *it == end).count();
        self.ends.values().find(|it| count(it) > self.f).copied()
    }

    fn ask(&self, wants_batches: bool) -> AskHistory {
        let from = self.first + self.batches.len();
        AskHistory { session: self.session, from, wants_batches }
    }

    /// What the peers that are ahead are asked now.
    pub fn step(&mut self, ahead: &[u32], now: Time) -> Vec<Asked> {
        if let Some(end) = self.known_end() {
            return self.ask_for_batches(end, now).into_iter().collect();
        }
        if self.asked_at.is_some_and(|at| now.since(at) < ASK_EVERY) {
            return Vec::new();
        }
        self.asked_at = Some(now);
        ahead.iter().map(|peer| (*peer, self.ask(false))).collect()
    }

    /// One of the peers that report the end is asked for its batches, and another one where nothing
    /// comes.
    fn ask_for_batches(&mut self, end: End, now: Time) -> Option<Asked> {
        match self.giver {
            Some(giver) if !giver.is_late(now) => return None,
            Some(giver) => self.refuse(giver.peer),
            None => {}
        }
        let agreeing = || self.ends.iter().filter(|(_, it)| **it == end).map(|(peer, _)| *peer);
        if agreeing().all(|it| self.refused.contains(&it)) {
            self.refused.clear();
        }
        let peer = agreeing().find(|it| !self.refused.contains(it))?;
        // A batch in each part at least, as many as are missing.
        let parts = end.position.saturating_sub(self.first).min(MAX_PARTS) as u32;
        self.giver = Some(Giver { peer, asked_at: now, until: now + START + PATIENCE * parts });
        Some((peer, self.ask(true)))
    }

    fn refuse(&mut self, peer: u32) {
        self.refused.push(peer);
        self.giver = None;
        self.batches.clear();
    }

    /// Takes what a peer reports; what it is asked next, or the whole session.
    pub fn take(
        &mut self,
        peer: u32,
        part: HistoryPart,
        now: Time,
    ) -> (Option<Asked>, Option<Taken>) {
        if part.session != self.session {
            return (None, None);
        }
        self.ends.insert(peer, part.end);
        let Some(end) = self.known_end() else { return (None, None) };
        let giver = self.giver.filter(|it| it.peer == peer && now < it.until);
        let has_come = self.first + self.batches.len();
        let Some(giver) = giver.filter(|_| !part.batches.is_empty() && part.from == has_come)
        else {
            return (self.ask_for_batches(end, now), None);
        };
        self.batches.extend(part.batches);
        if self.batches.iter().map(Vec::len).sum::<usize>() > MAX_TXS {
            self.refuse(peer);
            return (None, None);
        }
        let has_come = self.first + self.batches.len();
        if has_come < end.position {
            self.giver = Some(Giver { asked_at: now, ..giver });
            return (Some((peer, self.ask(true))), None);
        }
        let digest = self.batches.iter().fold(self.digest, |digest, it| chained(&digest, it));
        if (End { position: has_come, digest }) == end {
            return (None, Some(Taken { batches: std::mem::take(&mut self.batches), digest }));
        }
        self.refuse(peer);
        (self.ask_for_batches(end, now), None)
    }
}

#[cfg(test)]
mod tests {
    use super::*;

    const NOW: Time = Time::from_nanos(0);

    fn batch(number: u32) -> Vec<Tx> {
        vec![Tx { client: 1, number, payload: 0 }]
    }

    fn end_of(batches: &[Vec<Tx>]) -> End {
        let digest = batches.iter().fold([3; 32], |digest, it| chained(&digest, it));
        End { position: 10 + batches.len(), digest }
    }

    fn part(end: End, from: usize, batches: &[Vec<Tx>]) -> HistoryPart {
        HistoryPart { session: 4, end, from, batches: batches.to_vec() }
    }

    fn behind() -> Behind {
        Behind::new(4, 10, [3; 32], 1)
    }

    #[test]
    fn the_end_that_more_than_f_report_is_taken_in_parts() {
        let (mut it, all) = (behind(), [batch(1), batch(2), batch(3)]);
        let end = end_of(&all);
        assert_eq!(it.step(&[1, 2, 3], NOW).len(), 3);
        assert!(it.step(&[1, 2, 3], NOW).is_empty());
        assert_eq!(it.take(1, part(end_of(&[]), 10, &[]), NOW), (None, None));
        assert_eq!(it.take(2, part(end, 10, &[]), NOW), (None, None));
        let (asked, _) = it.take(3, part(end, 10, &[]), NOW);
        let ask = |from| AskHistory { session: 4, from, wants_batches: true };
        assert_eq!(asked, Some((2, ask(10))));
        assert_eq!(it.take(3, part(end, 10, &all), NOW), (None, None)); // not asked for
        assert_eq!(it.take(2, part(end, 10, &all[..2]), NOW), (Some((2, ask(12))), None));
        let taken = Taken { batches: all.to_vec(), digest: end.digest };
        assert_eq!(it.take(2, part(end, 12, &all[2..]), NOW), (None, Some(taken)));
    }

    /// It gives a batch right before each time that it would be left, for a session of 1,000 batches.
    #[test]
    fn one_that_gives_slowly_is_left_for_another() {
        let (mut it, mut now) = (behind(), NOW);
        let all: Vec<_> = (0..1000).map(batch).collect();
        let end = end_of(&all);
        it.take(1, part(end, 10, &[]), now);
        let (mut asked, _) = it.take(2, part(end, 10, &[]), now);
        let slow = asked.map(|it| it.0);
        while let Some((peer, ask)) = asked.filter(|it| Some(it.0) == slow) {
            now = now + Duration::from_millis(900);
            asked = it.take(peer, part(end, ask.from, &[batch(0)]), now).0;
        }
        let most = START + PATIENCE * (MAX_PARTS as u32 + 1);
        assert!(now.since(NOW) < most, "{:?}", now.since(NOW));
        let (peer, ask) = asked.expect("the other one is asked");
        assert_eq!(ask.from, 10);
        assert!(it.take(peer, part(end, 10, &all), now).1.is_some());
    }

    #[test]
    fn one_that_gives_other_batches_or_none_is_left_for_another() {
        let (mut it, all) = (behind(), [batch(1), batch(2)]);
        let end = end_of(&all);
        it.take(1, part(end, 10, &[]), NOW);
        it.take(2, part(end, 10, &[]), NOW);
        let (asked, taken) = it.take(1, part(end, 10, &[batch(1), batch(9)]), NOW);
        assert_eq!((asked.map(|it| it.0), taken), (Some(2), None));
        let later = NOW + PATIENCE;
        let asked = it.step(&[1, 2], later);
        assert_eq!(asked.len(), 1); // both have failed, so each is asked again
        assert!(it.take(asked[0].0, part(end, 10, &all), later).1.is_some());
    }
}
