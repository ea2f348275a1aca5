//! Messages of peers that wait for their turns.

use std::collections::{HashSet, VecDeque};

use bytes::Bytes;

use crate::core::Delivered;
use crate::wire;

/// Messages of one peer in a group of turns: others do not wait for long.
const MAX_OF_PEER: usize = 8;

/// The messages that wait, in the order in which they came.
///
/// How many of a peer wait is bounded by the host: each has a slot, which is free once the message
/// is taken.
#[derive(Debug)]
pub struct Inbox {
    of_peer: Vec<VecDeque<Waiting>>,
    came: u64,
    /// Slots that became free, by peer.
    freed: Vec<u32>,
}

#[derive(Debug)]
struct Waiting {
    number: u64,
    data: Bytes,
}

impl Inbox {
    /// No message of n replicas waits.
    pub fn new(n: u32) -> Inbox {
        let of_peer = (0..n).map(|_| VecDeque::new()).collect();
        Inbox { of_peer, came: 0, freed: vec![0; n as usize] }
    }

    /// Takes a message.
    pub fn put(&mut self, peer: u32, data: Bytes) {
        self.came += 1;
        self.of_peer[peer as usize].push_back(Waiting { number: self.came, data });
    }

    /// Whether messages of a peer wait.
    pub fn has_of(&self, peer: u32) -> bool {
        !self.of_peer[peer as usize].is_empty()
    }

    /// How many messages wait.
    pub fn len(&self) -> usize {
        self.of_peer.iter().map(VecDeque::len).sum()
    }

    /// A message of a peer needs no slot any more.
    pub fn free(&mut self, peer: u32) {
        self.freed[peer as usize] += 1;
    }

    /// No message waits any more.
    pub fn clear(&mut self) {
        for (of, freed) in self.of_peer.iter_mut().zip(&mut self.freed) {
            *freed += of.len() as u32;
            of.clear();
        }
    }

    /// The slots that became free since the last call, by peer.
    pub fn take_freed(&mut self) -> impl Iterator<Item = (u32, u32)> + '_ {
        let freed = self.freed.iter_mut().enumerate().filter(|(_, count)| **count > 0);
        freed.map(|(peer, count)| (peer as u32, std::mem::take(count)))
    }

    /// Waiting messages in the order in which they came, and few of each peer; none of a peer that
    /// is slowed. A vote that is taken before the proposal that came before it would be refused. A
    /// given block is the last one of its peer: the next block may be its child, which can be
    /// prepared only once it is stored. `taken` are the messages of the group so far: the same block
    /// is taken once.
    pub fn take(
        &mut self,
        most: usize,
        taken: &[Delivered],
        mut is_slowed: impl FnMut(u32) -> bool,
    ) -> Vec<Delivered> {
        let mut out: Vec<Delivered> = Vec::new();
        let mut gives: HashSet<Bytes> = taken.iter().map(|it| it.data.clone()).collect();
        let allowed = |peer| if is_slowed(peer) { 0 } else { MAX_OF_PEER };
        let mut left: Vec<usize> = (0..self.of_peer.len() as u32).map(allowed).collect();
        while out.len() < most {
            let Some((peer, data)) = self.pop_first(&left) else { break };
            left[peer] -= 1;
            if wire::given_view(&data).is_some() {
                if !gives.insert(data.clone()) {
                    continue;
                }
                left[peer] = 0;
            }
            out.push(Delivered { from: peer as u32, data });
        }
        out
    }

    /// The message that came first, of a peer of which some are left.
    fn pop_first(&mut self, left: &[usize]) -> Option<(usize, Bytes)> {
        let heads = self.of_peer.iter().enumerate().filter(|(peer, _)| left[*peer] > 0);
        let numbers = heads.filter_map(|(peer, it)| Some((it.front()?.number, peer)));
        let (_, peer) = numbers.min()?;
        let Waiting { data, .. } = self.of_peer[peer].pop_front()?;
        self.freed[peer] += 1;
        Some((peer, data))
    }
}

#[cfg(test)]
mod tests {
    use super::*;

    const VOTE: &[u8] = &[2, 5];

    fn inbox_with(messages: &[(u32, &'static [u8])]) -> Inbox {
        let mut inbox = Inbox::new(3);
        for (peer, data) in messages {
            inbox.put(*peer, Bytes::from_static(data));
        }
        inbox
    }

    fn senders(taken: &[Delivered]) -> Vec<u32> {
        taken.iter().map(|it| it.from).collect()
    }

    fn take(inbox: &mut Inbox, most: usize) -> Vec<u32> {
        senders(&inbox.take(most, &[], |_| false))
    }

    #[test]
    fn as_they_came_and_few_of_each_peer() {
        let mut inbox = inbox_with(&[(1, VOTE), (2, VOTE), (1, VOTE)]);
        assert_eq!(take(&mut inbox, 2), [1, 2]);
        assert_eq!(inbox.take_freed().collect::<Vec<_>>(), [(1, 1), (2, 1)]);
        assert!(inbox.has_of(1) && inbox.take_freed().next().is_none());
        let mut many = vec![(1, VOTE); 20];
        many.push((2, VOTE));
        assert_eq!(take(&mut inbox_with(&many), 32), [1, 1, 1, 1, 1, 1, 1, 1, 2]);
    }

    #[test]
    fn a_block_is_the_last_message_of_its_peer_and_is_taken_once() {
        let (one, other): (&[u8], &[u8]) = (&[2, 7, 0, 0, 0, 1], &[2, 7, 0, 0, 0, 2]);
        let mut inbox = inbox_with(&[(1, one), (1, other), (2, one), (2, VOTE)]);
        assert_eq!(take(&mut inbox, 9), [1, 2]);
        assert_eq!(take(&mut inbox, 9), [1]);
    }

    #[test]
    fn a_slowed_peer_waits() {
        let mut inbox = inbox_with(&[(1, VOTE), (2, VOTE)]);
        assert_eq!(senders(&inbox.take(9, &[], |peer| peer == 1)), [2]);
        assert_eq!(take(&mut inbox, 9), [1]);
    }
}
