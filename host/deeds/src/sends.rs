//! What a faulty replica does to what its engine sends.

use std::collections::VecDeque;

use bytes::Bytes;
use themis_engine::frame::{Frame, Receipt, Standing, HEAD_BYTES};
use themis_engine::sessions::frames::{in_session, SessionFrame};
use themis_engine::sessions::keys::announcement;
use themis_engine::sessions::reserved::{announcer, is_reserved, marker};
use themis_engine::tx::Tx;
use themis_engine::wire::{self, Kind};

use crate::deed::Deed;
use crate::false_history::FalseHistory;

const MAX_KEPT: usize = 200;
/// Views of `Boast`.
const AHEAD: u32 = 5;
/// The client of a replica that runs in front.
pub const OWN_CLIENT: u32 = 77;
/// Numbers of a client that `Split` tells of together.
const HALF: u32 = 50;

/// Whose deeds they are.
pub struct Actor {
    /// The replica.
    pub me: u32,
    /// How many replicas there are.
    pub n: u32,
    /// The last view.
    pub views: u32,
    /// Its own client's transactions have numbers above this one.
    pub last_number: u32,
}

/// The deeds of one faulty replica.
#[derive(Clone)]
pub struct Deeds {
    pub(crate) done: Vec<Deed>,
    pub(crate) me: u32,
    pub(crate) n: u32,
    pub(crate) views: u32,
    /// The session in which it acted last.
    pub(crate) session: u32,
    pub(crate) received: VecDeque<Bytes>,
    pub(crate) heard: Vec<Tx>,
    sent: u64,
    pub(crate) number: u32,
    pub(crate) climbed: u32,
    false_history: FalseHistory,
}

impl Deeds {
    /// What a replica does.
    pub fn new(deeds: &[Deed], of: &Actor) -> Deeds {
        Deeds {
            done: deeds.to_vec(),
            me: of.me,
            n: of.n,
            views: of.views,
            session: 0,
            received: VecDeque::new(),
            heard: Vec::new(),
            sent: 0,
            number: of.last_number,
            climbed: 0,
            false_history: FalseHistory::default(),
        }
    }

    fn does(&self, deed: Deed) -> bool {
        self.done.contains(&deed)
    }

    pub(crate) fn peers(&self) -> impl Iterator<Item = u32> {
        let me = self.me;
        (0..self.n).filter(move |it| *it != me)
    }

    /// Notes what it receives.
    pub fn receive(&mut self, frame: &Frame) {
        match frame {
            Frame::Message(data) => {
                self.received.push_back(data.clone());
                if self.received.len() > MAX_KEPT {
                    self.received.pop_front();
                }
            }
            Frame::Receipts { receipts, .. } if self.heard.len() < 4096 => {
                self.heard.extend(receipts.iter().map(|it| it.tx));
            }
            _ => {}
        }
    }

    /// The same where sessions follow one another.
    pub fn send_of_many(&mut self, to: u32, data: Bytes) -> Option<Bytes> {
        match SessionFrame::decode(data[4], &data.slice(HEAD_BYTES..)) {
            Ok(SessionFrame::In { session, frame }) => {
                let frame = self.tampered_keys(to, session, frame);
                let sent = self.send(to, frame.encode())?;
                Some(in_session(session, &sent))
            }
            Ok(SessionFrame::Part(part)) if self.does(Deed::FalseHistory) => {
                let part = self.false_history.tell(part);
                Some(SessionFrame::Part(part).encode())
            }
            Ok(
                SessionFrame::Ask(_)
                | SessionFrame::Part(_)
                | SessionFrame::AskSession(_)
                | SessionFrame::Session { .. }
                | SessionFrame::Out(_)
                | SessionFrame::Ended(_),
            )
            | Err(_) => Some(data),
        }
    }

    /// Shows every second peer another key, and tells of the marker and of keys of others from the start
    /// on.
    fn tampered_keys(&self, to: u32, session: u32, frame: Frame) -> Frame {
        match frame {
            Frame::Receipts { clock, mut receipts } => {
                if self.does(Deed::TwoKeys) && to % 2 == 0 {
                    let own = receipts.iter_mut().filter(|it| it.tx.client == announcer(self.me));
                    own.for_each(|it| it.tx.payload ^= 1);
                }
                if self.does(Deed::EarlyMarker) {
                    receipts.insert(0, Receipt { tx: marker(session), stamp: 0 });
                }
                if self.does(Deed::OthersKeys) {
                    receipts.splice(0..0, self.others_keys(session + 1));
                }
                Frame::Receipts { clock, receipts }
            }
            other => other,
        }
    }

    /// What announces a key of each other replica that it does not have.
    fn others_keys(&self, session: u32) -> Vec<Receipt> {
        let all = self.peers().flat_map(|peer| announcement(peer, session, &[7; 60]));
        all.map(|tx| Receipt { tx, stamp: 0 }).collect()
    }

    /// What it really sends, where its engine sends a frame to a peer.
    pub fn send(&mut self, to: u32, frame: Bytes) -> Option<Bytes> {
        let data = frame.slice(HEAD_BYTES..);
        match frame[4] {
            1 => self.send_message(to, frame, &data),
            4 => self.send_receipts(to, frame, data),
            _ if self.does(Deed::Boast) => Some(self.boast(frame, data)),
            _ => Some(frame),
        }
    }

    /// Its status, as if it were ahead. What it claims is a view of the session, and not the last one.
    fn boast(&self, frame: Bytes, data: Bytes) -> Bytes {
        match Frame::decode(frame[4], data) {
            Ok(Frame::Status(it)) => {
                let view = (it.view + AHEAD).min(self.views - 1).max(it.view);
                Frame::Status(Standing { view, ..it }).encode()
            }
            _ => frame,
        }
    }

    /// What it tells a peer of its receipts: with the smallest stamp, and not all of them. It goes on
    /// announcing its keys: without one it could do nothing in the next session.
    fn send_receipts(&self, to: u32, frame: Bytes, data: Bytes) -> Option<Bytes> {
        let (is_front, is_split) = (self.does(Deed::FrontRun), self.does(Deed::Split));
        let Ok(Frame::Receipts { clock, receipts }) = Frame::decode(frame[4], data) else {
            return Some(frame);
        };
        if !is_front && !is_split || receipts.is_empty() {
            return Some(frame);
        }
        let is_told = |it: &&Receipt| {
            let is_own = it.tx.client == OWN_CLIENT;
            is_reserved(it.tx.client)
                || is_front && is_own
                || is_split && (it.tx.number / HALF + to) % 2 == 1
        };
        let told = receipts.iter().filter(is_told).map(|it| Receipt { tx: it.tx, stamp: 0 });
        let receipts: Vec<Receipt> = told.collect();
        (!receipts.is_empty()).then(|| Frame::Receipts { clock, receipts }.encode())
    }

    fn send_message(&mut self, to: u32, frame: Bytes, data: &[u8]) -> Option<Bytes> {
        let is_proposal = wire::kind_of(data) == Some(Kind::Propose);
        let is_half = self.does(Deed::Half) && to % 2 == 0;
        if is_proposal && (is_half || self.does(Deed::Mute) || self.does(Deed::Split)) {
            return None;
        }
        self.sent += 1;
        if self.does(Deed::Forge) && self.sent % 2 == 0 && data.len() > 60 {
            let mut data = data.to_vec();
            let at = data.len() - 40;
            data[at] ^= 1;
            return Some(Frame::encode_message(&data));
        }
        Some(frame)
    }
}

#[cfg(test)]
mod tests {
    use themis_engine::sessions::frames::{End, HistoryPart};
    use themis_engine::sessions::keys::PARTS;

    use super::*;

    const PROPOSAL: [u8; 100] = {
        let mut out = [7; 100];
        (out[0], out[1]) = (2, 4);
        out
    };

    fn deeds(some: &[Deed]) -> Deeds {
        Deeds::new(some, &Actor { me: 4, n: 5, views: 50, last_number: 0 })
    }

    /// To which of its peers a proposal goes, and whether it is as it was.
    fn proposed(some: &[Deed]) -> Vec<(u32, bool)> {
        let (mut it, frame) = (deeds(some), Frame::encode_message(&PROPOSAL));
        let sent = (0..4).map(|to| (to, it.send(to, frame.clone())));
        sent.filter_map(|(to, sent)| sent.map(|it| (to, it == frame))).collect()
    }

    #[test]
    fn what_becomes_of_proposals() {
        let all =
            |is_whole: fn(u32) -> bool| -> Vec<_> { (0..4).map(|to| (to, is_whole(to))).collect() };
        assert_eq!(proposed(&[Deed::Garbage]), all(|_| true));
        assert_eq!(proposed(&[Deed::Forge]), all(|to| to % 2 == 0));
        assert_eq!(proposed(&[Deed::Half]), [(1, true), (3, true)]);
        assert_eq!(proposed(&[Deed::Mute]), []);
        assert_eq!(proposed(&[Deed::Split]), []);
    }

    fn made(client: u32, number: u32) -> Receipt {
        Receipt { tx: Tx { client, number, payload: 0 }, stamp: 9 }
    }

    /// The transactions that peers 0 and 1 are told of, and whether all stamps are the smallest.
    fn told(some: &[Deed]) -> ([Vec<(u32, u32)>; 2], bool) {
        let mut is_smallest = true;
        let mut it = deeds(some);
        let receipts = vec![made(1, 0), made(OWN_CLIENT, 1), made(1, HALF), made(announcer(4), 8)];
        let frame = Frame::Receipts { clock: 9, receipts }.encode();
        let told = [0, 1].map(|to| {
            let sent = it.send(to, frame.clone()).map(|it| it.slice(HEAD_BYTES..));
            let Some(Ok(Frame::Receipts { receipts, .. })) = sent.map(|it| Frame::decode(4, it))
            else {
                return Vec::new();
            };
            is_smallest &= receipts.iter().all(|it| it.stamp == 0);
            receipts.iter().map(|it| (it.tx.client, it.tx.number)).collect()
        });
        (told, is_smallest)
    }

    #[test]
    fn what_becomes_of_receipts() {
        let (own, key) = ((OWN_CLIENT, 1), (announcer(4), 8));
        let all = vec![(1, 0), own, (1, HALF), key];
        assert_eq!(told(&[Deed::Mute]), ([all.clone(), all], false));
        assert_eq!(told(&[Deed::FrontRun]), ([vec![own, key], vec![own, key]], true));
        assert_eq!(told(&[Deed::Split]), ([vec![(1, HALF), key], vec![(1, 0), own, key]], true));
    }

    /// The view that it claims to be in, where it is in that one.
    fn claimed(some: &[Deed], view: u32) -> u32 {
        let standing = Standing { view, ..Standing::default() };
        let sent = deeds(some).send(0, Frame::Status(standing).encode()).unwrap();
        match Frame::decode(sent[4], sent.slice(HEAD_BYTES..)) {
            Ok(Frame::Status(it)) => it.view,
            other => panic!("{other:?}"),
        }
    }

    #[test]
    fn what_becomes_of_statuses() {
        assert_eq!(claimed(&[Deed::Mute], 7), 7);
        assert_eq!([7, 46, 49, 50].map(|it| claimed(&[Deed::Boast], it)), [12, 49, 49, 50]);
    }

    /// What a peer gets of receipts in session 3: marker or part of a key, and its payload.
    fn told_in_session(some: &[Deed], to: u32) -> Vec<(u32, u64)> {
        let frame = Frame::Receipts { clock: 9, receipts: vec![made(announcer(4), 32)] };
        let sent = deeds(some).send_of_many(to, in_session(3, &frame.encode())).unwrap();
        let sent = SessionFrame::decode(sent[4], &sent.slice(HEAD_BYTES..));
        let Ok(SessionFrame::In { session: 3, frame: Frame::Receipts { receipts, .. } }) = sent
        else {
            return Vec::new();
        };
        receipts.iter().map(|it| (it.tx.client, it.tx.payload)).collect()
    }

    #[test]
    fn what_it_does_over_sessions() {
        let (marker, key, other) = ((marker(3).client, 0), (announcer(4), 0), (announcer(4), 1));
        for to in 0..2 {
            assert_eq!(told_in_session(&[Deed::Mute], to), [key]);
            assert_eq!(told_in_session(&[Deed::EarlyMarker], to), [marker, key]);
        }
        assert_eq!(told_in_session(&[Deed::TwoKeys], 0), [other]);
        assert_eq!(told_in_session(&[Deed::TwoKeys], 1), [key]);
        let told = told_in_session(&[Deed::OthersKeys], 0);
        let of_others = |client: &u32| told.iter().filter(|it| it.0 == *client).count();
        assert_eq!((0..4).map(announcer).map(|it| of_others(&it)).sum::<usize>(), 4 * PARTS);
        assert_eq!(told.last(), Some(&key));
    }

    #[test]
    fn a_false_history_has_other_batches() {
        let end = End { position: 1, digest: [0; 32] };
        let batches = vec![vec![made(1, 1).tx]];
        let part = HistoryPart { session: 0, end, from: 0, batches: batches.clone() };
        let part = SessionFrame::Part(part).encode();
        let sent = |deed| deeds(&[deed]).send_of_many(0, part.clone()).unwrap();
        assert_eq!(sent(Deed::Mute), part);
        let told = sent(Deed::FalseHistory);
        let told = SessionFrame::decode(told[4], &told.slice(HEAD_BYTES..));
        let Ok(SessionFrame::Part(told)) = told else { panic!("{told:?}") };
        assert_ne!(told.end, end);
        assert_ne!(told.batches, batches);
    }
}
