//! Frames between replicas whose sessions follow one another: each names its session.

use bytes::Bytes;

use crate::frame::{BadFrame, Frame, HEAD_BYTES};
use crate::tx::{self, Tx, TX_BYTES};

const IN_SESSION: u8 = 16;
const ASK: u8 = 17;
const PART: u8 = 18;
const ASK_SESSION: u8 = 19;
const SESSION: u8 = 20;
const OUT: u8 = 21;
const ENDED: u8 = 22;
/// Bytes of batches in one part of a history.
pub const MAX_PART: usize = 1 << 18;
const PART_HEAD: usize = 4 + 8 + 32 + 8;

/// What a replica sends to a peer.
#[derive(Clone, Debug, PartialEq, Eq)]
pub enum SessionFrame {
    /// A frame of one session: its number (4), the kind (1) and payload of the frame.
    In {
        /// The session.
        session: u32,
        /// The frame.
        frame: Frame,
    },
    /// Asks how a session ended.
    Ask(AskHistory),
    /// How a session ended, and some of its batches.
    Part(HistoryPart),
    /// A replica whose store was made again asks in which session the peer is: a number (8) that it
    /// drew.
    AskSession(u64),
    /// The answer: that number (8), and the session (4).
    Session {
        /// The number of the question.
        drawn: u64,
        /// The session that comes next here, or runs.
        session: u32,
    },
    /// The sender has no part in this session (4).
    Out(u32),
    /// The sender has ended this session (4), and opens no later one.
    Ended(u32),
}

/// A replica that is behind asks how a session ended: number (4), position (8), whether (1).
#[derive(Clone, Copy, Debug, PartialEq, Eq)]
pub struct AskHistory {
    /// The session.
    pub session: u32,
    /// Batches from this position on are wanted.
    pub from: usize,
    /// Batches are wanted, and not the end alone.
    pub wants_batches: bool,
}

/// How a session ended, and some of its batches: number (4), end (8), digest (32), position (8), and
/// each batch as a count (4) and its transactions (16 each).
#[derive(Clone, Debug, PartialEq, Eq)]
pub struct HistoryPart {
    /// The session.
    pub session: u32,
    /// Where it ended.
    pub end: End,
    /// The position of the first batch below.
    pub from: usize,
    /// Some batches.
    pub batches: Vec<Vec<Tx>>,
}

/// Where a session ended.
#[derive(Clone, Copy, Debug, PartialEq, Eq, PartialOrd, Ord)]
pub struct End {
    /// The position after its last batch.
    pub position: usize,
    /// Chains all batches up to there, from the first session on.
    pub digest: [u8; 32],
}

fn u32_at(data: &[u8], at: usize) -> Option<u32> {
    Some(u32::from_be_bytes(data.get(at..at + 4)?.try_into().ok()?))
}

fn u64_at(data: &[u8], at: usize) -> Option<u64> {
    Some(u64::from_be_bytes(data.get(at..at + 8)?.try_into().ok()?))
}

fn usize_at(data: &[u8], at: usize) -> Option<usize> {
    usize::try_from(u64_at(data, at)?).ok()
}

impl SessionFrame {
    /// Whether frames of this kind name their session.
    pub const fn has_kind(kind: u8) -> bool {
        matches!(kind, IN_SESSION | ASK | PART | ASK_SESSION | SESSION | OUT | ENDED)
    }

    /// The frame of a kind with a payload.
    pub fn decode(kind: u8, payload: &Bytes) -> Result<SessionFrame, BadFrame> {
        let bad = BadFrame::new(kind, payload.len());
        match kind {
            IN_SESSION => {
                let session = u32_at(payload, 0).ok_or(bad.clone())?;
                let inner = *payload.get(4).ok_or(bad)?;
                let frame = Frame::decode(inner, payload.slice(HEAD_BYTES..))?;
                Ok(SessionFrame::In { session, frame })
            }
            ASK => read_ask(payload).map(SessionFrame::Ask).ok_or(bad),
            PART => read_part(payload).map(SessionFrame::Part).ok_or(bad),
            ASK_SESSION if payload.len() == 8 => {
                u64_at(payload, 0).map(SessionFrame::AskSession).ok_or(bad)
            }
            SESSION => read_session(payload).ok_or(bad),
            OUT if payload.len() == 4 => u32_at(payload, 0).map(SessionFrame::Out).ok_or(bad),
            ENDED if payload.len() == 4 => u32_at(payload, 0).map(SessionFrame::Ended).ok_or(bad),
            _ => Err(bad),
        }
    }

    /// The bytes of the frame, with its length.
    pub fn encode(&self) -> Bytes {
        match self {
            SessionFrame::In { session, frame } => in_session(*session, &frame.encode()),
            SessionFrame::Ask(ask) => {
                let mut data = ask.session.to_be_bytes().to_vec();
                data.extend((ask.from as u64).to_be_bytes());
                data.push(u8::from(ask.wants_batches));
                encoded(ASK, &data)
            }
            SessionFrame::Part(part) => encoded(PART, &part_bytes(part)),
            SessionFrame::AskSession(drawn) => encoded(ASK_SESSION, &drawn.to_be_bytes()),
            SessionFrame::Session { drawn, session } => {
                encoded(SESSION, &[&drawn.to_be_bytes()[..], &session.to_be_bytes()].concat())
            }
            SessionFrame::Out(session) => encoded(OUT, &session.to_be_bytes()),
            SessionFrame::Ended(session) => encoded(ENDED, &session.to_be_bytes()),
        }
    }
}

/// The bytes of a frame of a session, from the bytes of the frame itself.
pub fn in_session(session: u32, frame: &Bytes) -> Bytes {
    let inner = &frame[4..];
    let mut out = Vec::with_capacity(HEAD_BYTES + 4 + inner.len());
    out.extend((inner.len() as u32 + 5).to_be_bytes());
    out.push(IN_SESSION);
    out.extend(session.to_be_bytes());
    out.extend_from_slice(inner);
    Bytes::from(out)
}

fn encoded(kind: u8, payload: &[u8]) -> Bytes {
    let mut out = Vec::with_capacity(HEAD_BYTES + payload.len());
    out.extend((payload.len() as u32 + 1).to_be_bytes());
    out.push(kind);
    out.extend_from_slice(payload);
    Bytes::from(out)
}

fn read_ask(data: &[u8]) -> Option<AskHistory> {
    let is_whole = data.len() == 13 && data[12] <= 1;
    is_whole.then_some(())?;
    let (session, from) = (u32_at(data, 0)?, usize_at(data, 4)?);
    Some(AskHistory { session, from, wants_batches: data[12] == 1 })
}

fn read_session(data: &[u8]) -> Option<SessionFrame> {
    let is_whole = data.len() == 12;
    is_whole.then_some(())?;
    Some(SessionFrame::Session { drawn: u64_at(data, 0)?, session: u32_at(data, 8)? })
}

fn part_bytes(part: &HistoryPart) -> Vec<u8> {
    let mut data = part.session.to_be_bytes().to_vec();
    data.extend((part.end.position as u64).to_be_bytes());
    data.extend(part.end.digest);
    data.extend((part.from as u64).to_be_bytes());
    for batch in &part.batches {
        data.extend((batch.len() as u32).to_be_bytes());
        batch.iter().for_each(|it| tx::put(it, &mut data));
    }
    data
}

fn read_part(data: &[u8]) -> Option<HistoryPart> {
    let digest = data.get(12..44)?.try_into().ok()?;
    let end = End { position: usize_at(data, 4)?, digest };
    let (session, from) = (u32_at(data, 0)?, usize_at(data, 44)?);
    let mut rest = data.get(PART_HEAD..)?;
    let mut batches = Vec::new();
    while !rest.is_empty() {
        let size = (u32_at(rest, 0)? as usize).checked_mul(TX_BYTES)?;
        let txs = rest.get(4..size.checked_add(4)?)?;
        batches.push(tx::txs_of(txs).collect());
        rest = &rest[4 + size..];
    }
    Some(HistoryPart { session, end, from, batches })
}

/// As many of the batches as one part of a history takes, at least one.
pub fn fitting(batches: impl Iterator<Item = Vec<Tx>>) -> Vec<Vec<Tx>> {
    let mut size = 0;
    let fits = |it: &Vec<Tx>| {
        let is_first = size == 0;
        size += 4 + it.len() * TX_BYTES;
        is_first || size <= MAX_PART
    };
    batches.take_while(fits).collect()
}

#[cfg(test)]
mod tests {
    use super::*;

    fn read(data: &Bytes) -> Result<SessionFrame, BadFrame> {
        SessionFrame::decode(data[4], &data.slice(HEAD_BYTES..))
    }

    #[test]
    fn frames_go_both_ways() {
        let tx = Tx { client: 1, number: 2, payload: 3 };
        let end = End { position: 1 << 40, digest: [7; 32] };
        let part = |batches| HistoryPart { session: 3, end, from: 9, batches };
        for frame in [
            SessionFrame::In { session: 8, frame: Frame::Blocks(7) },
            SessionFrame::In { session: 0, frame: Frame::Message(Bytes::from_static(b"any")) },
            SessionFrame::Ask(AskHistory { session: 1, from: 5, wants_batches: true }),
            SessionFrame::Part(part(Vec::new())),
            SessionFrame::Part(part(vec![vec![tx; 2], vec![], vec![tx]])),
            SessionFrame::AskSession(u64::MAX - 1),
            SessionFrame::Session { drawn: 1 << 60, session: 9 },
            SessionFrame::Out(1 << 20),
            SessionFrame::Ended(1 << 20),
        ] {
            let data = frame.encode();
            assert_eq!(data.len(), 4 + u32_at(&data, 0).unwrap() as usize);
            assert_eq!(read(&data), Ok(frame));
        }
    }

    #[test]
    fn what_is_no_frame() {
        let tx = Tx { client: 1, number: 2, payload: 3 };
        let end = End { position: 1, digest: [7; 32] };
        let part = HistoryPart { session: 3, end, from: 9, batches: vec![vec![tx]] };
        let whole = SessionFrame::Part(part).encode();
        for cut in [1, 17, 19, 21] {
            let data = whole.slice(..whole.len() - cut);
            assert!(read(&data).is_err(), "{cut}");
        }
        let session = SessionFrame::Session { drawn: 7, session: 1 };
        let frames = [SessionFrame::Out(7), SessionFrame::Ended(7), SessionFrame::AskSession(7)];
        for frame in frames.into_iter().chain([session]) {
            let data = frame.encode();
            assert!(read(&data.slice(..data.len() - 1)).is_err());
            assert!(read(&[&data[..], &[0]].concat().into()).is_err());
        }
        assert!(read(&Frame::Blocks(7).encode()).is_err());
        assert!(read(&in_session(1, &Bytes::from_static(&[0, 0, 0, 1, 9]))).is_err());
    }

    #[test]
    fn a_part_is_bounded() {
        let batch = vec![Tx { client: 1, number: 2, payload: 3 }; 10_000];
        assert_eq!(fitting(std::iter::repeat_n(batch.clone(), 9)).len(), 1);
        assert_eq!(fitting(std::iter::repeat_n(batch[..1000].to_vec(), 99)).len(), 16);
    }
}
