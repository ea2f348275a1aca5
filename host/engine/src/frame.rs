//! Frames between replicas: length (4), kind (1), payload. The length counts kind and payload.

use std::fmt;

use bytes::Bytes;
pub use themis::Receipt;

use crate::tx::{self, TX_BYTES};

/// The greatest length of a frame.
pub const MAX_FRAME: usize = 1 << 19;
/// Receipts of one frame.
pub const MAX_RECEIPTS: usize = 1024;
/// Bytes before the payload.
pub const HEAD_BYTES: usize = 5;

const HELLO: u8 = 0;
const MESSAGE: u8 = 1;
const STATUS: u8 = 2;
const BLOCKS: u8 = 3;
const RECEIPTS: u8 = 4;

const CLOCK_BYTES: usize = 8;
const RECEIPT_BYTES: usize = TX_BYTES + 8;

/// What a replica sends to a peer.
#[derive(Clone, Debug, PartialEq, Eq)]
pub enum Frame {
    /// The first frame of a connection: the digest of the session (32), and who calls (1).
    Hello {
        /// Names the session.
        session: [u8; 32],
        /// The sender.
        replica: u32,
    },
    /// A message of the protocol, for the core.
    Message(Bytes),
    /// Where the sender stands (16).
    Status(Standing),
    /// Asks for the blocks above a view (4).
    Blocks(u32),
    /// What the sender received, in this order.
    Receipts {
        /// How far its clock has come (8).
        clock: u64,
        /// Transactions (16 each) with their stamps (8 each).
        receipts: Vec<Receipt>,
    },
}

/// Where a replica says that it stands.
#[derive(Clone, Copy, Debug, Default, PartialEq, Eq)]
pub struct Standing {
    /// Its view.
    pub view: u32,
    /// The view of its committed block.
    pub commit: u32,
    /// Transactions that arrived there and are not final.
    pub waiting: u32,
    /// Final batches.
    pub batches: u32,
}

impl Standing {
    fn to_bytes(self) -> Vec<u8> {
        [self.view, self.commit, self.waiting, self.batches].map(u32::to_be_bytes).concat()
    }

    fn from_bytes(data: &[u8]) -> Option<Standing> {
        let data: &[u8; 16] = data.try_into().ok()?;
        let field = |at: usize| u32_of(&data[at..at + 4]).unwrap_or_default();
        Some(Standing { view: field(0), commit: field(4), waiting: field(8), batches: field(12) })
    }
}

fn u32_of(data: &[u8]) -> Option<u32> {
    Some(u32::from_be_bytes(data.try_into().ok()?))
}

/// Bytes that are no frame.
#[derive(Clone, Debug, PartialEq, Eq)]
pub struct BadFrame {
    kind: u8,
    size: usize,
}

impl BadFrame {
    /// That many bytes of a kind that are no frame.
    pub fn new(kind: u8, size: usize) -> BadFrame {
        BadFrame { kind, size }
    }
}

impl fmt::Display for BadFrame {
    fn fmt(&self, to: &mut fmt::Formatter<'_>) -> fmt::Result {
        write!(to, "a frame of kind {} with {} bytes", self.kind, self.size)
    }
}

impl std::error::Error for BadFrame {}

impl Frame {
    /// The frame of a kind with a payload.
    pub fn decode(kind: u8, payload: Bytes) -> Result<Frame, BadFrame> {
        let size = payload.len();
        let found = match kind {
            HELLO => payload.split_last().and_then(|(replica, session)| {
                Some(Frame::Hello {
                    session: session.try_into().ok()?,
                    replica: u32::from(*replica),
                })
            }),
            MESSAGE => Some(Frame::Message(payload)),
            STATUS => Standing::from_bytes(&payload).map(Frame::Status),
            BLOCKS => u32_of(&payload).map(Frame::Blocks),
            RECEIPTS => read_receipts(&payload),
            _ => None,
        };
        found.ok_or(BadFrame { kind, size })
    }

    /// The bytes of the frame, with its length.
    pub fn encode(&self) -> Bytes {
        match self {
            Frame::Hello { session, replica } => {
                encoded(HELLO, &[&session[..], &[*replica as u8]].concat())
            }
            Frame::Message(data) => encoded(MESSAGE, data),
            Frame::Status(standing) => encoded(STATUS, &standing.to_bytes()),
            Frame::Blocks(above) => encoded(BLOCKS, &above.to_be_bytes()),
            Frame::Receipts { clock, receipts } => {
                let mut data = Vec::with_capacity(CLOCK_BYTES + receipts.len() * RECEIPT_BYTES);
                data.extend(clock.to_be_bytes());
                for it in receipts {
                    tx::put(&it.tx, &mut data);
                    data.extend(it.stamp.to_be_bytes());
                }
                encoded(RECEIPTS, &data)
            }
        }
    }

    /// The bytes of a frame with a message.
    pub fn encode_message(data: &[u8]) -> Bytes {
        encoded(MESSAGE, data)
    }
}

/// The clock, and at most that many receipts.
fn read_receipts(data: &[u8]) -> Option<Frame> {
    let (clock, data) = data.split_first_chunk::<CLOCK_BYTES>()?;
    if data.len() % RECEIPT_BYTES != 0 || data.len() > MAX_RECEIPTS * RECEIPT_BYTES {
        return None;
    }
    let receipts = data.chunks_exact(RECEIPT_BYTES).map(|it| {
        let (tx, stamp) = it.split_at(TX_BYTES);
        let stamp = u64::from_be_bytes(stamp.try_into().ok()?);
        Some(Receipt { tx: tx::txs_of(tx).next()?, stamp })
    });
    let receipts = receipts.collect::<Option<Vec<Receipt>>>()?;
    Some(Frame::Receipts { clock: u64::from_be_bytes(*clock), receipts })
}

fn encoded(kind: u8, payload: &[u8]) -> Bytes {
    let mut out = Vec::with_capacity(HEAD_BYTES + payload.len());
    // No payload of this host comes near 4 GB.
    out.extend_from_slice(&(payload.len() as u32 + 1).to_be_bytes());
    out.push(kind);
    out.extend_from_slice(payload);
    Bytes::from(out)
}

#[cfg(test)]
mod tests {
    use super::*;
    use themis::Tx;

    #[test]
    fn frames_go_both_ways() {
        let standing = Standing { view: 7, commit: 4, waiting: 1, batches: 9 };
        let tx = Tx { client: 1, number: 2, payload: 3 };
        for frame in [
            Frame::Hello { session: [7; 32], replica: 3 },
            Frame::Message(Bytes::from_static(b"any")),
            Frame::Status(standing),
            Frame::Blocks(12),
            Frame::Receipts { clock: 9, receipts: vec![] },
            Frame::Receipts { clock: 9, receipts: vec![Receipt { tx, stamp: 4 }; 2] },
        ] {
            let data = frame.encode();
            assert_eq!(data.len(), 4 + u32_of(&data[..4]).unwrap() as usize);
            assert_eq!(Frame::decode(data[4], data.slice(HEAD_BYTES..)), Ok(frame));
        }
    }

    #[test]
    fn what_is_no_frame() {
        let long = 8 + 24 * (MAX_RECEIPTS + 1);
        for (kind, size) in
            [(STATUS, 15), (BLOCKS, 5), (RECEIPTS, 24), (RECEIPTS, long), (HELLO, 32), (9, 1)]
        {
            let found = Frame::decode(kind, Bytes::from(vec![0; size]));
            assert_eq!(found, Err(BadFrame { kind, size }));
        }
    }
}
