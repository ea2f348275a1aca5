//! What a host reads of the messages that it carries (docs/FORMATS.md, "Messages").
//!
//! The core checks every message itself. Here are only the fields that guards and intake need.

use themis::Tx;

use crate::tx::{self, TX_BYTES};

const VERSION: u8 = 2;
const DIGEST: usize = 32;
/// The longest seal, with its size: one of two levels.
const MAX_SEAL: usize = 2 + 4916;
/// Transactions of the two lists of a local order.
const MAX_LISTED: usize = 128 + 256;

/// The kinds of messages.
#[derive(Clone, Copy, Debug, PartialEq, Eq)]
pub enum Kind {
    /// Calls for a view.
    NewView,
    /// A leader asks for local orders.
    Ask,
    /// A local order.
    Order,
    /// A block.
    Propose,
    /// A vote, mostly with a local order.
    Vote,
    /// Asks for a block.
    Fetch,
    /// A block that was asked for.
    Give,
}

/// The views of a block and of its parent.
#[derive(Clone, Copy, Debug, PartialEq, Eq)]
pub struct BlockViews {
    /// The block's view.
    pub view: u32,
    /// The view of the block that it extends.
    pub parent: u32,
}

/// The kind of a message; none of other bytes.
pub fn kind_of(data: &[u8]) -> Option<Kind> {
    match data {
        [VERSION, kind, ..] => Some(match kind {
            1 => Kind::NewView,
            2 => Kind::Ask,
            3 => Kind::Order,
            4 => Kind::Propose,
            5 => Kind::Vote,
            6 => Kind::Fetch,
            7 => Kind::Give,
            _ => return None,
        }),
        _ => None,
    }
}

fn u32_at(data: &[u8], at: usize) -> Option<u32> {
    Some(u32::from_be_bytes(data.get(at..at + 4)?.try_into().ok()?))
}

/// Who sealed a message, and the view that it names; none for a Fetch and a Give, which nobody seals.
pub fn sender_and_view(data: &[u8]) -> Option<(u32, u32)> {
    match kind_of(data)? {
        Kind::Fetch | Kind::Give => None,
        Kind::NewView | Kind::Ask | Kind::Order | Kind::Propose | Kind::Vote => {
            Some((u32::from(*data.get(2)?), u32_at(data, 3)?))
        }
    }
}

/// The greatest size of a message of n replicas.
pub const fn max_size(kind: Kind, n: u32) -> usize {
    let n = n as usize;
    let head = 1 + 1 + 1 + 4;
    let certificate = 4 + DIGEST + 1 + n * (1 + MAX_SEAL);
    let order = 1 + 1 + 4 + DIGEST + 2 + 2 + MAX_LISTED * TX_BYTES + MAX_SEAL;
    match kind {
        Kind::NewView | Kind::Ask => head + certificate + MAX_SEAL,
        Kind::Order => 1 + order,
        Kind::Propose | Kind::Give => head + certificate + 1 + n * order + MAX_SEAL,
        Kind::Vote => head + DIGEST + MAX_SEAL + 1 + order,
        Kind::Fetch => 1 + 1 + DIGEST,
    }
}

/// How many seals a message of that size has at most, and at least one.
pub const fn seals_in(size: usize) -> usize {
    // A seal of one level has half of that.
    1 + 2 * size / MAX_SEAL
}

/// The view that an Ask names.
pub fn asked_view(data: &[u8]) -> Option<u32> {
    if kind_of(data)? == Kind::Ask {
        u32_at(data, 3)
    } else {
        None
    }
}

/// The view of the block that a vote or a proposal needs: the one voted for, or the parent.
pub fn needed_view(data: &[u8]) -> Option<u32> {
    match kind_of(data)? {
        Kind::Vote => u32_at(data, 3),
        Kind::Propose => block_views(data).map(|it| it.parent),
        _ => None,
    }
}

/// The view of the block in a Give.
pub fn given_view(data: &[u8]) -> Option<u32> {
    if kind_of(data)? == Kind::Give {
        u32_at(data, 2)
    } else {
        None
    }
}

/// The block of a Give.
pub fn given_block(data: &[u8]) -> &[u8] {
    data.get(2..).unwrap_or_default()
}

/// The digest of the block that a Fetch asks for.
pub fn fetched_digest(data: &[u8]) -> Option<[u8; DIGEST]> {
    if kind_of(data)? == Kind::Fetch {
        data.get(2..2 + DIGEST)?.try_into().ok()
    } else {
        None
    }
}

/// Where the block starts in a Propose or a Give.
fn block_at(data: &[u8]) -> Option<usize> {
    match kind_of(data)? {
        Kind::Propose => Some(3),
        Kind::Give => Some(2),
        _ => None,
    }
}

/// The views of the block in a Propose or a Give.
pub fn block_views(data: &[u8]) -> Option<BlockViews> {
    let at = block_at(data)?;
    Some(BlockViews { view: u32_at(data, at)?, parent: u32_at(data, at + 4)? })
}

/// The block of a Propose.
pub fn proposed_block(data: &[u8]) -> Option<&[u8]> {
    if kind_of(data)? != Kind::Propose {
        return None;
    }
    let from_block = data.get(3..)?;
    let mut reader = Reader(from_block);
    reader.fresh_lists()?;
    from_block.get(..from_block.len() - reader.0.len())
}

/// The fresh list of one replica in a block: what it received and no block before proposes.
#[derive(Clone, Debug, PartialEq, Eq)]
pub struct Fresh {
    /// The replica.
    pub replica: u32,
    /// Its list.
    pub txs: Vec<Tx>,
}

/// The fresh lists of the block in a Propose or a Give; none of other bytes.
pub fn fresh_lists(data: &[u8]) -> Vec<Fresh> {
    block_at(data).and_then(|at| Reader(data.get(at..)?).fresh_lists()).unwrap_or_default()
}

/// Fields from left to right; none where the bytes end.
struct Reader<'a>(&'a [u8]);

impl<'a> Reader<'a> {
    fn take(&mut self, size: usize) -> Option<&'a [u8]> {
        if size > self.0.len() {
            return None;
        }
        let (taken, rest) = self.0.split_at(size);
        self.0 = rest;
        Some(taken)
    }

    fn u8(&mut self) -> Option<u8> {
        Some(self.take(1)?[0])
    }

    /// A count of two bytes, and that many items of a size.
    fn sized(&mut self, item: usize) -> Option<&'a [u8]> {
        let count = u16::from_be_bytes(self.take(2)?.try_into().ok()?);
        self.take(usize::from(count) * item)
    }

    /// Passes over a certificate.
    fn certificate(&mut self) -> Option<()> {
        self.take(4 + DIGEST)?;
        for _ in 0..self.u8()? {
            self.take(1)?;
            self.sized(1)?;
        }
        Some(())
    }

    /// Passes over a block; its fresh lists.
    fn fresh_lists(&mut self) -> Option<Vec<Fresh>> {
        self.take(4)?;
        self.certificate()?;
        let count = self.u8()?;
        let lists = (0..count).map(|_| {
            let fresh = self.order_fresh()?;
            self.sized(1)?;
            Some(fresh)
        });
        lists.collect()
    }

    /// Passes over a local order up to its seal; its fresh list.
    fn order_fresh(&mut self) -> Option<Fresh> {
        self.take(1)?;
        let replica = u32::from(self.u8()?);
        self.take(4 + DIGEST)?;
        let txs = tx::txs_of(self.sized(TX_BYTES)?).collect();
        self.sized(TX_BYTES)?;
        Some(Fresh { replica, txs })
    }
}

#[cfg(test)]
mod tests {
    use super::*;

    const TX: Tx = Tx { client: 1, number: 2, payload: 3 };

    fn order(view: u8) -> Vec<u8> {
        let mut out = vec![3, 4, 0, 0, 0, view];
        out.extend([0; DIGEST]);
        out.extend([0, 1]);
        tx::put(&TX, &mut out);
        out.extend([0, 0, 0, 0]); // no late list, and a seal of no bytes
        out
    }

    #[test]
    fn fields() {
        assert_eq!(asked_view(&[2, 2, 0, 0, 0, 0, 9]), Some(9));
        assert_eq!(asked_view(&[2, 2, 0, 0, 0, 0]), None);
        assert_eq!(asked_view(&[2, 3, 0, 0, 0, 0, 9]), None);
        assert_eq!(kind_of(&[1, 2]), None);
        assert_eq!(needed_view(&[2, 5, 1, 0, 0, 0, 6]), Some(6));
        assert_eq!(sender_and_view(&[2, 5, 1, 0, 0, 0, 6]), Some((1, 6)));
        assert_eq!(sender_and_view(&[2, 7, 0, 0, 0, 6, 0]), None);
    }

    /// What two levels of trees, full lists and all replicas come to.
    #[test]
    fn sizes() {
        assert_eq!(max_size(Kind::Fetch, 5), 34);
        assert_eq!(max_size(Kind::Vote, 5), 7 + 32 + 4918 + 1 + 11_104);
        assert_eq!(max_size(Kind::Propose, 16), 7 + 37 + 16 * 4919 + 1 + 16 * 11_104 + 4918);
        assert_eq!((seals_in(100), seals_in(2 * 4918)), (1, 5));
    }

    #[test]
    fn lists_of_a_block() {
        let mut propose = vec![2, 4, 1, 0, 0, 0, 6, 0, 0, 0, 5];
        assert_eq!(block_views(&propose), Some(BlockViews { view: 6, parent: 5 }));
        assert_eq!(needed_view(&propose), Some(5));
        propose.extend([0; DIGEST]);
        propose.extend([1, 0, 0, 2, 7, 7]); // a vote with a seal of two bytes
        propose.push(1);
        propose.extend(order(6));
        assert_eq!(fresh_lists(&propose), [Fresh { replica: 4, txs: vec![TX] }]);
        let sealed = [&propose[..], &[0, 2, 9, 9]].concat();
        assert_eq!(proposed_block(&sealed), Some(&propose[3..]));
        propose.pop();
        assert!(fresh_lists(&propose).is_empty());
    }
}
