//! The committed blocks of a replica, read from its journal.

use std::collections::HashMap;

use sha2::{Digest, Sha256};
use themis::Reason;
use themis_engine::core::Event;
use themis_engine::tx::Tx;
use themis_engine::wire::{self, Kind};

use crate::tapped::Journal;
use themis_deeds::parts::block_end;

const DIGEST: usize = 32;

/// A block that a replica accepted.
struct Block<'a> {
    view: u32,
    parent: &'a [u8],
    counts: HashMap<Tx, u32>,
}

/// The view and the digest of a certificate.
fn certified(data: &[u8], at: usize) -> Option<(u32, &[u8])> {
    let view = u32::from_be_bytes(data.get(at..at + 4)?.try_into().ok()?);
    Some((view, data.get(at + 4..at + 4 + DIGEST)?))
}

/// The committed chain without its first block, the newest first: the view of each block, and in how
/// many of its lists each transaction is.
pub fn committed(journal: &Journal, commit: u32) -> Vec<(u32, HashMap<Tx, u32>)> {
    let mut blocks: HashMap<[u8; DIGEST], Block<'_>> = HashMap::new();
    let mut by_view: HashMap<u32, &[u8]> = HashMap::new();
    let accepted = journal.entries.iter().filter(|it| it.reason == Reason::Done);
    for entry in accepted {
        let Event::Delivered(it) = &entry.event else { continue };
        let (data, kind) = (&it.data[..], wire::kind_of(&it.data));
        let start = match kind {
            Some(Kind::Propose) => 3,
            Some(Kind::Give) => 2,
            Some(Kind::Ask | Kind::NewView) => {
                by_view.extend(certified(data, 7));
                continue;
            }
            _ => continue,
        };
        let (Some(views), Some(end)) = (wire::block_views(data), block_end(data, start)) else {
            continue;
        };
        let Some((view, parent)) = certified(data, start + 4) else { continue };
        by_view.insert(view, parent);
        let mut counts = HashMap::new();
        for tx in wire::fresh_lists(data).into_iter().flat_map(|it| it.txs) {
            *counts.entry(tx).or_insert(0) += 1;
        }
        let digest = Sha256::digest(&data[start..end]).into();
        blocks.insert(digest, Block { view: views.view, parent, counts });
    }
    let mut out = Vec::new();
    let mut at = by_view.get(&commit).copied().unwrap_or_default();
    while let Some(block) = <[u8; DIGEST]>::try_from(at).ok().and_then(|it| blocks.remove(&it)) {
        at = block.parent;
        out.push((block.view, block.counts));
    }
    out
}
