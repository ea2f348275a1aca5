//! Seals by LMS and two-level HSS (RFC 8554), for faulty replicas: the library seals only what its
//! protocol allows, and a faulty replica signs anything with its key.

use sha2::{Digest, Sha256};
use themis::Height;

/// Levels of the upper tree of two.
const TOP_HEIGHT: u32 = 5;
const CHAINS: u16 = 67;
const STEPS: u8 = 15;
const D_PBLK: u16 = 0x8080;
const D_MESG: u16 = 0x8181;
const D_LEAF: u16 = 0x8282;
const D_INTR: u16 = 0x8383;
const OTS_TYPE: u32 = 3;
/// Before the lower signature's leaf: the level, the upper signature and the lower public key.
const UPPER: usize = 4 + 4 + 4 + 32 * (1 + CHAINS as usize) + 4 + 32 * TOP_HEIGHT as usize + 56;

/// Levels of the tree that seals, and whether there is another one above it.
fn shape_of(height: Height) -> (u32, bool) {
    match height {
        Height::H5 => (5, false),
        Height::H10 => (10, false),
        Height::H5H5 => (5, true),
        Height::H5H10 => (10, true),
    }
}

/// The number of LMS with SHA-256 for a tree.
fn lms_type(height: u32) -> u32 {
    if height == 5 {
        5
    } else {
        6
    }
}

fn hash(parts: &[&[u8]]) -> [u8; 32] {
    let mut it = Sha256::new();
    parts.iter().for_each(|part| it.update(part));
    it.finalize().into()
}

/// The nibbles of a digest and of its checksum.
fn digits(digest: &[u8; 32]) -> Vec<u8> {
    let mut out: Vec<u8> = digest.iter().flat_map(|byte| [byte >> 4, byte & 15]).collect();
    let total: u16 = out.iter().map(|it| u16::from(STEPS - it)).sum::<u16>() << 4;
    out.extend([total >> 12, total >> 8, total >> 4].map(|it| (it & 15) as u8));
    out
}

/// One LMS key.
struct Tree {
    name: [u8; 16],
    seed: [u8; 32],
    height: u32,
    levels: Vec<Vec<[u8; 32]>>,
}

impl Tree {
    fn new(name: [u8; 16], seed: [u8; 32], height: u32) -> Tree {
        let mut tree = Tree { name, seed, height, levels: Vec::new() };
        let mut level: Vec<_> = (0..1 << height).map(|leaf| tree.leaf(leaf)).collect();
        while level.len() > 1 {
            let first = level.len() as u32 / 2;
            let above = level.chunks(2).zip(first..).map(|(pair, number)| {
                let head = [&tree.name[..], &number.to_be_bytes(), &D_INTR.to_be_bytes()].concat();
                hash(&[&head, &pair[0], &pair[1]])
            });
            let above = above.collect();
            tree.levels.push(std::mem::replace(&mut level, above));
        }
        tree.levels.push(level);
        tree
    }

    fn public(&self) -> Vec<u8> {
        let root = self.levels.last().and_then(|it| it.first()).copied().unwrap_or_default();
        [&lms_type(self.height).to_be_bytes()[..], &OTS_TYPE.to_be_bytes(), &self.name, &root]
            .concat()
    }

    fn chain(
        &self,
        leaf: u32,
        chain: u16,
        steps: std::ops::Range<u8>,
        start: [u8; 32],
    ) -> [u8; 32] {
        let head = [&self.name[..], &leaf.to_be_bytes(), &chain.to_be_bytes()].concat();
        steps.fold(start, |value, step| hash(&[&head, &[step], &value]))
    }

    fn secret(&self, leaf: u32, chain: u16) -> [u8; 32] {
        let head = [&self.name[..], &leaf.to_be_bytes(), &chain.to_be_bytes()].concat();
        hash(&[&head, &[0xff], &self.seed])
    }

    fn leaf(&self, leaf: u32) -> [u8; 32] {
        let mut key = [&self.name[..], &leaf.to_be_bytes(), &D_PBLK.to_be_bytes()].concat();
        for chain in 0..CHAINS {
            key.extend(self.chain(leaf, chain, 0..STEPS, self.secret(leaf, chain)));
        }
        let number = (1 << self.height) + leaf;
        let head = [&self.name[..], &number.to_be_bytes(), &D_LEAF.to_be_bytes()].concat();
        hash(&[&head, &hash(&[&key])])
    }

    fn sign(&self, leaf: u32, data: &[u8]) -> Vec<u8> {
        let nonce = self.secret(leaf, 0xfffd);
        let head = [&self.name[..], &leaf.to_be_bytes(), &D_MESG.to_be_bytes()].concat();
        let digest = hash(&[&head, &nonce, data]);
        let mut out = [&leaf.to_be_bytes()[..], &OTS_TYPE.to_be_bytes(), &nonce].concat();
        for (chain, digit) in (0..).zip(digits(&digest)) {
            out.extend(self.chain(leaf, chain, 0..digit, self.secret(leaf, chain)));
        }
        out.extend(lms_type(self.height).to_be_bytes());
        for (level, nodes) in self.levels[..self.height as usize].iter().enumerate() {
            out.extend(nodes[(leaf as usize >> level) ^ 1]);
        }
        out
    }
}

/// Signs anything with a key.
pub struct Signer {
    low: Tree,
    /// Of a seal, before the part that the tree makes.
    head: Vec<u8>,
}

impl Signer {
    /// The signer of a secret.
    pub fn new(height: Height, secret: &[u8; 48]) -> Signer {
        let (levels, is_double) = shape_of(height);
        let (mut name, mut seed) = ([0; 16], [0; 32]);
        name.copy_from_slice(&secret[..16]);
        seed.copy_from_slice(&secret[16..]);
        if !is_double {
            return Signer { low: Tree::new(name, seed, levels), head: Vec::new() };
        }
        let top = Tree::new(name, seed, TOP_HEIGHT);
        let of_first = |word: &[u8]| hash(&[word, secret, &[0; 4]]);
        name.copy_from_slice(&of_first(b"themis-hss-id")[..16]);
        let low = Tree::new(name, of_first(b"themis-hss-seed"), levels);
        let public = low.public();
        let head = [&[0, 0, 0, 1][..], &top.sign(0, &public), &public].concat();
        Signer { low, head }
    }

    /// A statement with its seal, by the last leaf of the first tree that seals, again and again. The
    /// library comes to that leaf late.
    pub fn sealed(&self, statement: &[u8]) -> Vec<u8> {
        let leaf = (1 << self.low.height) - 1;
        let seal = [&self.head[..], &self.low.sign(leaf, statement)].concat();
        [statement, &(seal.len() as u16).to_be_bytes(), &seal].concat()
    }
}

/// The number of the leaf that a seal names, counted over all trees that seal.
pub fn leaf_of(seal: &[u8], height: Height) -> Option<u32> {
    let u32_at = |at: usize| Some(u32::from_be_bytes(seal.get(at..at + 4)?.try_into().ok()?));
    let (levels, is_double) = shape_of(height);
    if is_double {
        Some(u32_at(4)? << levels | u32_at(UPPER)?)
    } else {
        u32_at(0)
    }
}

#[cfg(test)]
mod tests {
    use super::*;
    use themis::public_key;

    const SECRET: [u8; 48] = [7; 48];

    #[test]
    fn the_key_is_that_of_the_library() {
        for height in [Height::H5, Height::H5H5] {
            let (levels, is_double) = shape_of(height);
            let it = Signer::new(height, &SECRET);
            let top = if is_double {
                Tree::new([7; 16], [7; 32], TOP_HEIGHT).public()
            } else {
                it.low.public()
            };
            assert_eq!(public_key(height, &SECRET).unwrap()[4..], top);
            assert_eq!(leaf_of(&it.sealed(b"any")[5..], height), Some((1 << levels) - 1));
        }
    }
}
