//! How the public keys of the next session are agreed: each replica announces its own by
//! transactions of its own reserved client, and what is final is the same at all.
//!
//! A key is announced in parts of eight bytes, one transaction each. What all keys have in common, a
//! head of twelve bytes that names the height, is not announced.

use crate::sessions::reserved::{announcer, announcing};
use crate::tx::Tx;

/// A public key.
pub type PublicKey = [u8; 60];
/// The public keys of the replicas; none of one that sits the session out.
pub type PublicKeys = Vec<Option<PublicKey>>;

/// Keys as the library takes them. A replica that sits the session out has none; no seal fits zeros.
pub fn for_library(keys: &PublicKeys) -> Vec<PublicKey> {
    keys.iter().map(|it| it.unwrap_or([0; 60])).collect()
}

const HEAD: usize = 12;
const PART: usize = 8;
/// Transactions that announce a key.
pub const PARTS: usize = (60 - HEAD) / PART;
/// Numbers of a session: the parts, and two that are not used.
const NUMBERS: u32 = 8;

/// The transactions by which a replica announces its public key of a session.
pub fn announcement(replica: u32, session: u32, key: &PublicKey) -> Vec<Tx> {
    let parts = (0..).zip(key[HEAD..].chunks_exact(PART));
    parts
        .map(|(part, bytes)| Tx {
            client: announcer(replica),
            number: session.wrapping_mul(NUMBERS) + part,
            payload: u64::from_be_bytes(bytes.try_into().unwrap_or_default()),
        })
        .collect()
}

/// Which part of whose key of a session a transaction announces.
pub fn announced(tx: &Tx, session: u32) -> Option<(u32, usize)> {
    let replica = announcing(tx.client)?;
    let part = tx.number.checked_sub(session.wrapping_mul(NUMBERS))? as usize;
    (part < PARTS).then_some((replica, part))
}

/// Whether a number is that of a part of a key, of this session or an earlier one.
pub fn is_past_part(tx: &Tx, session: u32) -> bool {
    tx.number / NUMBERS <= session && ((tx.number % NUMBERS) as usize) < PARTS
}

/// What the final batches of a session say of the keys of the next one.
#[derive(Clone, Debug)]
pub struct AgreedKeys {
    /// The session of the keys.
    session: u32,
    head: [u8; HEAD],
    /// By replica.
    parts: Vec<[Option<u64>; PARTS]>,
}

impl AgreedKeys {
    /// Nothing is agreed. `known` is any public key of the height.
    pub fn new(n: u32, session: u32, known: &PublicKey) -> AgreedKeys {
        let mut head = [0; HEAD];
        head.copy_from_slice(&known[..HEAD]);
        AgreedKeys { session, head, parts: vec![[None; PARTS]; n as usize] }
    }

    /// Takes the next final batch. The first value of a part counts, within a batch the smallest.
    pub fn take(&mut self, batch: &[Tx]) {
        let mut found: Vec<(usize, usize, u64)> = Vec::new();
        for tx in batch {
            if let Some((replica, part)) = announced(tx, self.session) {
                found.push((replica as usize, part, tx.payload));
            }
        }
        found.sort_unstable();
        for (replica, part, payload) in found {
            if let Some(parts) = self.parts.get_mut(replica) {
                parts[part].get_or_insert(payload);
            }
        }
    }

    /// The keys that are agreed.
    pub fn keys(&self) -> PublicKeys {
        let key = |parts: &[Option<u64>; PARTS]| {
            let mut key = [0; 60];
            key[..HEAD].copy_from_slice(&self.head);
            for (to, part) in key[HEAD..].chunks_exact_mut(PART).zip(parts) {
                to.copy_from_slice(&(*part)?.to_be_bytes());
            }
            Some(key)
        };
        self.parts.iter().map(key).collect()
    }

    /// Whether the key of a replica is agreed.
    pub fn has(&self, replica: u32) -> bool {
        self.parts.get(replica as usize).is_some_and(|it| it.iter().all(Option::is_some))
    }

    /// How many keys are agreed.
    pub fn count(&self) -> u32 {
        (0..self.parts.len() as u32).filter(|it| self.has(*it)).count() as u32
    }
}

#[cfg(test)]
mod tests {
    use super::*;

    fn key(byte: u8) -> PublicKey {
        let mut key = [byte; 60];
        key[..HEAD].fill(7);
        key
    }

    #[test]
    fn a_key_goes_both_ways() {
        let mut agreed = AgreedKeys::new(3, 5, &key(0));
        let mut txs = announcement(2, 5, &key(9));
        assert_eq!(txs.len(), PARTS);
        let last = txs.pop().unwrap();
        agreed.take(&txs);
        agreed.take(&announcement(1, 4, &key(3))); // of another session
        assert_eq!((agreed.count(), agreed.keys()), (0, vec![None; 3]));
        agreed.take(&[last]);
        assert_eq!((agreed.count(), agreed.keys()), (1, vec![None, None, Some(key(9))]));
    }

    #[test]
    fn of_two_keys_the_first_counts_and_in_a_batch_the_smaller() {
        let mut agreed = AgreedKeys::new(2, 1, &key(0));
        let both = [announcement(0, 1, &key(8)), announcement(0, 1, &key(4))].concat();
        agreed.take(&both);
        agreed.take(&announcement(0, 1, &key(2)));
        assert_eq!(agreed.keys()[0], Some(key(4)));
    }
}
