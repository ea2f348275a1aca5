//! Keys of replicas. To grow one costs a moment, so all seeds share a few.

use std::collections::BTreeMap;
use std::sync::{Mutex, PoisonError};

use sha2::{Digest, Sha256};
use themis::{public_key, Height};
use themis_engine::sessions::keys::PublicKey;
use themis_engine::sessions::secret::secret_of;

/// Two trees of five levels: the cheapest key with enough views.
pub const HEIGHT: Height = Height::H5H5;
/// Views that such a key has seals for.
pub const MAX_VIEWS: u32 = 204;

/// The secret of a replica for a session.
pub fn secret(replica: u32, session: u32) -> [u8; 48] {
    let part = |it: u8| -> [u8; 32] {
        Sha256::digest([b"themis-sim".as_slice(), &[replica as u8, it]].concat()).into()
    };
    if session > 0 {
        return secret_of(&part(2), session);
    }
    let mut out = [0; 48];
    out[..32].copy_from_slice(&part(0));
    out[32..].copy_from_slice(&part(1)[..16]);
    out
}

/// The public key of a replica for a session.
pub fn own_key(replica: u32, session: u32) -> PublicKey {
    static KEYS: Mutex<BTreeMap<(u32, u32), PublicKey>> = Mutex::new(BTreeMap::new());
    let grow = || public_key(HEIGHT, &secret(replica, session)).unwrap_or([0; 60]);
    let mut keys = KEYS.lock().unwrap_or_else(PoisonError::into_inner);
    *keys.entry((replica, session)).or_insert_with(grow)
}

/// The public keys of the first n replicas for the first session.
pub fn public_keys(n: u32) -> Vec<PublicKey> {
    (0..n).map(|it| own_key(it, 0)).collect()
}
