//! Values as the columns of the store have them, and the digests that tell whether they are as they
//! were written.

use sha2::{Digest, Sha256};
use themis_engine::tx::{self, Tx, TX_BYTES};
use themis_engine::window::{Bits, Window};

/// A public key of a replica; none of one that sits the session out.
pub type PublicKeys = Vec<Option<[u8; 60]>>;
/// A SHA-256.
pub type Sha = [u8; 32];

const KEY: usize = 60;

/// The digest of a list that is one batch longer.
pub fn chain(digest: &Sha, batch: &[u8]) -> Sha {
    Sha256::new().chain_update(digest).chain_update(batch).finalize().into()
}

/// The digest of the fields of a row.
pub fn check_of(fields: &[&[u8]]) -> Sha {
    let mut sha = Sha256::new();
    for it in fields {
        sha.update((it.len() as u64).to_be_bytes());
        sha.update(it);
    }
    sha.finalize().into()
}

/// The bytes of transactions.
pub fn bytes_of(txs: &[Tx]) -> Vec<u8> {
    let mut data = Vec::with_capacity(txs.len() * TX_BYTES);
    txs.iter().for_each(|it| tx::put(it, &mut data));
    data
}

/// The transactions of bytes.
pub fn txs_of(data: &[u8]) -> Option<Vec<Tx>> {
    (data.len() % TX_BYTES == 0).then(|| tx::txs_of(data).collect())
}

/// The bytes of keys: for each replica whether it has one, and the key.
pub fn bytes_of_keys(keys: &PublicKeys) -> Vec<u8> {
    let mut data = Vec::with_capacity(keys.len() * (1 + KEY));
    for it in keys {
        data.push(u8::from(it.is_some()));
        data.extend(it.unwrap_or([0; KEY]));
    }
    data
}

/// The keys of bytes.
pub fn keys_of(data: &[u8]) -> Option<PublicKeys> {
    let key = |it: &[u8]| match it[0] {
        0 => Some(None),
        1 => Some(Some(it[1..].try_into().ok()?)),
        _ => None,
    };
    let is_whole = data.len() % (1 + KEY) == 0;
    is_whole.then_some(())?;
    data.chunks_exact(1 + KEY).map(key).collect()
}

/// The bytes of the numbers above a window's first; none where there are none.
pub fn bytes_of_window(window: &Window) -> Option<Vec<u8>> {
    Some(window.ahead()?.iter().flat_map(|it| it.to_be_bytes()).collect())
}

/// The window of its columns.
pub fn window_of(base: i64, ahead: Option<&[u8]>) -> Option<Window> {
    let bits = |data: &[u8]| {
        let mut bits = Bits::default();
        let is_whole = data.len() == size_of::<Bits>();
        is_whole.then_some(())?;
        for (to, from) in bits.iter_mut().zip(data.chunks_exact(8)) {
            *to = u64::from_be_bytes(from.try_into().ok()?);
        }
        Some(bits)
    };
    let ahead = match ahead {
        None => None,
        Some(data) => Some(bits(data)?),
    };
    Window::from_parts(u64::try_from(base).ok()?, ahead)
}

/// A position as a column. No list is longer.
pub fn column(position: usize) -> i64 {
    i64::try_from(position).unwrap_or(i64::MAX)
}

/// SQLite's integers have a sign; the bits are the same.
pub fn signed(payload: u64) -> i64 {
    i64::from_be_bytes(payload.to_be_bytes())
}

#[cfg(test)]
mod tests {
    use super::*;

    #[test]
    fn columns_and_back() {
        let keys = vec![Some([7; 60]), None, Some([0; 60])];
        assert_eq!(keys_of(&bytes_of_keys(&keys)), Some(keys.clone()));
        assert_eq!(keys_of(&bytes_of_keys(&keys)[1..]), None);
        assert_eq!(keys_of(&[2; 61]), None);
        let txs = [1, 2].map(|number| Tx { client: 1, number, payload: u64::MAX });
        assert_eq!(txs_of(&bytes_of(&txs)).as_deref(), Some(&txs[..]));
        assert_eq!(txs_of(&[0; 17]), None);
        let mut window = Window::default();
        for number in [1, 2, 5, 900] {
            window.settle(number);
            let ahead = bytes_of_window(&window);
            let found = window_of(i64::try_from(window.base()).unwrap(), ahead.as_deref());
            assert_eq!(found, Some(window.clone()));
        }
        assert_eq!(window_of(1, Some(&[0; 127])), None);
        assert_eq!(window_of(-1, None), None);
    }

    #[test]
    fn a_check_is_of_fields_and_not_of_their_bytes_alone() {
        assert_ne!(check_of(&[b"ab", b"c"]), check_of(&[b"a", b"bc"]));
        assert_ne!(check_of(&[b"a"]), check_of(&[b"a", b""]));
    }
}
