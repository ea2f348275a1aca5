//! The secret of each session, from one master secret of the replica: no two sessions share a leaf.

use sha2::{Digest, Sha256};

/// A replica's master secret. It outlives sessions, and is used for nothing else.
pub type Master = [u8; 32];
/// The secret of one session: 16 bytes name its key, 32 are its seed.
pub type Secret = [u8; 48];

const BLOCK: usize = 64;
const SALT: &[u8] = b"themis-session-secret";

/// HMAC with SHA-256 (RFC 2104), over parts.
fn hmac(key: &[u8], parts: &[&[u8]]) -> [u8; 32] {
    let mut block = [0; BLOCK];
    if key.len() > BLOCK {
        block[..32].copy_from_slice(&Sha256::digest(key));
    } else {
        block[..key.len()].copy_from_slice(key);
    }
    let start = |byte: u8| Sha256::new().chain_update(block.map(|it| it ^ byte));
    let mut inner = start(0x36);
    parts.iter().for_each(|it| inner.update(it));
    start(0x5c).chain_update(inner.finalize()).finalize().into()
}

/// HKDF with SHA-256 (RFC 5869): as many bytes as `out` takes, at most 8,160.
fn hkdf(salt: &[u8], key: &[u8], info: &[u8], out: &mut [u8]) {
    let key = hmac(salt, &[key]);
    let mut last: Vec<u8> = Vec::new();
    for (number, chunk) in (1u8..).zip(out.chunks_mut(32)) {
        last = hmac(&key, &[&last, info, &[number]]).to_vec();
        chunk.copy_from_slice(&last[..chunk.len()]);
    }
}

/// The secret of a session.
pub fn secret_of(master: &Master, session: u32) -> Secret {
    let mut out = [0; 48];
    hkdf(SALT, master, &session.to_be_bytes(), &mut out);
    out
}

#[cfg(test)]
mod tests {
    use super::*;

    fn bytes(hex: &str) -> Vec<u8> {
        let pairs = hex.as_bytes().chunks(2);
        pairs.map(|it| u8::from_str_radix(std::str::from_utf8(it).unwrap(), 16).unwrap()).collect()
    }

    #[test]
    fn the_first_test_case_of_rfc_5869() {
        let mut out = [0; 42];
        let (salt, info) = (bytes("000102030405060708090a0b0c"), bytes("f0f1f2f3f4f5f6f7f8f9"));
        hkdf(&salt, &[0x0b; 22], &info, &mut out);
        let expected =
            "3cb25f25faacd57a90434f64d0362f2a2d2d0a90cf1a5a4c5db02d56ecc4c5bf34007208d5b887185865";
        assert_eq!(out.to_vec(), bytes(expected));
    }

    #[test]
    fn each_session_has_its_own() {
        let of = |session| secret_of(&[7; 32], session);
        assert_eq!(of(3), of(3));
        assert_ne!(of(3), of(4));
        assert_ne!(of(3)[..16], of(4)[..16]);
        assert_ne!(of(3), secret_of(&[8; 32], 3));
    }
}
