//! Which records of a log are whole, by the checks that docs/FORMATS.md has ("Records").
//!
//! The library makes the same checks when it opens a log, and all turns with them. An account needs
//! each turn apart, so its core starts anew, and opening one over the log would play it twice.

use sha2::{Digest, Sha256};

const LENGTH: usize = 4;
const CHECK: usize = 8;

/// How many bytes of a log its header and its whole records are. What follows them is torn. An error
/// is the place of a corrupt record.
pub fn whole_part(log: &[u8], header: usize) -> Result<usize, usize> {
    let Some(head) = log.get(..header) else { return Ok(0) };
    let (mut digest, mut at): ([u8; 32], usize) = (Sha256::digest(head).into(), header);
    while let Some(length) = log.get(at..at + LENGTH + CHECK) {
        let (length, check) = length.split_at(LENGTH);
        if !Sha256::new().chain_update(digest).chain_update(length).finalize().starts_with(check) {
            return Err(at);
        }
        let start = at + LENGTH + CHECK;
        let end = start + length.iter().fold(0, |sum, it| sum << 8 | usize::from(*it));
        let Some(check) = log.get(end..end + CHECK) else { break };
        digest =
            Sha256::new().chain_update(digest).chain_update(&log[start..end]).finalize().into();
        if !digest.starts_with(check) {
            return Err(at);
        }
        at = end + CHECK;
    }
    Ok(at)
}

#[cfg(test)]
mod tests {
    use themis::{Error, Height, Replica, Role};

    use super::*;

    const SECRET: [u8; 48] = [7; 48];
    const HEADER: usize = 76;

    /// What the library says of a log.
    fn opened(log: &[u8]) -> (Replica, Result<usize, usize>) {
        let role = Role { n: 1, f: 0, p: 1, q: 1, views: 6, me: 0, height: Height::H5 };
        let key = themis::public_key(Height::H5, &SECRET).unwrap();
        let fresh = || Replica::open(&role, &SECRET, &[key], &[]).unwrap().0;
        match Replica::open(&role, &SECRET, &[key], log) {
            Ok((replica, used)) => (replica, Ok(used)),
            Err(Error::CorruptLog { at }) => (fresh(), Err(at)),
            Err(fault) => panic!("{fault}"),
        }
    }

    #[test]
    fn torn_and_corrupt_records_as_the_library_has_them() {
        let (mut replica, _) = opened(&[]);
        let mut log = replica.header().unwrap().to_vec();
        let mut starts = Vec::new();
        for floor in 0..2 {
            starts.push(log.len());
            log.extend(replica.prepare_tick(floor).unwrap());
            replica.act().unwrap();
        }
        let (second, end) = (starts[1], log.len());
        assert_eq!(whole_part(&log, HEADER), Ok(end));
        for size in [0, 40, HEADER, HEADER + 5, second, second + 4, second + 13, end - 1, end] {
            let cut = &log[..size];
            assert_eq!(whole_part(cut, HEADER), opened(cut).1, "{size} bytes");
        }
        for at in [HEADER, HEADER + 4, second - 1, second + 3, second + 11, second + 12, end - 1] {
            let mut other = log.clone();
            other[at] ^= 1;
            let found = whole_part(&other, HEADER);
            assert!(found.is_err());
            assert_eq!(found, opened(&other).1, "byte {at}");
        }
    }
}
