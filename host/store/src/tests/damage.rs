//! Files that were torn or changed: what is read is right, or the cause is named.

use super::*;

/// The bytes of a store with three sessions, what it tells, and its list.
fn written(folder: &Folder) -> (Vec<u8>, Contents, Vec<Vec<Tx>>) {
    let mut store = folder.store();
    let made = sessions(3, 60);
    made.iter().for_each(|it| it.run(&mut store));
    drop(store);
    let found = contents(&folder.file()).unwrap();
    assert!(!folder.0.join("0.store-wal").exists());
    (std::fs::read(folder.file()).unwrap(), found, all(&made))
}

/// Puts these bytes in the place of the store. Whether that is noticed: at a start and where the list
/// is read, or where transactions are looked for.
fn is_noticed(folder: &Folder, data: &[u8], whole: &Contents, list: &[Vec<Tx>]) -> [bool; 2] {
    std::fs::write(folder.file(), data).unwrap();
    let at_start = match contents(&folder.file()) {
        Ok(found) => {
            assert!(found == *whole, "something else is read");
            false
        }
        Err(
            Error::Corrupt(_)
            | Error::NotAStore
            | Error::Newer(_)
            | Error::OtherCluster
            | Error::OtherReplica(_),
        ) => true,
        Err(fault) => panic!("{fault:?}"),
    };
    let Ok(reader) = Reader::open(&folder.file(), &owner()) else { return [at_start, true] };
    let mut when_asked = false;
    for (position, batch) in list.iter().enumerate().step_by(5) {
        match reader.position_of(&batch[0]) {
            Ok(Some(found)) => assert_eq!(found, position),
            // Nothing tells that a row is missing in the table that finds transactions.
            Ok(None) | Err(_) => when_asked = true,
        }
    }
    [at_start, when_asked]
}

#[test]
fn a_torn_file() {
    let folder = Folder::new("torn");
    let (data, whole, list) = written(&folder);
    assert_eq!(is_noticed(&folder, &data, &whole, &list), [false; 2]);
    let pages = (0..data.len()).step_by(4096);
    for size in pages.chain([1, 99, 100, 5000, data.len() - 4096]) {
        let [at_start, _] = is_noticed(&folder, &data[..size], &whole, &list);
        assert!(at_start, "{size} of {} bytes", data.len());
    }
    is_noticed(&folder, &data[..data.len() - 1], &whole, &list); // one zero is written there
}

#[test]
fn a_page_of_zeros() {
    let folder = Folder::new("zeros");
    let (data, whole, list) = written(&folder);
    for at in (0..data.len()).step_by(4096) {
        let mut torn = data.clone();
        torn[at..at + 4096].fill(0);
        let noticed = is_noticed(&folder, &torn, &whole, &list);
        assert!(noticed.contains(&true), "page at {at}");
    }
}

#[test]
fn a_changed_byte() {
    let folder = Folder::new("byte");
    let (data, whole, list) = written(&folder);
    let mut refused = 0;
    for at in (0..data.len()).step_by(89) {
        let mut torn = data.clone();
        torn[at] ^= 1 << (at % 8);
        let [at_start, _] = is_noticed(&folder, &torn, &whole, &list);
        refused += usize::from(at_start);
    }
    assert!(refused > 100, "{refused}");
}
