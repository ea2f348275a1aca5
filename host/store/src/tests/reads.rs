//! What readers see, also while something is written.

use std::collections::HashSet;

use super::*;

#[test]
fn batches_from_any_position_in_bounded_parts() {
    let folder = Folder::new("parts");
    let mut store = folder.store();
    let made = sessions(3, 20);
    made.iter().for_each(|it| it.run(&mut store));
    let (reader, list) = (folder.reader(), all(&made));
    for from in 0..=list.len() + 2 {
        for count in [0, 1, 5, 1000] {
            let found = reader.batches(from, count, usize::MAX).unwrap();
            let expected = list.iter().enumerate().skip(from).take(count);
            let expected: Vec<_> =
                expected.map(|(position, txs)| Batch { position, txs: txs.clone() }).collect();
            assert_eq!(found, expected, "{count} from {from}");
        }
    }
    // 1, 2, 3, 1, 2 .. transactions of 16 bytes: at least one batch, and then as many as fit.
    let sizes = [0, 16, 47, 48, 96, 111, 112].map(|it| reader.batches(0, 99, it).unwrap().len());
    assert_eq!(sizes, [1, 1, 1, 2, 3, 3, 4]);
}

#[test]
fn ends_digests_and_positions() {
    let folder = Folder::new("ends");
    let mut store = folder.store();
    let made = sessions(3, 8);
    made.iter().for_each(|it| it.run(&mut store));
    let (reader, list) = (folder.reader(), all(&made));
    for it in &made {
        let end = it.first + it.batches.len();
        assert_eq!(reader.end_of(it.session), Ok(Some((end, it.digest))));
        assert_eq!(reader.digest_of(end), Ok(Some(it.digest)));
    }
    assert_eq!((reader.end_of(3), reader.end_of(u32::MAX)), (Ok(None), Ok(None)));
    let mut digest = [0; 32];
    for (position, batch) in list.iter().enumerate() {
        assert_eq!(reader.digest_of(position), Ok(Some(digest)));
        digest = chain(&digest, &bytes_of(batch));
        for tx in batch {
            assert_eq!(reader.position_of(tx), Ok(Some(position)));
            let other = Tx { payload: tx.payload + 1, ..*tx };
            assert_eq!(reader.position_of(&other), Ok(None));
        }
    }
    assert_eq!(reader.digest_of(list.len() + 1), Ok(None));
    assert_eq!(reader.last().unwrap().number, 3);
}

#[test]
fn what_is_final_of_some_transactions() {
    let folder = Folder::new("finals");
    let mut store = folder.store();
    let made = sessions(2, 8);
    let known = made[1].batches[2][0];
    let other = Tx { payload: known.payload + 1, ..known };
    let find = || folder.reader().finals([known, other].iter());
    assert_eq!(find(), Ok(HashSet::new()));
    made.iter().for_each(|it| it.run(&mut store));
    assert_eq!(find(), Ok(HashSet::from([known])));
    // Nothing is known of a list without its start.
    let base = rusqlite::Connection::open(folder.file()).unwrap();
    base.execute("DELETE FROM batches WHERE position = 0", []).unwrap();
    assert!(matches!(find(), Err(Error::Corrupt(_))));
}

/// A reader neither waits for a writer, nor sees half of what it writes.
#[test]
fn readers_see_before_or_after() {
    let folder = Folder::new("during");
    let mut store = folder.store();
    let made = sessions(2, 400);
    made[0].run(&mut store);
    store.mark_opened(1).unwrap();
    store.base().pragma_update(None, "cache_size", 5).unwrap();
    let (reader, mut seen) = (folder.reader(), Vec::new());
    let mut look = |_: &str| {
        seen.push((reader.last().unwrap().number, reader.batches(401, 1, 9).unwrap().len()));
    };
    store.end_in_steps(&made[1].ended(), &mut look).unwrap();
    let (before, after) = seen.split_at(seen.len() - 1);
    assert!(before.len() == 6 && before.iter().all(|it| *it == (1, 0)));
    assert_eq!(after, [(2, 1)]);
}
