//! Stores that continue the list of another one.

use super::*;

/// Two sessions of a cluster before, in a store of its own.
struct Old {
    folder: Folder,
    made: Vec<Made>,
    reader: Reader,
}

impl Old {
    fn new(name: &str) -> Old {
        let folder = Folder::new(name);
        let (mut store, made) = (folder.store(), sessions(2, 5));
        made.iter().for_each(|it| it.run(&mut store));
        let reader = folder.reader();
        Old { folder, made, reader }
    }

    /// What a new store continues, from its end on.
    fn before<'a>(&'a self, carried: &'a [Tx]) -> Before<'a> {
        let end = self.reader.last().unwrap();
        Before { list: &self.reader, position: end.first, digest: end.digest, carried }
    }
}

/// A replica of the new cluster, whose first session is 2.
fn create(folder: &Folder, before: &Before) -> Result<(), Error> {
    Store::create(&folder.file(), &member(), 2, "other", &keys(7), Some(before))
}

fn member() -> Identity {
    Identity { cluster: [9; 32], replica: 1 }
}

#[test]
fn positions_digests_and_windows_go_on() {
    let (old, folder) = (Old::new("old"), Folder::new("new"));
    let carried = old.reader.carried().unwrap();
    assert_eq!(carried, old.made[1].carried);
    create(&folder, &old.before(&carried)).unwrap();
    let mut store = Store::open(&folder.file(), &member()).unwrap();
    let history = store.history().unwrap();
    let session = &history.session;
    assert_eq!((session.number, session.state, session.first), (2, State::Next, 12));
    assert_eq!((session.digest, &session.keys), (old.made[1].digest, &keys(7)));
    assert_eq!((session.setting.as_str(), &history.carried), ("other", &carried));
    assert_eq!((history.helped, history.origin), (None, Origin::First));
    assert_eq!(history.windows, settled(&all(&old.made)));

    // Its own sessions follow, and nothing that was final in the cluster before is final again.
    store.mark_opened(2).unwrap();
    let next = Made::after(&old.made, vec![vec![tx(5, 1)], vec![tx(0, 2)]]);
    let again = Made::after(&old.made, vec![old.made[0].batches[0].clone()]);
    assert_eq!(store.end(&again.ended()), Err(Error::Twice(old.made[0].batches[0][0])));
    store.end(&next.ended()).unwrap();
    let reader = Reader::open(&folder.file(), &member()).unwrap();
    let list = reader.batches(0, 100, 1 << 20).unwrap();
    let expected = [all(&old.made), next.batches.clone()].concat();
    assert_eq!(list.into_iter().map(|it| it.txs).collect::<Vec<_>>(), expected);
    assert_eq!(reader.position_of(&old.made[1].batches[2][0]), Ok(Some(8)));
    assert_eq!(reader.end_of(1), Ok(Some((12, old.made[1].digest))));
    assert_eq!(reader.end_of(0), Ok(None)); // sessions before its first are not its own
}

/// Also after its sessions have ended, the new store has the list that it continued.
#[test]
fn a_store_of_the_new_cluster_has_the_list_too() {
    let (old, folder, third) = (Old::new("first"), Folder::new("second"), Folder::new("third"));
    create(&folder, &old.before(&[])).unwrap();
    let mut store = Store::open(&folder.file(), &member()).unwrap();
    Made::after(&old.made, vec![vec![tx(5, 1), tx(0, 2)]]).run(&mut store);
    let (list, owner) = Reader::open_any(&folder.file()).unwrap();
    assert_eq!(owner, member());
    let before = Before { list: &list, ..old.before(&[]) };
    let file = third.file();
    Store::create_again(&file, &member(), 2, "other", &keys(7), Some(&before)).unwrap();
    let history = Store::open(&file, &member()).unwrap().history().unwrap();
    assert_eq!((history.session.first, history.origin), (12, Origin::Again { sits_out: None }));
    assert_eq!(history.windows, settled(&all(&old.made)));
}

#[test]
fn a_store_with_another_list_or_a_damaged_one_is_refused() {
    let (old, folder) = (Old::new("refused"), Folder::new("none"));
    let refused = |before: &Before, cause: &Error| {
        assert_eq!(before.check().as_ref(), Err(cause));
        assert_eq!(create(&folder, before).as_ref(), Err(cause));
        assert!(!folder.file().exists());
    };
    let before = old.before(&[]);
    before.check().unwrap();
    refused(&Before { digest: [1; 32], ..before }, &Error::OtherList);
    refused(&Before { position: 11, ..before }, &Error::OtherList);
    refused(&Before { position: 13, ..before }, &Error::OtherList);
    let base = rusqlite::Connection::open(old.folder.file()).unwrap();
    let change = |text: &str| assert_eq!(base.execute(text, []), Ok(1), "{text}");
    change("UPDATE batches SET txs = x'' WHERE position = 7");
    refused(&before, &Error::Corrupt("batch 7".to_owned()));
    change("DELETE FROM batches WHERE position = 7");
    refused(&before, &Error::Corrupt("batch 7".to_owned()));
    change("DELETE FROM batches WHERE position = 0");
    refused(&before, &Error::Corrupt("batch 0".to_owned()));
    // What an interrupted call left is made again.
    drop(base);
    let whole = Old::new("whole");
    create(&folder, &whole.before(&[])).unwrap();
    assert_eq!(create(&folder, &whole.before(&[])), Err(Error::Exists));
}
