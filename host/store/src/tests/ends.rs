//! Sessions that end, one after the other, and what is refused.

use super::*;

#[test]
fn from_one_session_to_the_next() {
    let folder = Folder::new("next");
    let mut store = folder.store();
    let first = store.history().unwrap();
    assert_eq!((first.session.number, first.session.state), (0, State::Next));
    assert_eq!((first.session.setting.as_str(), &first.session.keys), ("first", &keys(0)));
    assert_eq!((first.carried, first.helped, first.windows.len()), (vec![], None, 0));

    let made = sessions(2, 5);
    assert_eq!(store.mark_opened(1), Err(Error::OutOfTurn { session: 1, last: 0 }));
    store.mark_opened(0).unwrap();
    store.mark_opened(0).unwrap();
    assert_eq!(store.last().unwrap().state, State::Opened);
    assert_eq!(store.close(0), Err(Error::OutOfTurn { session: 0, last: 0 }));
    store.end(&made[0].ended()).unwrap();

    let second = store.history().unwrap();
    let helped = second.helped.unwrap();
    assert_eq!((helped.number, helped.state, helped.keys), (0, State::Cut, keys(0)));
    let session = second.session;
    assert_eq!((session.number, session.state, session.first), (1, State::Next, 6));
    assert_eq!((session.digest, session.keys), (made[0].digest, keys(1)));
    assert_eq!((second.carried, session.setting), (made[0].carried.clone(), "setting 0".into()));
    assert_eq!(second.windows, settled(&made[0].batches));

    store.close(0).unwrap();
    store.close(0).unwrap();
    assert_eq!(store.history().unwrap().helped, None);
    made[1].run(&mut store);
    assert_eq!(store.mark_opened(1), Err(Error::OutOfTurn { session: 1, last: 2 }));
    let third = store.history().unwrap();
    assert_eq!((third.session.number, third.session.first), (2, 12));
    assert_eq!((third.carried, third.helped.unwrap().number), (made[1].carried.clone(), 1));
    assert_eq!(third.windows, settled(&all(&made)));
}

#[test]
fn an_end_may_be_stored_again_and_no_other_in_its_place() {
    let folder = Folder::new("again");
    let mut store = folder.store();
    let made = sessions(2, 4);
    made.iter().for_each(|it| it.run(&mut store));
    drop(store);
    let before = contents(&folder.file()).unwrap();
    let mut store = Store::open(&folder.file(), &owner()).unwrap();
    made.iter().for_each(|it| store.end(&it.ended()).unwrap());
    let other = Made::after(&made[..1], vec![vec![tx(50, 1)]]);
    assert_eq!(store.end(&other.ended()), Err(Error::OtherEnd(1)));
    let far = Made { session: 5, ..Made::after(&made, Vec::new()) };
    assert_eq!(store.end(&far.ended()), Err(Error::OutOfTurn { session: 5, last: 2 }));
    store.mark_opened(2).unwrap();
    let shifted = Made { first: 3, ..Made::after(&made, Vec::new()) };
    assert_eq!(store.end(&shifted.ended()), Err(Error::OutOfTurn { session: 2, last: 2 }));
    drop(store);
    let (mut history, batches, digest) = contents(&folder.file()).unwrap();
    assert_eq!(history.session.state, State::Opened);
    history.session.state = State::Next;
    assert_eq!((history, batches, digest), before);
}

#[test]
fn a_history_that_was_taken_closes_its_session() {
    let folder = Folder::new("taken");
    let mut store = folder.store();
    let mut made = sessions(3, 4);
    store.end(&made[0].ended()).unwrap(); // it was never opened, so it has no log
    store.mark_opened(1).unwrap();
    made[1].is_closed = true;
    store.end(&made[1].ended()).unwrap();
    let history = store.history().unwrap();
    assert_eq!((history.session.number, history.helped), (2, None));
    for session in 0..2 {
        assert_eq!(store.session(session).unwrap().unwrap().state, State::Closed);
    }
    made[2].run(&mut store);
    // It was cut, and its history is taken as well.
    made[2].is_closed = true;
    store.end(&made[2].ended()).unwrap();
    assert_eq!(store.session(2).unwrap().unwrap().state, State::Closed);
}

/// What is refused leaves nothing behind: the right end is taken after it.
#[test]
fn nothing_is_final_twice_and_digests_are_right() {
    let folder = Folder::new("twice");
    let mut store = folder.store();
    let made = sessions(1, 4);
    made[0].run(&mut store);
    store.mark_opened(1).unwrap();
    let old = made[0].batches[2][0];
    let again = Made::after(&made, vec![vec![tx(9, 1)], vec![tx(9, 2), old]]);
    assert_eq!(store.end(&again.ended()), Err(Error::Twice(old)));
    let same = Made::after(&made, vec![vec![tx(9, 1)], vec![tx(9, 1)]]);
    assert_eq!(store.end(&same.ended()), Err(Error::Twice(tx(9, 1))));
    let wrong = Made { digest: [1; 32], ..Made::after(&made, vec![vec![tx(9, 1)]]) };
    assert_eq!(store.end(&wrong.ended()), Err(Error::OtherDigest(1)));
    let reader = folder.reader();
    assert_eq!(reader.position_of(&tx(9, 1)), Ok(None));
    assert_eq!(reader.batches(made[0].batches.len(), 9, 9), Ok(vec![]));
    assert_eq!(store.history().unwrap().windows, settled(&made[0].batches));

    let payload = Tx { payload: u64::MAX, ..old };
    let right = Made::after(&made, vec![vec![tx(9, 1), payload]]);
    store.end(&right.ended()).unwrap();
    assert_eq!(reader.position_of(&payload), Ok(Some(right.first)));
}

#[test]
fn windows_are_those_of_the_list() {
    let folder = Folder::new("windows");
    let mut store = folder.store();
    let (mut made, mut next) = (Vec::new(), 1u64);
    for session in 0..6 {
        let mut batches = Vec::new();
        for _ in 0..60 {
            next = next.wrapping_mul(6_364_136_223_846_793_005).wrapping_add(1);
            // Clients with gaps, those of the service, and a number above the window.
            let client = [1, 2, 3, u32::MAX, 0][(next >> 40) as usize % 5];
            let number =
                (next >> 50) as u32 % if session == 4 { 9000 } else { 300 } + session * 200;
            let it = Tx { client, number, payload: next };
            batches.push(vec![it]);
        }
        made.push(Made::after(&made, batches));
        made.last().unwrap().run(&mut store);
        let found = store.history().unwrap().windows;
        assert_eq!(found, settled(&all(&made)));
        assert_eq!(found.len(), 4); // not that of markers
    }
}

#[test]
fn stores_that_are_refused() {
    let folder = Folder::new("refused");
    let file = folder.file();
    let cause = |path: &Path| Store::open(path, &owner()).err().unwrap();
    assert_eq!(cause(&file), Error::Missing);
    assert!(!file.exists()); // no start makes one
    drop(folder.store());
    let again = Store::create(&file, &owner(), 0, "first", &keys(0), None);
    assert_eq!(again, Err(Error::Exists));

    let other = Identity { replica: 4, ..owner() };
    assert_eq!(Store::open(&file, &other).err(), Some(Error::OtherReplica(3)));
    assert_eq!(Reader::open(&file, &other).err(), Some(Error::OtherReplica(3)));
    let other = Identity { cluster: [7; 32], ..owner() };
    assert_eq!(Store::open(&file, &other).err(), Some(Error::OtherCluster));

    let store = Store::open(&file, &owner()).unwrap();
    store.base().pragma_update(None, "user_version", 3).unwrap();
    drop(store);
    assert_eq!(cause(&file), Error::Newer(3));

    let strange = folder.0.join("strange");
    for data in [&b""[..], b"text", &[7; 5000]] {
        std::fs::write(&strange, data).unwrap();
        assert_eq!(cause(&strange), Error::NotAStore, "{}", data.len());
    }
    std::fs::remove_file(&strange).unwrap();
    let base = rusqlite::Connection::open(&strange).unwrap();
    base.execute_batch("CREATE TABLE any (one INTEGER)").unwrap();
    drop(base);
    assert_eq!(cause(&strange), Error::NotAStore);
}

/// A crash while a store is made leaves none, and it can be made after it.
#[test]
fn half_of_a_new_store_is_none() {
    let folder = Folder::new("half");
    for name in ["0.new", "0.new-wal", "0.new-shm"] {
        std::fs::write(folder.0.join(name), b"what a crash left").unwrap();
    }
    assert_eq!(Store::open(&folder.file(), &owner()).err(), Some(Error::Missing));
    drop(folder.store());
    let names = std::fs::read_dir(&folder.0).unwrap().map(|it| it.unwrap().file_name());
    assert_eq!(names.collect::<Vec<_>>(), ["0.store"]);
}
