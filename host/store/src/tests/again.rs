//! Stores that are made again, since an earlier one was lost.

use super::*;

fn again(folder: &Folder) -> Store {
    Store::create_again(&folder.file(), &owner(), 0, "first", &keys(0), None).unwrap();
    Store::open(&folder.file(), &owner()).unwrap()
}

fn origin(store: &Store) -> Origin {
    store.history().unwrap().origin
}

#[test]
fn it_starts_as_a_new_one_and_knows_what_is_sat_out_once_it_is_told() {
    let folder = Folder::new("again");
    let mut store = again(&folder);
    let history = store.history().unwrap();
    assert_eq!(history.origin, Origin::Again { sits_out: None });
    assert_eq!((history.session.number, history.session.first), (0, 0));
    store.sit_out(7).unwrap();
    store.sit_out(9).unwrap(); // the first answer stays: nothing was sealed since
    drop(store);
    let mut store = Store::open(&folder.file(), &owner()).unwrap();
    assert_eq!(origin(&store), Origin::Again { sits_out: Some(7) });
    // It takes the sessions from others.
    let made = sessions(2, 5);
    for it in &made {
        store.end(&Ended { is_closed: true, ..it.ended() }).unwrap();
    }
    assert_eq!(store.session(1).unwrap().unwrap().state, State::Closed);
    assert_eq!(origin(&store), Origin::Again { sits_out: Some(7) });
}

#[test]
fn none_is_made_where_one_is_there_and_a_first_one_sits_nothing_out() {
    let folder = Folder::new("again-refused");
    let mut store = folder.store();
    assert_eq!(origin(&store), Origin::First);
    assert_eq!(store.sit_out(7), Err(Error::NeverLost));
    let made = Store::create_again(&folder.file(), &owner(), 0, "first", &keys(0), None);
    assert_eq!(made, Err(Error::Exists));
    assert_eq!(origin(&store), Origin::First);
}

/// A replica that forgot that its first store was lost could seal a leaf twice.
#[test]
fn a_row_that_was_changed_or_is_missing_is_noticed() {
    let folder = Folder::new("again-damaged");
    let store = again(&folder);
    for change in [
        "UPDATE origin SET is_again = 0",
        "UPDATE origin SET is_again = 1, sits_out = 3",
        "UPDATE origin SET is_again = 0, sits_out = NULL",
        "DELETE FROM origin",
    ] {
        store.base().execute(change, []).unwrap();
        assert!(matches!(store.history(), Err(Error::Corrupt(_))), "{change}");
    }
}

#[test]
fn a_store_of_the_format_before_is_the_first_of_its_replica() {
    let folder = Folder::new("again-format");
    let (mut store, made) = (folder.store(), sessions(2, 5));
    made[0].run(&mut store);
    let expected = store.history().unwrap();
    store.base().execute_batch("DROP TABLE origin; PRAGMA user_version = 1").unwrap();
    drop(store);
    assert_eq!(folder.reader().last().unwrap(), expected.session); // a reader changes nothing
    for _ in 0..2 {
        let store = Store::open(&folder.file(), &owner()).unwrap();
        assert_eq!(store.history().unwrap(), expected);
    }
}
