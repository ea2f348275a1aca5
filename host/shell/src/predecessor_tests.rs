//! Clusters that continue another one: what `join` and `rejoin` make of an old store, and what they
//! refuse.

use std::fs;

use themis_store::{chain, Ended, History, Origin, Store};

use super::*;
use crate::join::played::Five;
use crate::{join, recovery, rejoin};

const LAST: u32 = 1;

fn setup(five: &Five, replica: u32) -> Setup {
    Setup::load(&five.folder(replica).join(format!("{replica}.toml"))).unwrap()
}

fn store_of(five: &Five, replica: u32) -> Store {
    let path = store_path(&five.folder(replica), replica);
    Store::open(&path, &owner(&setup(five, replica))).unwrap()
}

/// A transaction that has arrived at one replica alone.
fn left_over(replica: u32) -> Tx {
    Tx { client: 9, number: replica + 1, payload: 0 }
}

/// Ends the session that comes next in a store: with a transaction and the marker.
fn end(store: &mut Store, replica: u32) {
    let last = store.last().unwrap();
    let txs = [Tx { client: 7, number: last.number + 1, payload: 0 }, marker(last.number)];
    let mut data = Vec::new();
    txs.iter().for_each(|it| themis_engine::tx::put(it, &mut data));
    store.mark_opened(last.number).unwrap();
    store
        .end(&Ended {
            session: last.number,
            first: last.first,
            batches: &[txs.to_vec()],
            digest: chain(&last.digest, &data),
            carried: &[left_over(replica)],
            setting: &last.setting,
            keys: &last.keys,
            is_closed: false,
        })
        .unwrap();
}

fn marker(session: u32) -> Tx {
    Tx { client: 0, number: session, payload: 0 }
}

fn set_last_session(five: &Five, replica: u32, last: u32) {
    let path = five.folder(replica).join(format!("{replica}.toml"));
    let text = fs::read_to_string(&path).unwrap();
    fs::write(&path, format!("{text}last_session = {last}\n")).unwrap();
}

/// A cluster that has ended with session 1.
fn old(name: &str) -> Five {
    let five = Five::joined(name);
    for replica in 0..5 {
        let mut store = store_of(&five, replica);
        (0..=LAST).for_each(|_| end(&mut store, replica));
        set_last_session(&five, replica, LAST);
    }
    five
}

/// A cluster that goes on with session 2.
fn new(name: &str) -> Five {
    Five::of(name, LAST + 1, false)
}

fn join_after(five: &Five, replica: u32, after: &Path) -> Result<(), Failure> {
    join::make(&join::Setting { after: Some(after.to_owned()), ..five.setting(replica) })
}

fn history(five: &Five, replica: u32) -> History {
    recovery::open(&five.folder(replica), &owner(&setup(five, replica)), true).unwrap().history
}

/// How a call is refused, and what the text ends with. Nothing is made then.
fn refused(done: Result<(), Failure>, exit: Exit, text: &str) {
    let failure = done.unwrap_err();
    assert!(failure.exit == exit && failure.text.ends_with(text), "{failure}");
}

#[test]
fn a_new_cluster_goes_on_where_the_one_before_ended() {
    let (old, new) = (old("after-old"), new("after-new"));
    // Replica 0 was there before. Replica 1 has no store of its own: a copy of another one will do.
    let copy = old.folder(3).join("copy");
    fs::copy(store_path(&old.folder(3), 3), &copy).unwrap();
    join_after(&new, 0, &old.folder(0)).unwrap();
    join_after(&new, 1, &copy).unwrap();
    let (own, other) = (setup(&new, 0), setup(&new, 1));
    assert_eq!(own.cluster_digest(), other.cluster_digest());
    let after = own.cluster.after.clone().unwrap();
    let end = store_of(&old, 0).last().unwrap();
    assert_eq!(after.cluster, hex(&setup(&old, 0).cluster_digest()));
    assert_eq!((after.session, after.position), (LAST, 2));
    assert_eq!((after.digest, own.cluster.session), (hex(&end.digest), LAST + 1));
    let keys: Vec<_> = own.public_keys.iter().copied().map(Some).collect();
    for (replica, carried) in [(0, vec![left_over(0)]), (1, vec![])] {
        let found = history(&new, replica);
        let session = &found.session;
        assert_eq!((session.number, session.state), (LAST + 1, State::Next));
        assert_eq!((session.first, session.digest), (end.first, end.digest));
        assert_eq!((&session.keys, &found.carried), (&keys, &carried));
        assert_eq!(found.windows, store_of(&old, replica).history().unwrap().windows);
    }
}

/// The end is part of what names the cluster: with another one replicas do not speak to each other.
#[test]
fn another_end_is_another_cluster() {
    let (old, new) = (old("named-old"), new("named-new"));
    join_after(&new, 0, &old.folder(0)).unwrap();
    let setup = || setup(&new, 0);
    let changes: [fn(&mut After); 4] = [
        |it| it.cluster = "00".repeat(32),
        |it| it.session += 1,
        |it| it.position += 1,
        |it| it.digest = "00".repeat(32),
    ];
    for change in changes {
        let mut other = setup();
        change(other.cluster.after.as_mut().unwrap());
        assert_ne!(other.cluster_digest(), setup().cluster_digest());
    }
    let after = setup().cluster.after.unwrap();
    assert_eq!(after.check(LAST + 1), Ok(()));
    after.check(LAST).unwrap_err();
    After { digest: "00".repeat(31), ..after }.check(LAST + 1).unwrap_err();
}

#[test]
fn what_a_new_cluster_cant_continue() {
    let (old, new) = (old("refused-old"), new("refused-new"));
    let at = |it: u32| old.folder(it);
    let text = "the parts were made for session 2: name a store of the cluster that this one \
                continues (--after)";
    refused(join::make(&new.setting(0)), Exit::Usage, text);
    // One that has not ended, by its folder or by its store.
    let fresh = Five::joined("refused-fresh");
    refused(join_after(&new, 0, &fresh.folder(0)), Exit::Usage, "no session has ended there");
    let mut store = store_of(&fresh, 2);
    end(&mut store, 2);
    let copy = store_path(&fresh.folder(2), 2);
    let text = "the last session that has ended there is 0, but the parts were made for session 2";
    refused(join_after(&new, 0, &copy), Exit::Usage, text);
    // One that has gone on.
    store_of(&old, 1).mark_opened(LAST + 1).unwrap();
    let text = "session 2 was opened there, so its cluster may have gone on";
    refused(join_after(&new, 1, &at(1)), Exit::Usage, text);
    end(&mut store_of(&old, 4), 4);
    let text = "the last session that has ended there is 2, but the parts were made for session 2";
    refused(join_after(&new, 1, &store_path(&at(4), 4)), Exit::Usage, text);
    // A replica whose configuration lets it go on, or that runs.
    let config = at(3).join("3.toml");
    let kept = fs::read_to_string(&config).unwrap();
    fs::write(&config, kept.replace("last_session = 1", "last_session = 2")).unwrap();
    let text = "3.toml: it has to say last_session = 1: the replica ends with this session, and \
                never goes on";
    refused(join_after(&new, 3, &at(3)), Exit::Usage, text);
    fs::write(&config, kept).unwrap();
    let lock = Lock::take(&at(3), 3).unwrap();
    refused(join_after(&new, 3, &at(3)), Exit::LogInUse, "another process uses this replica");
    drop(lock);
    // A damaged one.
    let path = store_path(&at(3), 3);
    let data = fs::read(&path).unwrap();
    fs::write(&path, &data[..data.len() / 2]).unwrap();
    assert_eq!(join_after(&new, 3, &at(3)).unwrap_err().exit, Exit::LogRefused);
    fs::write(&path, b"no store").unwrap();
    assert_eq!(join_after(&new, 3, &path).unwrap_err().exit, Exit::LogRefused);
    // The secret of the cluster before: its key of the next session may have sealed already.
    fs::copy(at(0).join("0.secret"), new.folder(0).join("0.secret")).unwrap();
    let failure = join_after(&new, 0, &at(0)).unwrap_err();
    assert_eq!(failure.exit, Exit::Config, "{failure}");
    // Nothing was made.
    for replica in 0..5 {
        for name in ["cluster.toml", &format!("{replica}.toml"), &format!("{replica}.store")] {
            assert!(!new.folder(replica).join(name).exists());
        }
    }
}

/// A store of the new cluster that is lost begins with the list of the cluster before, which its peers
/// do not hand out.
#[test]
fn a_store_of_the_new_cluster_is_made_again() {
    let (old, new) = (old("again-old"), new("again-new"));
    (0..2).for_each(|it| join_after(&new, it, &old.folder(it)).unwrap());
    end(&mut store_of(&new, 1), 1);
    fs::remove_file(store_path(&new.folder(0), 0)).unwrap();
    let rejoin = |five: &Five, after: Option<PathBuf>| {
        rejoin::make(&rejoin::Wanted { folder: five.folder(0), replica: 0, after })
    };
    let text = "this cluster continues another one: name a store that has its list (--after)";
    refused(rejoin(&new, None), Exit::Usage, text);
    // One that ended otherwise, or that has not come so far.
    let fresh = Five::joined("again-fresh");
    let other = store_path(&fresh.folder(1), 1);
    let text = "it does not have the list that is continued";
    refused(rejoin(&new, Some(other.clone())), Exit::LogRefused, text);
    assert!(!store_path(&new.folder(0), 0).exists());
    // One of the new cluster has the list too.
    rejoin(&new, Some(store_path(&new.folder(1), 1))).unwrap();
    let found = history(&new, 0);
    assert_eq!(found.origin, Origin::Again { sits_out: None });
    assert_eq!((found.session.number, found.session.first), (LAST + 1, 2));
    assert_eq!(found.windows, store_of(&old, 0).history().unwrap().windows);
    // A cluster that continues no other one has no use for it.
    fs::remove_file(store_path(&fresh.folder(0), 0)).unwrap();
    let text = "this cluster continues no other one: leave out --after";
    refused(rejoin(&fresh, Some(other)), Exit::Usage, text);
}
