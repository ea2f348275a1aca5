//! Five processes of which one loses its store, or gets a new machine.

mod cluster;

use std::collections::BTreeSet;
use std::fs;
use std::process::{Command, Output};

use cluster::{
    assert_taken, free_addresses, make_authority, texts, themisd, txs_of, Cluster, TlsClient,
    REPLICAS, RUNNING,
};

/// How `themisd` ends with these words, and what it says.
fn ended(words: &[&str]) -> (Option<i32>, String) {
    let Output { status, stderr, .. } =
        Command::new(env!("CARGO_BIN_EXE_themisd")).args(words).output().unwrap();
    (status.code(), String::from_utf8(stderr).unwrap())
}

/// Waits until all are in a session.
fn wait_for_session(cluster: &Cluster, session: u32) {
    (0..REPLICAS).for_each(|it| cluster.wait_for_session(it, session));
}

fn assert_equal_lists(lists: &[Vec<String>]) {
    for list in lists {
        let shorter = list.len().min(lists[0].len());
        assert_eq!(list[..shorter], lists[0][..shorter]);
        let txs = txs_of(list, 0);
        assert_eq!(txs.iter().collect::<BTreeSet<_>>().len(), txs.len());
    }
}

#[test]
fn a_store_that_was_lost_is_made_again() {
    let mut cluster = Cluster::new("lost-store");
    cluster.start_all();
    (1..=3).for_each(|it| cluster.submit(it));
    cluster.follow(0, 0, texts(1..=3));
    cluster.close_all(0);
    wait_for_session(&cluster, 1);
    cluster.wait_for(2, RUNNING);
    (4..=5).for_each(|it| cluster.submit(it));
    cluster.follow(2, 0, texts(1..=5));

    // Its store is gone: no start makes one, and `rejoin` makes none next to what is left.
    let folder = cluster.folder.join("2");
    let words = ["rejoin", folder.to_str().unwrap(), "--replica", "2"];
    let (status, text) = ended(&words);
    assert_eq!(status, Some(2), "{text}");
    let last = cluster.session(2);
    cluster.kill(2);
    for name in ["2.store", "2.store-wal", "2.store-shm"] {
        let _ = fs::remove_file(cluster.file(2, name));
    }
    assert_eq!(cluster.refusal(2), Some(5));
    let (status, text) = ended(&words);
    assert_eq!(status, Some(2), "{text}");
    assert!(text.contains(".log is there already; nothing was changed"), "{text}");
    // The log of the next session may have been made ahead.
    for session in 0..=last + 1 {
        let _ = fs::remove_file(cluster.file(2, &format!("2-{session}.log")));
    }
    themisd(&words);
    let (status, text) = ended(&words);
    assert_eq!(status, Some(2), "{text}");

    // It takes the list from the others, from the first batch on. It makes no log of a session in
    // which it may have sealed before, nor of the next one, and takes part in a later one.
    cluster.start(2);
    let session = cluster.run_again(2, last);
    assert!(session > last + 1);
    assert!(!cluster.has_log(2, last) && !cluster.has_log(2, last + 1));
    assert!(cluster.has_log(2, session));
    (6..=8).for_each(|it| cluster.submit(it));
    let lists: Vec<_> = (0..REPLICAS).map(|it| cluster.follow(it, 0, texts(1..=8))).collect();
    assert_equal_lists(&lists);

    // Its windows are those of the list.
    let answer = cluster.ask(2, "submit 7.1.3");
    assert_eq!(answer, "bad 7.1.3: its number is below the window of its client");
    // It is one of a quorum again: the others need it.
    cluster.kill(4);
    cluster.submit(9);
    cluster.follow(2, 0, texts(1..=9));
    // A start goes on there, and asks nobody.
    cluster.kill(2);
    cluster.start(2);
    cluster.wait_for(2, RUNNING);
    cluster.follow(2, 0, texts(1..=9));
}

/// A replica gets a new machine: a new address, a new TLS identity and a new master secret. The others
/// take over its part one after the other, while the cluster runs.
#[test]
fn a_replica_gets_a_new_machine() {
    let authority = std::env::temp_dir().join(format!("themisd-members-{}", std::process::id()));
    make_authority(&authority);
    let signer = authority.join("authority.crt");
    let mut cluster = Cluster::with("machine", &["--client-authority", signer.to_str().unwrap()]);
    cluster.start_all();
    (0..REPLICAS).for_each(|it| cluster.wait_for(it, "\"heard\":5"));
    let submit = |cluster: &Cluster, number: u32| {
        for replica in (0..REPLICAS).filter(|it| cluster.processes[*it].is_some()) {
            let mut client = TlsClient::connect(cluster, &authority, replica, true);
            let answer = client.ask(&format!("submit 7.{number}.{}", number * 3)).unwrap();
            assert_taken(&answer);
        }
    };
    submit(&cluster, 1);
    TlsClient::connect(&cluster, &authority, 0, true).follow(texts(1..=1));

    // The new machine makes all of its own.
    cluster.kill(3);
    let (folder, old) = (cluster.folder.join("3"), cluster.folder.join("3.old"));
    fs::rename(&folder, old).unwrap();
    let addresses = free_addresses(2);
    let at = folder.to_str().unwrap();
    let where_to = ["--peer", &*addresses[0], "--client", &*addresses[1], "--height", "505"];
    themisd(&[&["init", at, "--replica", "3"][..], &where_to].concat());
    let part = cluster.file(3, "3.public.toml");

    // The others take its public part over, and start again, one at a time.
    for replica in [0, 1, 2, 4] {
        let config = cluster.file(replica, &format!("{replica}.toml"));
        themisd(&["replace", config.to_str().unwrap(), part.to_str().unwrap()]);
        cluster.kill(replica);
        cluster.start(replica);
        cluster.wait_for(replica, RUNNING);
    }

    // It gets from one of them what all share.
    for name in ["cluster.toml", "client_authority.crt", "0.crt", "1.crt", "2.crt", "4.crt"] {
        fs::copy(cluster.file(0, name), cluster.file(3, name)).unwrap();
    }
    themisd(&["rejoin", at, "--replica", "3"]);
    cluster.clients[3].clone_from(&addresses[1]);
    cluster.start(3);
    cluster.run_again(3, 0);
    (0..REPLICAS).for_each(|it| cluster.wait_for(it, "\"heard\":5"));
    submit(&cluster, 2);
    let follow = |it| TlsClient::connect(&cluster, &authority, it, true).follow(texts(1..=2));
    let lists: Vec<_> = (0..REPLICAS).map(follow).collect();
    assert_equal_lists(&lists);
    fs::remove_dir_all(authority).unwrap();
}
