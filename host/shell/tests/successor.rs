//! Five processes whose cluster ends, and six that continue it with another setting.

mod cluster;

use std::collections::BTreeSet;
use std::fs;
use std::process::Command;
use std::time::Instant;

use cluster::{texts, themisd, txs_of, Cluster, ACCOUNT_WITHIN, PAUSE, REPLICAS, RUNNING};

/// The session with which the operators end the first cluster.
const LAST: u32 = 1;
const ENDED: &str = "\"stage\":\"ended\"";

/// How the first cluster ended, by the status of a replica.
fn end_of(cluster: &Cluster, replica: usize) -> String {
    let status = cluster.wait_until(replica, ENDED, |it| it.contains(ENDED));
    let end = status.split("\"ended\":{").nth(1).and_then(|it| it.split('}').next());
    end.expect(&status).to_owned()
}

/// Five replicas that have run two sessions, of which all but the last one ended for good then: its
/// operator has forgotten it.
fn ended_cluster() -> Cluster {
    let mut cluster = Cluster::new("before");
    (0..4).for_each(|it| cluster.configure(it, &format!("last_session = {LAST}")));
    cluster.start_all();
    (1..=3).for_each(|it| cluster.submit(it));
    cluster.follow(0, 0, texts(1..=3));
    cluster.close_all(0);
    (0..REPLICAS).for_each(|it| cluster.wait_for_session(it, LAST));
    (4..=5).for_each(|it| cluster.submit(it));
    cluster.follow(0, 0, texts(1..=5));
    cluster.close_all(LAST);
    (0..4).for_each(|it| cluster.wait_for(it, ENDED));
    cluster
}

/// Those that have ended go on answering, and make no log of a later session.
fn assert_ended(cluster: &mut Cluster) {
    let end = end_of(cluster, 0);
    assert!(end.contains("\"session\":1"), "{end}");
    (1..4).for_each(|it| assert_eq!(end_of(cluster, it), end));
    cluster.kill(1);
    cluster.start(1);
    assert_eq!(end_of(cluster, 1), end);
    assert_eq!(cluster.ask(1, "submit 7.6.18"), "over");
    cluster.follow(1, 0, texts(1..=5));
    assert_eq!(cluster.order(1, "close 1"), "bad session 1 has ended");
    let answer = cluster.order(1, "close 2");
    assert_eq!(answer, "bad the cluster has ended: session 2 is never opened here");
    assert!((0..4).all(|it| !cluster.has_log(it, LAST + 1)));
    let config = cluster.file(1, "1.toml");
    let status = Command::new(env!("CARGO_BIN_EXE_themisd")).arg("status").arg(config).output();
    assert_eq!(status.unwrap().status.code(), Some(11));

    // One alone goes no further than the session that it opened, and can't say that it did not.
    cluster.wait_for_session(4, LAST + 1);
    cluster.wait_for(4, RUNNING);
    cluster.kill(4);
    cluster.configure(4, &format!("last_session = {LAST}"));
    assert_eq!(cluster.refusal(4), Some(3));

    // What an audit of the last session needs is there.
    let until = Instant::now() + ACCOUNT_WITHIN;
    while (0..4).any(|it| !cluster.file(it, &format!("{it}-{LAST}.account")).exists()) {
        assert!(Instant::now() < until, "no account is exported");
        std::thread::sleep(PAUSE);
    }
}

/// Six replicas, with another gamma, other views and another height. Four were there before, and two
/// take the list from a copy of another one's store.
fn continued(old: &mut Cluster) -> Cluster {
    (0..REPLICAS).for_each(|it| old.kill(it));
    let first = (LAST + 1).to_string();
    let cluster = Cluster::init("after", 6, &["--first-session", &first, "--height", "510"]);
    let copy = cluster.folder.join("copy");
    fs::copy(old.file(0, "0.store"), &copy).unwrap();
    for it in 0..6 {
        let after = if it < 4 { old.file(it, "") } else { copy.clone() };
        let words = ["--f", "1", "--gamma", "9/10", "--views", "150", "--plain"];
        cluster.join(it, &[&words[..], &["--after", after.to_str().unwrap()]].concat());
    }
    cluster
}

/// Two of five end with the first session, and the others wait in the next one: they are too few. Once
/// the two start again with a later last session, all go on, and nothing that was taken is lost.
#[test]
fn where_operators_disagree_the_later_session_counts() {
    let mut cluster = Cluster::new("disagree");
    (0..2).for_each(|it| cluster.configure(it, "last_session = 0"));
    cluster.start_all();
    cluster.submit(1);
    cluster.follow(0, 0, texts(1..=1));
    cluster.close_all(0);
    (0..2).for_each(|it| cluster.wait_for(it, ENDED));
    for it in 2..REPLICAS {
        cluster.wait_for_session(it, 1);
        cluster.wait_for(it, RUNNING);
    }
    for it in 0..2 {
        cluster.kill(it);
        let config = cluster.file(it, &format!("{it}.toml"));
        let text = fs::read_to_string(&config).unwrap();
        fs::write(config, text.replace("last_session = 0", "last_session = 1")).unwrap();
    }
    cluster.submit(2);
    (0..2).for_each(|it| cluster.start(it));
    for it in 0..REPLICAS {
        cluster.wait_for(it, RUNNING);
        cluster.follow(it, 0, texts(1..=2));
    }
    cluster.close_all(1);
    (0..2).for_each(|it| cluster.wait_for(it, ENDED));
    assert_eq!(end_of(&cluster, 0), end_of(&cluster, 1));
}

#[test]
fn six_replicas_continue_the_list_of_five() {
    let mut old = ended_cluster();
    let before = old.follow(0, 0, texts(1..=5));
    assert_ended(&mut old);
    let mut cluster = continued(&mut old);
    cluster.start_all();
    (6..=8).for_each(|it| cluster.submit(it));
    let lists: Vec<_> = (0..6).map(|it| cluster.follow(it, 0, texts(1..=8))).collect();
    for list in &lists {
        let shorter = list.len().min(lists[0].len());
        assert_eq!(list[..shorter], lists[0][..shorter]);
        assert_eq!(list[..before.len()], before);
        let txs = txs_of(list, 0);
        assert_eq!(txs.iter().collect::<BTreeSet<_>>().len(), txs.len());
    }
    // What was final in the cluster before is refused in this one.
    let answer = cluster.ask(5, "submit 7.1.3");
    assert_eq!(answer, "bad 7.1.3: its number is below the window of its client");

    // Its sessions follow one another, with keys that all six agree on.
    cluster.close_all(LAST + 1);
    (0..6).for_each(|it| cluster.wait_for_session(it, LAST + 2));
    cluster.submit(9);
    let list = cluster.follow(5, 0, texts(1..=9));
    assert!(list.iter().any(|it| it.contains(" 0.2.0"))); // the marker of its first session
    assert!((0..6).all(|it| !cluster.has_log(it, LAST)));
}

/// Its peers hand out how its own sessions ended, and not those of the cluster before: these come from
/// a store of any replica.
#[test]
fn a_store_of_the_new_cluster_that_was_lost_is_made_again() {
    let mut old = Cluster::new("lost-before");
    (0..REPLICAS).for_each(|it| old.configure(it, "last_session = 0"));
    old.start_all();
    old.submit(1);
    let before = old.follow(0, 0, texts(1..=1));
    old.close_all(0);
    for it in 0..REPLICAS {
        old.wait_for(it, ENDED);
        old.kill(it);
    }
    let mut cluster =
        Cluster::init("lost-after", REPLICAS, &["--first-session", "1", "--height", "505"]);
    for it in 0..REPLICAS {
        let after = old.file(it, "");
        let words = ["--f", "1", "--views", "190", "--plain", "--after"];
        cluster.join(it, &[&words[..], &[after.to_str().unwrap()]].concat());
    }
    cluster.start_all();
    cluster.submit(2);
    cluster.follow(2, 0, texts(1..=2));

    let gone = cluster.session(2);
    cluster.kill(2);
    let logs = (1..=gone + 1).map(|it| format!("2-{it}.log"));
    for name in ["2.store", "2.store-wal", "2.store-shm"].map(str::to_owned).into_iter().chain(logs)
    {
        let _ = fs::remove_file(cluster.file(2, &name));
    }
    let (at, store) = (cluster.file(2, ""), old.file(4, "4.store"));
    let words = ["rejoin", at.to_str().unwrap(), "--replica", "2", "--after"];
    themisd(&[&words[..], &[store.to_str().unwrap()]].concat());
    cluster.start(2);
    assert!(cluster.run_again(2, gone) > gone + 1);
    cluster.submit(3);
    let list = cluster.follow(2, 0, texts(1..=3));
    assert_eq!(list[..before.len()], before);
    txs_of(&list, 0);
}
