//! Five processes over sessions that follow one another.

mod cluster;

use std::collections::BTreeSet;
use std::fs;
use std::io::Write;
use std::process::Command;
use std::time::Instant;

use cluster::{
    assert_taken, make_authority, texts, txs_of, Cluster, TlsClient, ACCOUNT_WITHIN, PAUSE,
    REPLICAS, RUNNING,
};

/// A replica dies after each step of a change of session, and before the first. Each time it is in
/// the next session after its start, with what all others have, and no log is made twice.
#[test]
fn killed_between_the_steps_of_a_change() {
    let mut cluster = Cluster::new("steps");
    cluster.start_all();
    let mut number = 0;
    for (session, step) in (1..).zip(["ended", "stored", "made", "marked"]) {
        cluster.wait_for(1, "\"stage\":\"running\"");
        number += 1;
        cluster.submit(number);
        cluster.follow(1, 0, texts(1..=number));
        assert_eq!(cluster.order(1, &format!("fault die {step}")), "ok");
        cluster.close_all(session - 1);
        cluster.wait_for_death(1);
        let made = step == "made" || step == "marked";
        assert!(cluster.has_log(1, session) || !made, "{step}"); // it may be made ahead
        cluster.start(1);
        (0..REPLICAS).for_each(|it| cluster.wait_for_session(it, session));
        cluster.wait_for(1, "\"stage\":\"running\"");
    }
    number += 1;
    cluster.submit(number);
    let lists = [0, 1].map(|it| cluster.follow(it, 0, texts(1..=number)));
    let shorter = lists[0].len().min(lists[1].len());
    assert_eq!(lists[0][..shorter], lists[1][..shorter]);
}

#[test]
fn one_list_over_sessions_kills_and_a_lost_log() {
    let mut cluster = Cluster::new("sessions");
    // No start makes a store that is missing: it may have been lost.
    let (store, aside) = (cluster.file(3, "3.store"), cluster.file(3, "aside"));
    fs::rename(&store, &aside).unwrap();
    assert_eq!(cluster.refusal(3), Some(5));
    fs::rename(aside, store).unwrap();
    cluster.start_all();
    (1..=3).for_each(|it| cluster.submit(it));
    cluster.follow(0, 0, texts(1..=3));

    // The first session ends, and the next one is there without an operator.
    cluster.close_all(0);
    (0..REPLICAS).for_each(|it| cluster.wait_for_session(it, 1));
    (4..=6).for_each(|it| cluster.submit(it));
    let list = cluster.follow(0, 0, texts(1..=6));
    assert!(list.iter().any(|it| it.contains(" 0.0.0"))); // the marker

    // A crash. What is durable is there again, over both sessions, and a second process is refused.
    cluster.kill(4);
    (7..=8).for_each(|it| cluster.submit(it));
    cluster.start(4);
    cluster.wait_for_session(4, 1);
    assert_eq!(cluster.refusal(4), Some(4));
    cluster.follow(4, 0, texts(1..=8));

    // A replica that lost its log is in a later session again, and never made that log again.
    cluster.wait_for(2, RUNNING);
    let gone = cluster.session(2);
    cluster.kill(2);
    fs::remove_file(cluster.file(2, &format!("2-{gone}.log"))).unwrap();
    cluster.start(2);
    let session = cluster.run_again(2, gone);
    (9..=12).for_each(|it| cluster.submit(it));

    let lists: Vec<_> = (0..REPLICAS).map(|it| cluster.follow(it, 0, texts(1..=12))).collect();
    for list in &lists {
        let shorter = list.len().min(lists[0].len());
        assert_eq!(list[..shorter], lists[0][..shorter]);
        let txs = txs_of(list, 0);
        assert_eq!(txs.iter().collect::<BTreeSet<_>>().len(), txs.len());
    }
    let tail = cluster.follow(1, 5, texts(9..=12));
    assert_eq!(tail[..3], lists[0][5..8]); // the same from any position
    assert!(!cluster.has_log(2, gone) && cluster.has_log(2, session));

    // The log of a session that nobody needs goes, and its account is there without the secret.
    let account = cluster.file(0, "0-0.account");
    let until = Instant::now() + ACCOUNT_WITHIN;
    while cluster.has_log(0, 0) || !account.exists() {
        assert!(Instant::now() < until, "no account is exported");
        std::thread::sleep(PAUSE);
    }
    let text = fs::read_to_string(&account).unwrap();
    assert!(text.starts_with("{\"cluster\":") && text.lines().last().unwrap().contains("\"end\""));
    assert!(!text.contains(&fs::read_to_string(cluster.file(0, "0.secret")).unwrap()));
    let config = cluster.file(0, "0.toml");
    let mut command = Command::new(env!("CARGO_BIN_EXE_themisd"));
    let printed = command.arg("account").arg(config).args(["--session", "0"]).output().unwrap();
    assert_eq!(String::from_utf8(printed.stdout).unwrap(), text);

    // What is final in this session is known, and what is final in an earlier one is refused.
    assert_eq!(cluster.ask(3, "submit 7.12.36"), "ok 0 1");
    let answer = cluster.ask(3, "submit 7.1.3");
    assert_eq!(answer, "bad 7.1.3: its number is below the window of its client");
}

/// Certificates and connections outlive sessions: those of clients, and those of replicas.
#[test]
fn tls_over_changes_of_session() {
    let authority = std::env::temp_dir().join(format!("themisd-authority-{}", std::process::id()));
    make_authority(&authority);
    let signer = authority.join("authority.crt");
    let mut cluster = Cluster::with("tls", &["--client-authority", signer.to_str().unwrap()]);
    cluster.start_all();
    (0..REPLICAS).for_each(|it| cluster.wait_for(it, "\"heard\":5"));
    let mut clients: Vec<_> =
        (0..REPLICAS).map(|it| TlsClient::connect(&cluster, &authority, it, true)).collect();
    let mut follower = TlsClient::connect(&cluster, &authority, 0, true);
    writeln!(follower.to, "follow 0").unwrap();
    let submit = |clients: &mut [TlsClient], number: u32| {
        for client in clients {
            let answer = client.ask(&format!("submit 7.{number}.{}", number * 3)).unwrap();
            assert_taken(&answer);
        }
    };
    let mut list = Vec::new();
    for session in 1..=2 {
        submit(&mut clients, 2 * session - 1);
        list.extend(follower.until(texts(2 * session - 1..=2 * session - 1)));
        cluster.close_all(session - 1);
        (0..REPLICAS).for_each(|it| cluster.wait_for_session(it, session));
        // The same connections go on, and so does the list of the follower.
        submit(&mut clients, 2 * session);
        list.extend(follower.until(texts(2 * session..=2 * session)));
    }
    // A replica that starts in a later session shows its peers the certificate of the first.
    cluster.kill(3);
    cluster.start(3);
    (0..REPLICAS).for_each(|it| cluster.wait_for(it, "\"heard\":5"));
    clients[3] = TlsClient::connect(&cluster, &authority, 3, true);
    submit(&mut clients, 5);
    list.extend(follower.until(texts(5..=5)));
    for replica in 0..REPLICAS {
        let mut other = TlsClient::connect(&cluster, &authority, replica, true);
        writeln!(other.to, "follow 0").unwrap();
        let found = other.until(texts(1..=5));
        let shorter = found.len().min(list.len());
        assert_eq!(found[..shorter], list[..shorter]);
    }
    // Who shows no certificate is no client, and nobody may submit for another.
    let mut stranger = TlsClient::connect(&cluster, &authority, 0, false);
    assert_eq!(stranger.ask("submit 7.6.18"), None);
    let answer = clients[0].ask("submit 8.1.3");
    assert_eq!(answer.as_deref(), Some("bad not your transaction: 8.1.3, you are 7"));
    fs::remove_dir_all(authority).unwrap();
}
