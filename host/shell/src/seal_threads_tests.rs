//! Replica 4 of a cluster in one process, whose seals threads check or not.

use std::collections::VecDeque;
use std::sync::mpsc::sync_channel;

use bytes::Bytes;
use themis::{public_key, Error, Height, Message, Replica, Role, Verifier};
use themis_engine::core::{Core, Delivered, Event, Turn};

use super::{SealThreads, Worker};
use crate::timed::Timed;

const N: u32 = 5;
const LAST: u32 = N - 1;
const VIEWS: u32 = 4;

fn role(me: u32) -> Role {
    Role { n: N, f: 1, p: 1, q: 1, views: VIEWS, me, height: Height::H5H5 }
}

fn secret(me: u32) -> [u8; 48] {
    std::array::from_fn(|at| (me as usize * 48 + 7 * at) as u8)
}

fn keys() -> Vec<[u8; 60]> {
    (0..N).map(|me| public_key(Height::H5H5, &secret(me)).unwrap()).collect()
}

/// A replica after its first tick, and what it sends.
fn opened(me: u32, keys: &[[u8; 60]]) -> (Replica, Vec<Message>) {
    let mut replica = Replica::open(&role(me), &secret(me), keys, &[]).unwrap().0;
    replica.prepare_tick(0).unwrap();
    replica.act().unwrap();
    let sends = replica.sends().unwrap();
    (replica, sends)
}

/// The messages that the last replica receives until the last view, in their order.
fn received(keys: &[[u8; 60]]) -> Vec<Delivered> {
    let (mut replicas, mut queue, mut received) = (Vec::new(), VecDeque::new(), Vec::new());
    for me in 0..N {
        let (replica, sends) = opened(me, keys);
        replicas.push(replica);
        queue.extend(sends.into_iter().map(|it| (me, it)));
    }
    while let Some((from, it)) = queue.pop_front() {
        let replica = &mut replicas[it.to as usize];
        replica.prepare_deliver(from, &it.bytes).unwrap();
        replica.act().unwrap();
        queue.extend(replica.sends().unwrap().into_iter().map(|sent| (it.to, sent)));
        if it.to == LAST {
            received.push(Delivered { from, data: Bytes::from(it.bytes) });
        }
    }
    received
}

/// The last replica, with that many threads for seals.
fn core(keys: &[[u8; 60]], threads: usize) -> Timed {
    let seals = SealThreads::start(threads, &role(LAST), keys).unwrap();
    Timed::new(opened(LAST, keys).0, seals)
}

/// What comes of a message that is foreseen, prepared and acted on.
fn done(core: &mut Timed, it: &Delivered) -> (Result<bool, Error>, Vec<u8>, Turn) {
    let foreseen = core.would_change(it);
    let record = core.prepare(&Event::Delivered(it.clone())).unwrap();
    (foreseen, record, core.act().unwrap())
}

/// For how many messages threads checked the seals.
fn checked(core: &Timed) -> u64 {
    core.all().iter().find(|(name, _)| *name == "verify").unwrap().1.calls
}

#[test]
fn threads_change_no_turn_and_check_each_message_once() {
    let keys = keys();
    let (mut with, mut without) = (core(&keys, 3), core(&keys, 0));
    let mut large = 0;
    for it in received(&keys) {
        large += u64::from(with.seals().are_for(&it));
        assert_eq!(done(&mut with, &it), done(&mut without, &it));
        assert!(!with.seals().are_for(&it) && !without.seals().are_for(&it));
    }
    assert!(large >= 2, "there are few proposals");
    assert_eq!((checked(&with), checked(&without)), (large, 0));
}

#[test]
fn a_lost_thread_ends_it_and_changes_no_turn() {
    let keys = keys();
    let (mut with, mut without) = (core(&keys, 1), core(&keys, 0));
    let verifier = Verifier::new(Height::H5H5, &keys).unwrap();
    with.seals().workers.push(Worker {
        jobs: sync_channel(1).0,
        done: sync_channel(1).1,
        verifier: Some(verifier),
    });
    for it in received(&keys) {
        assert_eq!(done(&mut with, &it), done(&mut without, &it));
    }
    assert_eq!(checked(&with), 1);
}

/// Milliseconds in which the proposals of a run are prepared: `cargo test --release -- --ignored
/// --nocapture how_long`.
#[test]
#[ignore = "it measures"]
fn how_long_proposals_take() {
    let keys = keys();
    let received = received(&keys);
    for threads in [0, 1, 2, 3] {
        let mut core = core(&keys, threads);
        let large: Vec<_> =
            received.iter().filter(|it| it.data.len() > 9 * 4756 && it.from != LAST).collect();
        let mut took = Vec::new();
        for it in &received {
            let start = std::time::Instant::now();
            core.prepare(&Event::Delivered(it.clone())).unwrap();
            if large.contains(&it) {
                took.push(start.elapsed());
            }
            core.act().unwrap();
        }
        println!("{threads} threads: {took:?}");
    }
}
