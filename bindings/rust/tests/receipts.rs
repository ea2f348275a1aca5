//! What one of five replicas receives from its clients and its peers, and what of it arrives.

use themis::{public_key, Error, Height, Reason, Receipt, Replica, Role, Standing, Taken, Tx};

const N: u32 = 5;

fn secret(me: u32) -> [u8; 48] {
    std::array::from_fn(|k| (me as usize * 48 + 7 * k) as u8)
}

/// Replica 0 with a new log.
fn opened() -> Replica {
    let height = Height::H5;
    let keys: Vec<_> = (0..N)
        .map(|me| public_key(height, &secret(me)).unwrap())
        .collect();
    let role = Role {
        n: N,
        f: 1,
        p: 1,
        q: 1,
        views: 6,
        me: 0,
        height,
    };
    Replica::open(&role, &secret(0), &keys, &[]).unwrap().0
}

fn txs(client: u32, count: u32) -> Vec<Tx> {
    (0..count)
        .map(|number| Tx {
            client,
            number,
            payload: 0,
        })
        .collect()
}

fn submit_all(it: &mut Replica, txs: &[Tx]) {
    for tx in txs {
        assert_eq!(it.submit(tx), Ok(Taken::New));
    }
}

/// A peer received these one after another, the first one at this stamp.
fn hear_all(it: &mut Replica, peer: u32, txs: &[Tx], first: u64) {
    for (stamp, tx) in (first..).zip(txs) {
        it.hear(peer, &Receipt { tx: *tx, stamp }).unwrap();
    }
}

#[test]
fn while_few_wait_all_arrive_in_the_order_of_receipt() {
    let (mut it, one, other) = (opened(), txs(1, 3), txs(2, 2));
    hear_all(&mut it, 3, &other, 7);
    submit_all(&mut it, &one);
    let arrivals = it.arrive().unwrap();
    assert_eq!(
        (arrivals.txs.clone(), arrivals.given),
        ([other, one].concat(), 0)
    );
    it.prepare_arrived(&arrivals.txs).unwrap();
    assert_eq!((it.act(), it.known()), (Ok(Reason::Done), Ok(5)));
    assert!(it.arrive().unwrap().txs.is_empty());
}

#[test]
fn in_a_burst_the_smallest_keys_arrive() {
    let (mut it, some) = (opened(), txs(1, 300));
    submit_all(&mut it, &some);
    assert!(it.arrive().unwrap().txs.is_empty()); // no key is known
    let theirs = [&some[200..], &some[..200]].concat();
    for peer in 1..4 {
        hear_all(&mut it, peer, &theirs, 1);
    }
    let held = it.held().unwrap();
    assert_eq!((held.all, held.waiting, held.own), (300, 300, 300));
    assert_eq!(it.arrive().unwrap().txs, some[200..296]);
    assert_eq!(it.held().unwrap().waiting, 204);
}

#[test]
fn what_is_known_of_a_transaction() {
    let (mut it, some) = (opened(), txs(1, 4));
    it.settle(&some[..1]).unwrap();
    assert_eq!(it.restore(&some[1]), Ok(Taken::New));
    submit_all(&mut it, &some[2..3]);
    let known: Vec<_> = some.iter().map(|tx| it.standing(tx).unwrap()).collect();
    let expected = [
        Standing::Final,
        Standing::Arrived,
        Standing::Waiting,
        Standing::Unknown,
    ];
    assert_eq!(known, expected);
    let taken: Vec<_> = some.iter().map(|tx| it.submit(tx).unwrap()).collect();
    assert_eq!(taken, [Taken::Final, Taken::Held, Taken::Held, Taken::New]);
}

#[test]
fn own_receipts_have_the_stamps_of_a_clock_that_two_peers_move() {
    let (mut it, some) = (opened(), txs(1, 3));
    it.hear_clock(4, 1000).unwrap();
    submit_all(&mut it, &some[..1]);
    it.hear_clock(3, 50).unwrap();
    submit_all(&mut it, &some[1..]);
    assert_eq!(it.clock(), Ok(52));
    let receipt = |at: usize, stamp| Receipt {
        tx: some[at],
        stamp,
    };
    assert_eq!(it.receipts(0, 2), Ok(vec![receipt(0, 1), receipt(1, 51)]));
    assert_eq!(it.receipts(51, 9), Ok(vec![receipt(2, 52)]));
}

#[test]
fn mistakes_are_answered() {
    let (mut it, tx) = (opened(), txs(1, 1)[0]);
    let late = Receipt { tx, stamp: 1 << 63 };
    assert_eq!(it.hear(2, &late), Ok(Taken::Beyond));
    assert_eq!(it.hear(N, &Receipt { tx, stamp: 1 }), Err(Error::BadNumber));
    assert_eq!(it.hear_clock(N, 1), Err(Error::BadNumber));
    assert_eq!(it.accepted(b"no block"), Ok(false));
    assert_eq!(it.standing(&tx), Ok(Standing::Unknown));
}
