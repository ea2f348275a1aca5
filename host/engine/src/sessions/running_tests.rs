use super::*;
use crate::intake::played::PlayedDesk;
use crate::sessions::reserved::announcer;

const PLACE: Place = Place { me: 0, n: 5, f: 1, views: 100 };
const KEY: PublicKey = [9; 60];
const NOW: Time = Time::from_nanos(0);
const FRESH: Used = Used { commit: 10, arrived: 0 };
const HALF: Used = Used { commit: 51, arrived: 0 };

fn session() -> Session {
    let history = History { session: 3, ..History::new(vec![Some(KEY); 5]) };
    Session::new(PLACE, &history, &KEY)
}

fn agree(it: &mut Session, replicas: std::ops::Range<u32>) {
    replicas.for_each(|replica| it.take_batch(&announcement(replica, 4, &KEY)));
}

fn receipt(tx: Tx, stamp: u64) -> Receipt {
    Receipt { tx, stamp }
}

fn tx(number: u32) -> Tx {
    Tx { client: 1, number, payload: 0 }
}

#[test]
fn the_marker_arrives_once_the_session_is_used_up_by_half_and_all_keys_are_agreed() {
    let (mut it, mut desk) = (session(), PlayedDesk::default());
    agree(&mut it, 0..4);
    assert!(it.arrive(&mut desk, HALF, NOW).unwrap().is_empty());
    agree(&mut it, 4..5);
    assert!(it.arrive(&mut desk, FRESH, NOW).unwrap().is_empty());
    assert!(!it.is_ending(&mut desk).unwrap());
    assert_eq!(it.arrive(&mut desk, HALF, NOW).unwrap(), [marker(3)]);
    assert!(it.is_ending(&mut desk).unwrap());
    assert!(it.arrive(&mut desk, HALF, NOW).unwrap().is_empty()); // once
}

#[test]
fn it_also_comes_with_many_transactions_or_by_the_operator() {
    let many = Used { commit: 10, arrived: MAX_TAKEN / 4 * 3 + 1 };
    let (mut it, mut desk) = (session(), PlayedDesk::default());
    agree(&mut it, 0..5);
    assert_eq!(it.clone().arrive(&mut desk, many, NOW).unwrap(), [marker(3)]);
    it.want_end();
    let mut desk = PlayedDesk::default();
    assert_eq!(it.arrive(&mut desk, FRESH, NOW).unwrap(), [marker(3)]);
}

#[test]
fn the_keys_of_a_quorum_are_enough_after_a_while() {
    let mut desk = PlayedDesk::default();
    let (mut it, mut few) = (session(), session());
    agree(&mut it, 0..4);
    agree(&mut few, 0..3);
    for one in [&mut it, &mut few] {
        assert!(one.arrive(&mut desk, HALF, NOW).unwrap().is_empty());
    }
    let later = NOW + KEY_PATIENCE * 2;
    assert!(few.arrive(&mut desk, HALF, later).unwrap().is_empty());
    assert_eq!(it.clone().arrive(&mut desk, HALF, later).unwrap(), [marker(3)]);
    let late = Used { commit: 76, arrived: 0 };
    let mut desk = PlayedDesk::default();
    assert_eq!(it.arrive(&mut desk, late, NOW).unwrap(), [marker(3)]);
}

/// The key of a replica that is out may be one that it announced before it lost its store.
#[test]
fn the_key_of_a_replica_that_is_out_does_not_stand_in_for_another() {
    let (mut it, mut desk) = (session(), PlayedDesk::default());
    let later = NOW + KEY_PATIENCE * 2;
    it.note_out(2);
    agree(&mut it, 0..4);
    for (used, now) in [(HALF, NOW), (HALF, later), (Used { commit: 76, arrived: 0 }, later)] {
        assert!(it.arrive(&mut desk, used, now).unwrap().is_empty());
    }
    agree(&mut it, 4..5);
    assert_eq!(it.arrive(&mut desk, HALF, later).unwrap(), [marker(3)]);
}

/// A session in which little happens may last for days, and without a replica no other may fail.
#[test]
fn a_session_without_one_of_the_replicas_ends_once_that_can_be_in_the_next() {
    let mut keys = vec![Some(KEY); 5];
    keys[2] = None;
    let history = History { session: 3, ..History::new(keys) };
    let mut lacking = Session::new(PLACE, &history, &KEY);
    let (mut whole, mut desk) = (session(), PlayedDesk::default());
    let later = NOW + REJOIN_AFTER * 2;
    for it in [&mut lacking, &mut whole] {
        agree(it, 0..4);
        assert!(it.arrive(&mut desk, FRESH, NOW).unwrap().is_empty());
        assert!(it.arrive(&mut desk, FRESH, later).unwrap().is_empty()); // its key is not agreed
        agree(it, 4..5);
        assert!(it.arrive(&mut desk, FRESH, NOW + REJOIN_AFTER / 2).unwrap().is_empty());
    }
    assert!(whole.arrive(&mut desk, FRESH, later).unwrap().is_empty());
    assert_eq!(lacking.arrive(&mut desk, FRESH, later).unwrap(), [marker(3)]);
}

/// A replica that lost its log or its store has a key here, so it has to say that it is out.
#[test]
fn a_session_of_which_a_replica_is_out_ends_after_a_while() {
    let (mut it, mut desk) = (session(), PlayedDesk::default());
    let later = NOW + REJOIN_AFTER * 2;
    it.note_out(2);
    agree(&mut it, 0..2);
    agree(&mut it, 3..4);
    assert!(it.arrive(&mut desk, FRESH, NOW).unwrap().is_empty());
    assert!(it.arrive(&mut desk, FRESH, later).unwrap().is_empty()); // too few can run the next one
    agree(&mut it, 4..5);
    assert!(it.arrive(&mut desk, FRESH, NOW + REJOIN_AFTER / 2).unwrap().is_empty());
    assert_eq!(it.arrive(&mut desk, FRESH, later).unwrap(), [marker(3)]);
    // Its own key is no substitute for that of another, and the next session needs a quorum.
    for (out, agreed) in [(vec![2], 0..4), (vec![3, 4], 0..3)] {
        let (mut it, mut desk) = (session(), PlayedDesk::default());
        out.into_iter().for_each(|peer| it.note_out(peer));
        agree(&mut it, agreed);
        for now in [NOW, later] {
            assert!(it.arrive(&mut desk, FRESH, now).unwrap().is_empty());
        }
    }
}

#[test]
fn it_comes_on_the_word_of_more_than_f_peers_and_not_of_one() {
    let (mut it, mut desk) = (session(), PlayedDesk::default());
    let other = receipt(marker(2), 1);
    for peer in [1, 1, 1] {
        let heard = vec![receipt(marker(3), 7), other];
        assert!(it.sift(&mut desk, peer, heard).unwrap().is_empty());
    }
    assert!(it.sift(&mut desk, 2, vec![other]).unwrap().is_empty());
    assert!(it.arrive(&mut desk, FRESH, NOW).unwrap().is_empty());
    it.sift(&mut desk, 2, vec![receipt(marker(3), 8)]).unwrap();
    assert_eq!(it.arrive(&mut desk, FRESH, NOW).unwrap(), [marker(3)]);
    let heard = |peer| crate::intake::played::Call::Hear(peer, marker(3));
    assert!(desk.calls.contains(&heard(1)) && desk.calls.contains(&heard(2)));
}

#[test]
fn a_part_of_a_key_is_taken_from_its_replica_alone_and_once() {
    let (mut it, mut desk) = (session(), PlayedDesk::default());
    let part = announcement(2, 4, &KEY)[0];
    let other = Tx { payload: 1, ..part };
    let of_next = announcement(2, 5, &KEY)[0];
    it.sift(&mut desk, 3, vec![receipt(part, 1)]).unwrap();
    assert!(it.arrive(&mut desk, FRESH, NOW).unwrap().is_empty());
    it.sift(&mut desk, 2, vec![receipt(of_next, 1), receipt(part, 2), receipt(other, 3)]).unwrap();
    assert_eq!(it.arrive(&mut desk, FRESH, NOW).unwrap(), [part]);
    assert_eq!(desk.standing(&other).unwrap(), Standing::Unknown);
}

/// A part that came too late for the session before has arrived at one replica alone. There it would
/// be carried over for ever.
#[test]
fn a_part_that_came_too_late_is_taken_from_any_peer_until_it_is_final() {
    let (mut it, mut desk) = (session(), PlayedDesk::default());
    let late = announcement(2, 3, &KEY);
    it.take_batch(&late[..1]);
    let heard = |txs: &[Tx]| txs.iter().map(|tx| receipt(*tx, 1)).collect::<Vec<_>>();
    assert!(it.sift(&mut desk, 1, heard(&late)).unwrap().is_empty());
    assert_eq!(it.arrive(&mut desk, FRESH, NOW).unwrap(), late[1..]);
    // Told again, it is known; another value of a part that is final is refused, also by a window
    // that has moved on.
    let other = Tx { payload: 1, ..late[0] };
    it.sift(&mut desk, 3, [heard(&late), heard(&[other])].concat()).unwrap();
    assert!(it.arrive(&mut desk, FRESH, NOW).unwrap().is_empty());
    it.take_batch(&announcement(2, 900, &KEY));
    it.sift(&mut desk, 3, heard(&announcement(2, 2, &KEY))).unwrap();
    assert!(it.arrive(&mut desk, FRESH, NOW).unwrap().is_empty());
    // A key of the next session is taken from its replica alone, and of what is made up few are.
    it.sift(&mut desk, 3, heard(&announcement(1, 4, &KEY))).unwrap();
    let made_up: Vec<_> =
        (0..1000).map(|payload| Tx { payload, ..announcement(4, 1, &KEY)[0] }).collect();
    it.sift(&mut desk, 3, heard(&made_up)).unwrap();
    assert_eq!(it.arrive(&mut desk, FRESH, NOW).unwrap(), made_up[..MAX_STALE]);
    let unused = Tx { number: 8 * 3 + 6, ..late[0] };
    it.sift(&mut desk, 1, heard(&[unused])).unwrap();
    assert!(it.arrive(&mut desk, FRESH, NOW).unwrap().is_empty());
}

/// It was carried over from a cluster that had more replicas.
#[test]
fn a_part_of_a_replica_that_is_not_there_any_more_is_taken_too() {
    let (mut it, mut desk) = (session(), PlayedDesk::default());
    let late = announcement(PLACE.n, 3, &KEY);
    it.sift(&mut desk, 1, late.iter().map(|tx| receipt(*tx, 1)).collect()).unwrap();
    assert_eq!(it.arrive(&mut desk, FRESH, NOW).unwrap(), late);
    // Nobody announces a key for it.
    let next = announcement(PLACE.n, 4, &KEY);
    it.sift(&mut desk, 1, next.iter().map(|tx| receipt(*tx, 1)).collect()).unwrap();
    assert!(it.arrive(&mut desk, FRESH, NOW).unwrap().is_empty());
}

#[test]
fn one_peer_keeps_few_stamps() {
    let (mut it, mut desk) = (session(), PlayedDesk::default());
    let txs = (0..1000).map(|payload| Tx { client: announcer(2), number: 32, payload });
    it.sift(&mut desk, 3, txs.map(|tx| receipt(tx, 1)).collect()).unwrap();
    assert_eq!(it.heard.len(), PARTS * 5 + 1);
}

#[test]
fn the_own_key_is_announced_unless_the_session_ends() {
    let (mut it, mut desk) = (session(), PlayedDesk::default());
    it.announce(&KEY);
    assert_eq!(it.arrive(&mut desk, FRESH, NOW).unwrap(), announcement(0, 4, &KEY));
    let (mut it, mut desk) = (session(), PlayedDesk::default());
    desk.restore(&marker(3)).unwrap();
    it.announce(&KEY);
    assert!(it.arrive(&mut desk, FRESH, NOW).unwrap().is_empty());
}

/// Of the transactions that the store is asked for, it has these. Which of them are heard then?
fn searched(it: &mut Session, finals: &[Tx]) -> Vec<Tx> {
    let search = it.search(NOW).expect("the store is asked");
    let answer = search.searched(&finals.iter().copied().collect());
    it.take_searched(answer).into_iter().map(|(_, receipt)| receipt.tx).collect()
}

/// A client uses a number twice. One transaction is final, and the other has arrived at a peer alone.
/// There it would be carried over for ever.
#[test]
fn a_double_is_heard_once_the_store_was_asked() {
    let (mut it, mut desk) = (session(), PlayedDesk::default());
    it.take_batch(&[tx(1), tx(3)]);
    let (below, within) = (Tx { payload: 5, ..tx(1) }, Tx { payload: 5, ..tx(3) });
    let heard = || vec![receipt(below, 1), receipt(within, 2)];
    for _ in 0..2 {
        assert!(it.sift(&mut desk, 1, heard()).unwrap().is_empty());
    }
    assert_eq!(searched(&mut it, &[below]), [within]);
    assert!(it.search(NOW).is_none());
    desk.restore(&within).unwrap(); // what is known here needs no search
    assert_eq!(it.sift(&mut desk, 2, heard()).unwrap(), [receipt(within, 2)]);
    assert_eq!(searched(&mut it, &[]), [below]);
    // What a window refuses for another reason is not asked for.
    it.sift(&mut desk, 1, vec![receipt(tx(0), 1), receipt(tx(5000), 2)]).unwrap();
    assert!(it.search(NOW).is_none());
}

/// A replica shows two keys: one value of a part is final, and the other has arrived at a peer alone.
#[test]
fn another_value_of_a_part_is_taken_once_the_store_was_asked() {
    let (mut it, mut desk) = (session(), PlayedDesk::default());
    let parts = announcement(2, 3, &KEY);
    it.take_batch(&parts);
    let other = |part: usize| Tx { payload: 1, ..parts[part] };
    let heard = vec![receipt(parts[0], 1), receipt(other(1), 2), receipt(other(2), 3)];
    assert!(it.sift(&mut desk, 1, heard).unwrap().is_empty());
    assert!(it.arrive(&mut desk, FRESH, NOW).unwrap().is_empty());
    assert!(searched(&mut it, &[parts[0], other(1)]).is_empty());
    assert_eq!(it.arrive(&mut desk, FRESH, NOW).unwrap(), [other(2)]);
}

/// From session 128 on, numbers of a late key are above its replica's window: each has gaps before it.
#[test]
fn a_late_part_above_the_window_is_taken_once_the_store_was_asked() {
    let mut history = History { session: 200, ..History::new(vec![Some(KEY); 5]) };
    for tx in announcement(2, 199, &KEY) {
        history.windows.settle(&tx);
    }
    let (mut it, mut desk) = (Session::new(PLACE, &history, &KEY), PlayedDesk::default());
    let late = announcement(2, 200, &KEY);
    it.sift(&mut desk, 1, late.iter().map(|tx| receipt(*tx, 1)).collect()).unwrap();
    assert!(searched(&mut it, &[]).is_empty());
    assert_eq!(it.arrive(&mut desk, FRESH, NOW).unwrap(), late);
}

#[test]
fn what_a_window_refuses_is_not_heard() {
    let (mut it, mut desk) = (session(), PlayedDesk::default());
    it.take_batch(&[tx(1)]);
    let heard = vec![receipt(tx(1), 1), receipt(tx(2), 2), receipt(tx(5000), 3)];
    assert_eq!(it.sift(&mut desk, 1, heard).unwrap(), [receipt(tx(2), 2)]);
    desk.restore(&tx(5000)).unwrap(); // what is known here gets its stamps
    assert_eq!(it.sift(&mut desk, 1, vec![receipt(tx(5000), 3)]).unwrap().len(), 1);
    assert_eq!(it.check(&marker(3)), Check::Reserved);
    assert_eq!((it.check(&tx(1)), it.check(&tx(2))), (Check::BelowWindow, Check::New));
}

#[test]
fn the_batch_with_the_marker_is_the_last() {
    let mut it = session();
    it.take_batch(&[tx(1), marker(2)]);
    assert!(!it.is_cut());
    it.take_batch(&[tx(2), marker(3)]);
    assert!(it.is_cut());
    assert_eq!(it.batches().len(), 2);
}
