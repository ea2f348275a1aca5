//! Five replicas, of which one may be faulty.

use super::played::{proposal_of, Call, PlayedDesk, ROOM};
use super::*;

/// An intake over a desk that notes its calls.
struct Set {
    it: Intake,
    desk: PlayedDesk,
}

fn closed() -> Set {
    let place = Place { me: 0, n: 5, f: 1, views: 100 };
    Set { it: Intake::new(place, true), desk: PlayedDesk::default() }
}

fn open() -> Set {
    let mut set = closed();
    set.it.open(&mut set.desk).unwrap();
    set
}

fn txs(client: u32, count: u32) -> Vec<Tx> {
    (0..count).map(|number| Tx { client, number, payload: 0 }).collect()
}

fn receipts(txs: &[Tx]) -> Vec<Receipt> {
    (1..).zip(txs).map(|(stamp, tx)| Receipt { tx: *tx, stamp }).collect()
}

impl Set {
    fn submit(&mut self, txs: &[Tx]) -> usize {
        self.it.submit(&mut self.desk, txs).unwrap()
    }

    fn hear(&mut self, peer: u32, txs: &[Tx], clock: u64) {
        self.it.hear(&mut self.desk, peer, receipts(txs), clock).unwrap();
    }

    fn accept(&mut self, block: &Bytes) {
        self.it.block_accepted(&mut self.desk, block).unwrap();
    }

    fn take(&mut self) -> Vec<Tx> {
        self.take_at(0)
    }

    fn take_at(&mut self, commit: u32) -> Vec<Tx> {
        self.it.arrivals(&mut self.desk, commit).unwrap()
    }

    fn calls(&mut self) -> Vec<Call> {
        std::mem::take(&mut self.desk.calls)
    }
}

#[test]
fn after_a_start_receipts_wait_for_the_clocks_of_peers() {
    let (mut set, own, theirs) = (closed(), txs(1, 1), txs(2, 1));
    set.it.restore(&mut set.desk, &txs(7, 1)).unwrap();
    assert_eq!((set.submit(&own), set.take()), (1, vec![]));
    set.hear(1, &theirs, 1000);
    set.hear(2, &[], 990);
    assert!(set.take().is_empty() && !set.it.is_open());
    assert_eq!(set.it.of_clients(), 1);
    set.hear(3, &[], 980); // n-f-1 peers were heard
    let clocks = [Call::Clock(1, 1000), Call::Clock(2, 990), Call::Clock(3, 980)];
    let stamped = [Call::Submit(own[0]), Call::Hear(1, theirs[0])];
    assert_eq!(set.calls(), [&[Call::Restore(txs(7, 1)[0])], &clocks[..], &stamped].concat());
    assert_eq!(set.take(), [own, theirs].concat());
    assert_eq!((set.it.arrived(), set.it.pending()), (3, 3));
}

#[test]
fn blocks_of_that_time_wait_too_and_those_of_the_log_if_they_name_something_new() {
    let (mut set, known, new) = (closed(), txs(1, 2), txs(2, 2));
    set.it.restore(&mut set.desk, &known).unwrap();
    for (view, lists) in [(1, [&known[..], &known]), (2, [&new, &new]), (3, [&known, &new])] {
        set.it.restore_block(&mut set.desk, &proposal_of(view, &lists)).unwrap();
    }
    set.accept(&proposal_of(4, &[&known]));
    set.calls();
    set.it.open(&mut set.desk).unwrap();
    assert_eq!(set.calls(), [Call::Accepted(2), Call::Accepted(4)]);
    assert_eq!(set.take(), new);
}

#[test]
fn the_library_is_asked_what_arrives_only_where_something_has_changed() {
    let mut set = open();
    let asks = |set: &mut Set| {
        set.take();
        set.calls().contains(&Call::Arrive)
    };
    assert!(asks(&mut set) && !asks(&mut set));
    set.submit(&txs(1, 1));
    assert!(asks(&mut set) && !asks(&mut set));
    set.submit(&txs(1, 1)); // received before
    assert!(!asks(&mut set));
    set.hear(2, &txs(1, 1), 0);
    assert!(asks(&mut set));
    set.it.chain_changed();
    assert!(asks(&mut set));
    set.it.finalised(&mut set.desk, &txs(1, 1)).unwrap();
    assert!(asks(&mut set) && !asks(&mut set));
}

#[test]
fn a_session_takes_no_more_than_a_trace() {
    let mut set = open();
    set.it.arrived = MAX_TAKEN - 1;
    set.submit(&txs(1, 200));
    assert_eq!(set.take().len(), ROOM);
    assert!(set.it.is_full());
    set.calls();
    set.it.chain_changed();
    assert!(set.take().is_empty());
    assert_eq!(set.calls(), [Call::ArriveProposed]);
    set.it.arrived = MAX_ARRIVED - MAX_ARRIVALS + 1;
    set.it.chain_changed();
    assert!(set.take().is_empty() && set.calls().is_empty());
}

#[test]
fn a_session_that_ends_takes_more_only_while_it_is_stuck() {
    let mut set = open();
    let arrives_at = |set: &mut Set, commit: u32| {
        set.it.chain_changed();
        set.calls();
        set.take_at(commit);
        set.calls().contains(&Call::Arrive)
    };
    set.submit(&txs(1, 1));
    assert!(arrives_at(&mut set, 20));
    set.it.end();
    assert!(!arrives_at(&mut set, 20) && !arrives_at(&mut set, 20 + STUCK_AFTER - 1));
    assert!(arrives_at(&mut set, 20 + STUCK_AFTER) && arrives_at(&mut set, 30));
    set.it.finalised(&mut set.desk, &txs(1, 1)).unwrap();
    assert!(!arrives_at(&mut set, 30) && !arrives_at(&mut set, 30 + STUCK_AFTER - 1));
    set.it.finalised(&mut set.desk, &[]).unwrap();
    assert!(arrives_at(&mut set, 30 + STUCK_AFTER));
    set.it.arrived = MAX_TAKEN;
    assert!(!arrives_at(&mut set, 40));
}

#[test]
fn final_ones_leave() {
    let mut set = open();
    set.submit(&txs(1, 3));
    set.take();
    assert_eq!((set.it.queued(), set.it.pending(), set.it.finals()), (3, 3, 0));
    set.it.finalised(&mut set.desk, &txs(1, 3)).unwrap();
    assert_eq!((set.it.queued(), set.it.pending(), set.it.finals()), (0, 0, 3));
    assert_eq!(set.submit(&txs(1, 3)), 0);
    set.hear(2, &txs(1, 3), 1);
    assert!(set.take().is_empty());
}

#[test]
fn what_was_received_and_heard_is_noted_in_its_order() {
    let (mut set, one, named) = (open(), txs(1, 1), txs(2, 1));
    set.hear(3, &one, 9);
    set.submit(&one);
    set.accept(&proposal_of(1, &[&named, &named]));
    set.hear(2, &named, 9);
    let (one, named) = (one[0], named[0]);
    let noted = [Note::Received(one), Note::Heard(3, one), Note::Received(named)];
    assert_eq!(set.it.take_notes(), [&noted[..], &[Note::Heard(2, named)]].concat());
    assert!(set.it.take_notes().is_empty());
}
