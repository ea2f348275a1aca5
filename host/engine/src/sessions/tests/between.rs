//! What waits over a change of session.

use themis::Receipt;

use super::*;
use crate::intake::{Source, Waiting};
use crate::sessions::between::MAX_TOLD;

fn of_client(client: u32, numbers: std::ops::Range<u32>) -> Vec<Tx> {
    numbers.map(|number| Tx { client, number, payload: 0 }).collect()
}

fn submit(it: &mut Sessions<Played>, ticket: Ticket, txs: Vec<Tx>) {
    it.take(Input::Submit { ticket, txs }, NOW).unwrap();
}

/// Goes on to session 1.
fn go_on(it: &mut Sessions<Played>) {
    let Output::Store(store) = only(steps(it)) else { panic!("nothing is stored") };
    it.take(Input::Stored(store.stored()), NOW).unwrap();
    open_log(it, Played::default());
    mark(it);
}

#[test]
fn one_client_fills_not_all_places_while_no_session_runs() {
    let mut it = cut();
    let Output::Store(_) = only(steps(&mut it)) else { panic!() };
    submit(&mut it, 50, of_client(5, 1..1001));
    submit(&mut it, 51, of_client(5, 1001..1002));
    submit(&mut it, 52, of_client(6, 1..1001));
    assert_eq!(answers(&mut it), [(51, Answer::Busy)]);
    for client in 7..21 {
        submit(&mut it, 53, of_client(client, 1..1001));
    }
    assert_eq!(answers(&mut it), []);
    submit(&mut it, 54, of_client(21, 1..2));
    assert_eq!(answers(&mut it), [(54, Answer::Busy)]);
}

#[test]
fn what_is_submitted_twice_while_no_session_runs_waits_once() {
    let mut it = cut();
    submit(&mut it, 50, vec![tx(5)]);
    submit(&mut it, 51, vec![tx(5), tx(6)]);
    go_on(&mut it);
    open_intake(&mut it, 1);
    work(&mut it, NOW + LATER);
    let told = [(50, Answer::Ok { new: 1, old: 0 }), (51, Answer::Ok { new: 1, old: 1 })];
    assert_eq!(answers(&mut it), told);
}

/// A replica to which peer 1 told of 1,200 transactions before its session was cut, and a client of 20.
fn told() -> Sessions<Played> {
    let options = Options { max_waiting: 100, max_of_client: 50, ..Options::default() };
    let mut it = Sessions::open(PLACE, options, fresh(), NOW);
    open_log(&mut it, core_with(&batches_to_the_cut(0)));
    mark(&mut it);
    open_intake(&mut it, 0);
    for client in 20..32 {
        let txs = of_client(client, 1..101);
        let receipts = txs.into_iter().map(|tx| Receipt { tx, stamp: 7 }).collect();
        let frame = Frame::Receipts { clock: 7, receipts };
        it.take(
            Input::Frame { peer: 1, frame: SessionFrame::In { session: 0, frame }, room: 0 },
            NOW,
        )
        .unwrap();
    }
    submit(&mut it, 7, of_client(7, 1..21));
    it.outputs();
    (0..3).for_each(|_| hear(&mut it, 1, vote(1, 0), NOW));
    it
}

fn queued(it: &mut Sessions<Played>) -> usize {
    it.status(NOW).engine.unwrap().queued
}

/// They come in their places, but take up none of the own clients', nor of the clients that they name;
/// and they are bounded, over any number of sessions.
#[test]
fn what_a_peer_told_of_counts_as_its_own_over_a_change_of_session() {
    let mut it = told();
    let carried = 96; // what had arrived
    go_on(&mut it);
    open_intake(&mut it, 1);
    assert_eq!(queued(&mut it), carried + MAX_TOLD + 20);
    it.outputs();
    // The own client has 20 waiting, and there is room for 80 more.
    submit(&mut it, 30, of_client(7, 21..51));
    submit(&mut it, 31, of_client(20, 101..151));
    assert_eq!(answers(&mut it), []);
    submit(&mut it, 32, of_client(7, 51..52));
    submit(&mut it, 33, of_client(8, 1..2));
    assert_eq!(answers(&mut it), [(32, Answer::Busy), (33, Answer::Busy)]);
    let waiting = it.running().unwrap().take_waiting().unwrap().0;
    let of_peer = |it: &&Waiting| it.source == Source::Peer(1);
    assert_eq!(waiting.iter().filter(of_peer).count(), MAX_TOLD);
}

/// What the library has no room for never arrives.
#[test]
fn who_finds_no_room_in_the_library_hears_busy() {
    let mut it = cut();
    submit(&mut it, 50, vec![tx(5)]);
    submit(&mut it, 51, vec![tx(6), tx(7)]);
    go_on(&mut it);
    it.running().unwrap().core_mut().desk.own_room = 2;
    open_intake(&mut it, 1);
    work(&mut it, NOW + LATER);
    let told = [(51, Answer::Busy), (50, Answer::Ok { new: 1, old: 0 })];
    assert_eq!(answers(&mut it), told);
}
