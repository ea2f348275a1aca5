//! The engine over a core that a test plays.

use super::*;
use crate::clients::Answer;
use crate::core::tests::log_of;
use crate::engine::{Input, Output, Restored};
use crate::frame::{Frame, Receipt, Standing};
use crate::intake::played::{proposal_of, Call, PlayedDesk};
use crate::recent::{Heard, View};
use crate::setting::{Options, Place};
use crate::tx;
use themis::{Message, Reason};

#[path = "bounds_tests.rs"]
mod bounds;
#[path = "ticks_tests.rs"]
mod ticks;

/// Accepts all but what `refuses` names, and sends what `sends` holds next.
#[derive(Default)]
struct Played {
    prepared: VecDeque<Event>,
    acted: Vec<Event>,
    refuses: Option<(Vec<u8>, Reason)>,
    sends: Vec<Message>,
    /// Blocks that it has, as Gives.
    gives: Vec<Vec<u8>>,
    /// Views that it has left.
    left: u32,
    desk: PlayedDesk,
}

impl Played {
    fn refusal(&self, it: &Delivered) -> Option<Reason> {
        let refused = self.refuses.as_ref().filter(|(data, _)| it.data.starts_with(data));
        refused.map(|(_, reason)| *reason)
    }
}

impl Core for Played {
    type Desk = PlayedDesk;

    fn desk(&mut self) -> &mut PlayedDesk {
        &mut self.desk
    }

    fn prepare(&mut self, event: &Event) -> Result<Vec<u8>, Error> {
        self.prepared.push_back(event.clone());
        Ok(vec![7])
    }

    fn would_change(&mut self, it: &Delivered) -> Result<bool, Error> {
        Ok(self.refusal(it).is_none())
    }

    fn act(&mut self) -> Result<Turn, Error> {
        let event = self.prepared.pop_front().ok_or(Error::Unready)?;
        let refusal = match &event {
            Event::Delivered(it) => self.refusal(it),
            Event::Arrived(_) | Event::Tick(_) => None,
        };
        let reason = refusal.unwrap_or(Reason::Done);
        self.acted.push(event);
        Ok(Turn::Made(reason))
    }

    fn sends(&mut self) -> Result<Vec<Message>, Error> {
        Ok(std::mem::take(&mut self.sends))
    }

    fn batch_count(&mut self) -> Result<usize, Error> {
        Ok(0)
    }

    fn batch(&mut self, _: usize) -> Result<Vec<Tx>, Error> {
        Err(Error::NoneThere)
    }

    fn views(&mut self) -> Result<(u32, u32), Error> {
        Ok((1 + self.left, 0))
    }

    fn give_count(&mut self, _: u32) -> Result<usize, Error> {
        Ok(self.gives.len())
    }

    fn give(&mut self, _: u32, at: usize) -> Result<Vec<u8>, Error> {
        self.gives.get(at).cloned().ok_or(Error::NoneThere)
    }
}

const NOW: Time = Time::from_nanos(0);
/// A vote of replica 1, for the leader of view 5.
const VOTE: &[u8] = &[2, 5, 1, 0, 0, 0, 4];
/// One of replica 2.
const OTHER_VOTE: &[u8] = &[2, 5, 2, 0, 0, 0, 4];

fn engine(options: Options) -> Engine<Played> {
    let place = Place { me: 0, n: 5, f: 1, views: 100 };
    Engine::open(place, options, Played::default(), Restored::default(), NOW).unwrap()
}

fn hears(it: &mut Engine<Played>, peer: u32, frame: Frame) {
    it.take(Input::Frame { peer, frame, room: 1 << 20 }, NOW).unwrap();
}

fn message(data: &[u8]) -> Frame {
    Frame::Message(Bytes::copy_from_slice(data))
}

/// It has heard the clocks of n-f-1 peers.
fn opened(it: &mut Engine<Played>) {
    (1..4).for_each(|peer| hears(it, peer, Frame::Receipts { clock: 0, receipts: Vec::new() }));
}

/// All turns on what waits.
fn work(it: &mut Engine<Played>, now: Time) {
    while let Some(pending) = it.prepare(now).unwrap() {
        it.durable(pending);
        while it.turn(now).unwrap() {}
    }
}

fn messages_sent(it: &mut Engine<Played>) -> usize {
    let is_message = |it: &&Output| matches!(it, Output::Send { frame, .. } if frame[4] == 1);
    it.outputs().iter().filter(is_message).count()
}

#[test]
fn nothing_is_sent_before_its_record_is_durable() {
    let mut it = engine(Options::default());
    it.core_mut().sends = vec![Message { to: 1, bytes: VOTE.to_vec() }];
    hears(&mut it, 1, message(VOTE));
    let pending = it.prepare(NOW).unwrap().unwrap();
    assert_eq!(pending.records(), [7]);
    hears(&mut it, 2, message(OTHER_VOTE));
    assert!(it.prepare(NOW).unwrap().is_none(), "one group at a time");
    assert!(!it.turn(NOW).unwrap());
    assert_eq!(messages_sent(&mut it), 0);
    it.durable(pending);
    assert!(it.prepare(NOW).unwrap().is_none(), "the turns come first");
    assert!(it.turn(NOW).unwrap() && !it.turn(NOW).unwrap());
    assert_eq!(messages_sent(&mut it), 1);
    assert!(it.prepare(NOW).unwrap().is_some());
}

#[test]
fn a_client_hears_ok_once_its_transaction_is_durable() {
    let mut it = engine(Options::default());
    opened(&mut it);
    let txs = vec![tx::parse("1.1.0").unwrap()];
    it.take(Input::Submit { ticket: 3, txs }, NOW).unwrap();
    let pending = it.prepare(NOW).unwrap().unwrap();
    let is_answer = |it: &Output| matches!(it, Output::Answer(3, _));
    assert!(!it.outputs().iter().any(is_answer));
    it.durable(pending);
    assert!(it.outputs().iter().any(is_answer));
}

#[test]
fn what_operators_see_of_transactions_and_peers() {
    let mut it = engine(Options::default());
    opened(&mut it);
    let tx = tx::parse("1.1.0").unwrap();
    for ticket in [3, 4] {
        it.take(Input::Submit { ticket, txs: vec![tx] }, NOW).unwrap();
    }
    let received: Vec<Output> =
        it.outputs().into_iter().filter(|it| matches!(it, Output::Received(_))).collect();
    assert_eq!(received, [Output::Received(vec![tx])], "once, although it came twice");
    let standing = Standing { view: 7, commit: 5, waiting: 1, batches: 9 };
    hears(&mut it, 2, Frame::Status(standing));
    let later = Duration::from_secs(2);
    let heard = it.peers_heard(NOW + later);
    assert_eq!(heard.iter().map(|it| it.peer).collect::<Vec<_>>(), [1, 2, 3, 4]);
    let two = Heard { peer: 2, age: Some(later), is_heard: false, standing };
    assert_eq!((heard[1], heard[0].age), (two, None));
    assert!(it.peers_heard(NOW)[1].is_heard);
}

#[test]
fn a_view_has_failed_without_a_block() {
    let mut it = engine(Options::default());
    let has_block = |it: &Engine<Played>| it.recent_views()[0].has_block;
    let first = View { number: 1, leader: 1, has_block: false };
    assert_eq!(it.recent_views(), [first]);
    let block = proposal_of(1, &[&burst()[..1]; 4]);
    it.core_mut().refuses = Some((block.to_vec(), Reason::Misfit));
    hears(&mut it, 1, Frame::Message(block.clone()));
    work(&mut it, NOW);
    assert!(!has_block(&it));
    it.core_mut().refuses = None;
    hears(&mut it, 1, Frame::Message(block));
    work(&mut it, NOW);
    assert!(has_block(&it));
}

#[test]
fn a_refused_vote_is_delivered_again_once_its_block_is_stored() {
    let mut it = engine(Options::default());
    it.core_mut().refuses = Some((VOTE.to_vec(), Reason::Orphan));
    hears(&mut it, 1, message(VOTE));
    work(&mut it, NOW);
    let votes = |it: &mut Engine<Played>| {
        let is_vote = |it: &&Event| matches!(it, Event::Delivered(it) if it.data == VOTE);
        it.core_mut().acted.iter().filter(is_vote).count()
    };
    assert_eq!(votes(&mut it), 1);
    it.core_mut().refuses = None;
    hears(&mut it, 4, message(&[2, 4, 4, 0, 0, 0, 4, 0, 0, 0, 3]));
    work(&mut it, NOW);
    assert_eq!(votes(&mut it), 2);
    work(&mut it, NOW);
    assert_eq!(votes(&mut it), 2, "it waits no more");
}

#[test]
fn an_early_ask_waits_unless_the_guard_is_off() {
    let ask = message(&[2, 2, 1, 0, 0, 0, 91]);
    for (hold_asks, expected) in [(true, 0), (false, 1)] {
        let mut it = engine(Options { hold_asks, ..Options::default() });
        hears(&mut it, 1, ask.clone());
        work(&mut it, NOW);
        let is_ask = |it: &&Event| matches!(it, Event::Delivered(it) if it.data[1] == 2);
        assert_eq!(it.core_mut().acted.iter().filter(is_ask).count(), expected);
    }
}

#[test]
fn a_block_that_nobody_asked_for_is_dropped_and_counted() {
    let mut it = engine(Options::default());
    let give = [&[2, 7], &proposal()[3..]].concat();
    (0..3).for_each(|_| hears(&mut it, 2, message(&give)));
    work(&mut it, NOW);
    assert!(it.core_mut().acted.is_empty());
    assert_eq!(it.counters.peers[2].gives_dropped, 3);
    asks_for_blocks(&mut it, 2);
    hears(&mut it, 2, message(&give));
    work(&mut it, NOW);
    assert_eq!(it.core_mut().acted.len(), 1);
}

/// It asks a peer for the blocks that it misses.
fn asks_for_blocks(it: &mut Engine<Played>, peer: u32) {
    assert!(it.catch_up.follow_orphan(peer, 0, 0, NOW).is_some());
}

#[test]
fn a_block_that_was_proposed_is_not_taken_again() {
    let mut it = engine(Options::default());
    asks_for_blocks(&mut it, 2);
    let proposal = proposal();
    hears(&mut it, 1, Frame::Message(proposal.clone()));
    work(&mut it, NOW);
    let give = [&[2, 7], &proposal[3..]].concat();
    let acted = it.core_mut().acted.len();
    hears(&mut it, 2, message(&give));
    work(&mut it, NOW);
    assert_eq!(it.core_mut().acted.len(), acted);
    let other = proposal_of(7, &[]);
    hears(&mut it, 2, message(&[&[2, 7], &other[3..]].concat()));
    work(&mut it, NOW);
    assert_eq!(it.core_mut().acted.len(), acted + 1);
}

/// A record was durable, and its turn refused the block, after another one of its group.
#[test]
fn a_logged_block_that_the_core_lacks_is_taken_after_a_restart() {
    let place = Place { me: 0, n: 5, f: 1, views: 100 };
    let give = [&[2, 7], &proposal()[3..]].concat();
    for logged in [&proposal()[..], &give] {
        let log = log_of(72, &[&[&[2, 1], logged].concat()]);
        for (gives, taken) in [(vec![give.clone()], 0), (vec![], 1)] {
            let core = Played { gives, ..Played::default() };
            let restored = Restored { log: &log, header: 72, ..Restored::default() };
            let mut it = Engine::open(place, Options::default(), core, restored, NOW).unwrap();
            asks_for_blocks(&mut it, 2);
            hears(&mut it, 2, message(&give));
            work(&mut it, NOW);
            assert_eq!(it.core_mut().acted.len(), taken);
        }
    }
}

fn burst() -> Vec<Tx> {
    (0..400).map(|number| Tx { client: 1, number, payload: 0 }).collect()
}

/// A proposal of view 6 that proposes the first of a burst.
fn proposal() -> Bytes {
    let txs = &burst()[..96];
    proposal_of(6, &[txs; 4])
}

/// 96 of a burst arrive, which a proposal of a peer then proposes.
fn burst_and_proposal(it: &mut Engine<Played>) {
    let receipts: Vec<_> = (1..).zip(burst()).map(|(stamp, tx)| Receipt { tx, stamp }).collect();
    for peer in 1..5 {
        hears(it, peer, Frame::Receipts { clock: 400, receipts: receipts.clone() });
    }
    work(it, NOW);
    hears(it, 1, message(&proposal()));
    work(it, NOW);
}

/// The same of a replica that refuses the proposal.
fn arrived_after(refusal: Option<Reason>) -> Engine<Played> {
    let mut it = engine(Options::default());
    it.core_mut().refuses = refusal.map(|it| (proposal().to_vec(), it));
    burst_and_proposal(&mut it);
    it
}

/// A proposal that the core refuses says nothing about what will be proposed: the attack that
/// stopped a session by claims in proposals that are none.
#[test]
fn a_refused_proposal_lets_nothing_arrive() {
    let arrived = |it: &Engine<Played>| it.status(NOW).arrived;
    assert_eq!(arrived(&arrived_after(Some(Reason::BadSeal))), 96);
    assert_eq!(arrived(&arrived_after(None)), 192);
}

/// While views fail, what waits does not arrive: to let it costs the core seconds then.
#[test]
fn nothing_more_arrives_while_views_fail() {
    let arrived_at = |left| {
        let mut it = engine(Options::default());
        it.core_mut().left = left; // known after a turn
        burst_and_proposal(&mut it);
        it.status(NOW).arrived
    };
    assert_eq!([arrived_at(5), arrived_at(20)], [192, 96]);
}

#[test]
fn what_a_proposal_proposes_makes_room_before_its_turn() {
    let mut it = arrived_after(None);
    let acted = &it.core_mut().acted;
    let [.., Event::Arrived(second), Event::Delivered(_)] = &acted[..] else {
        panic!("{acted:?}");
    };
    assert_eq!(second[..], burst()[96..192]);
}

#[test]
fn what_was_final_in_earlier_sessions_is_not_taken_again() {
    let (place, txs) = (Place { me: 0, n: 5, f: 1, views: 100 }, burst());
    let (settled, carried) = (txs[..3].to_vec(), txs[..4].to_vec());
    let restored = Restored { settled, carried, ..Restored::default() };
    let played = Played::default();
    let mut it = Engine::open(place, Options::default(), played, restored, NOW).unwrap();
    opened(&mut it);
    let calls = &it.core_mut().desk.calls;
    assert_eq!(calls.first(), Some(&Call::Settle(3)));
    assert_eq!(calls.last(), Some(&Call::Submit(txs[3])));
    work(&mut it, NOW);
    assert_eq!(it.status(NOW).arrived, 1);
}

/// The attack that starved all others: what one client has waiting is bounded, so the others wait for
/// that much at most, also where the replica has room for more.
#[test]
fn a_client_that_has_much_waiting_keeps_nobody_else_out() {
    let mut it = engine(Options { max_of_client: 200, ..Options::default() });
    opened(&mut it);
    let of = |client: u32, count: u32| -> Vec<Tx> {
        (0..count).map(|number| Tx { client, number, payload: 0 }).collect()
    };
    let mut refused = |ticket, txs| {
        it.take(Input::Submit { ticket, txs }, NOW).unwrap();
        it.outputs().contains(&Output::Answer(ticket, Answer::Busy))
    };
    assert!(refused(1, of(1, 201)));
    assert!(!refused(2, of(1, 200)));
    assert!(refused(3, of(1, 201)[200..].to_vec()));
    assert!(!refused(4, of(2, 200)));
}

#[test]
fn all_clients_together_have_a_bound() {
    let mut it = engine(Options { max_waiting: 3, ..Options::default() });
    opened(&mut it);
    for client in 1..=4 {
        let txs = vec![Tx { client, number: 0, payload: 0 }];
        it.take(Input::Submit { ticket: client.into(), txs }, NOW).unwrap();
        let is_busy = it.outputs().contains(&Output::Answer(client.into(), Answer::Busy));
        assert_eq!(is_busy, client == 4);
    }
}

#[test]
fn each_peer_is_told_in_order_and_from_the_start_on_a_new_connection() {
    let mut it = engine(Options { max_of_client: 1500, ..Options::default() });
    opened(&mut it);
    let told = |it: &mut Engine<Played>, peer: u32, at: u64| -> Vec<(u64, usize)> {
        work(it, NOW + Duration::from_millis(at));
        let outputs = it.outputs().into_iter();
        let frames = outputs.filter_map(|it| match it {
            Output::Send { to, frame } if to == peer => {
                Frame::decode(frame[4], frame.slice(5..)).ok()
            }
            _ => None,
        });
        let receipts = frames.filter_map(|it| match it {
            Frame::Receipts { clock, receipts } => Some((clock, receipts.len())),
            _ => None,
        });
        receipts.collect()
    };
    assert_eq!(told(&mut it, 1, 20), []);
    it.take(Input::Connected(1), NOW).unwrap();
    assert_eq!(told(&mut it, 1, 40), [(0, 0)]); // the clock alone
    let txs: Vec<_> = (0..1500).map(|number| Tx { client: 1, number, payload: 0 }).collect();
    it.take(Input::Submit { ticket: 1, txs }, NOW).unwrap();
    assert_eq!(told(&mut it, 1, 60), [(1500, 1024)]);
    assert_eq!(told(&mut it, 1, 80), [(1500, 476)]);
    assert_eq!(told(&mut it, 1, 100), []);
    it.take(Input::Connected(2), NOW).unwrap();
    assert_eq!(told(&mut it, 1, 120), []);
    it.take(Input::Connected(1), NOW).unwrap();
    assert_eq!(told(&mut it, 1, 140), [(1500, 1024)]);
}

#[test]
fn receipts_are_stamped_a_second_after_a_start_at_the_latest() {
    let mut it = engine(Options::default());
    it.take(Input::Submit { ticket: 1, txs: burst()[..3].to_vec() }, NOW).unwrap();
    work(&mut it, NOW + Duration::from_secs(1));
    assert_eq!(it.status(NOW).arrived, 0);
    work(&mut it, NOW + Duration::from_millis(1011));
    assert_eq!(it.status(NOW).arrived, 3);
}
