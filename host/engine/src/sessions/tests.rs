//! Sessions over cores that a test plays.

mod doubles;
mod returning;

use std::collections::VecDeque;
use std::time::Duration;

use themis::{Error, Message, Reason, Tx};

use super::frames::HistoryPart;
use super::history::{History, MadeAgain, Restart};
use super::keys::announcement;
use super::reserved::marker;
use super::*;
use crate::core::{Core, Delivered, Event, Turn};
use crate::frame::{Frame, Standing};
use crate::intake::played::PlayedDesk;
use crate::setting::{Options, Place};
use crate::time::Time;
use crate::window::Check;

mod ahead;
mod between;
mod cut;
mod ending;
mod help;
mod last;

const PLACE: Place = Place { me: 0, n: 5, f: 1, views: 100 };
const KEY: PublicKey = [9; 60];
const NOW: Time = Time::from_nanos(0);
const LATER: Duration = Duration::from_secs(1);

/// Each message is a block that makes one more of these batches final.
#[derive(Debug, Default)]
struct Played {
    prepared: VecDeque<Event>,
    acted: Vec<Event>,
    batches: Vec<Vec<Tx>>,
    finals: usize,
    sends: Vec<Message>,
    desk: PlayedDesk,
}

impl Core for Played {
    type Desk = PlayedDesk;

    fn desk(&mut self) -> &mut PlayedDesk {
        &mut self.desk
    }

    fn prepare(&mut self, event: &Event) -> Result<Vec<u8>, Error> {
        self.prepared.push_back(event.clone());
        Ok(vec![7])
    }

    fn would_change(&mut self, _: &Delivered) -> Result<bool, Error> {
        Ok(true)
    }

    fn act(&mut self) -> Result<Turn, Error> {
        let event = self.prepared.pop_front().ok_or(Error::Unready)?;
        if matches!(event, Event::Delivered(_)) {
            self.finals = (self.finals + 1).min(self.batches.len());
        }
        self.acted.push(event);
        Ok(Turn::Made(Reason::Done))
    }

    fn sends(&mut self) -> Result<Vec<Message>, Error> {
        Ok(std::mem::take(&mut self.sends))
    }

    fn batch_count(&mut self) -> Result<usize, Error> {
        Ok(self.finals)
    }

    fn batch(&mut self, at: usize) -> Result<Vec<Tx>, Error> {
        Ok(self.batches[at].clone())
    }

    fn views(&mut self) -> Result<(u32, u32), Error> {
        Ok((self.finals as u32, self.finals as u32))
    }

    fn give_count(&mut self, _: u32) -> Result<usize, Error> {
        Ok(0)
    }

    fn give(&mut self, _: u32, _: usize) -> Result<Vec<u8>, Error> {
        Err(Error::NoneThere)
    }
}

fn tx(number: u32) -> Tx {
    Tx { client: 1, number, payload: 0 }
}

fn fresh() -> Restart {
    let history = History::new(vec![Some(KEY); 5]);
    Restart { history, is_opened: false, helped: None, made_again: None }
}

fn opened(restart: Restart) -> Sessions<Played> {
    Sessions::open(PLACE, Options::default(), restart, NOW)
}

fn core_with(batches: &[Vec<Tx>]) -> Played {
    Played { batches: batches.to_vec(), ..Played::default() }
}

/// All turns on what waits.
fn work(it: &mut Sessions<Played>, now: Time) {
    while let Some(group) = it.prepare(now).unwrap() {
        it.durable(group);
        while it.turn(now).unwrap() {}
    }
}

fn hear(it: &mut Sessions<Played>, peer: u32, frame: SessionFrame, now: Time) {
    it.take(Input::Frame { peer, frame, room: 1 << 20 }, now).unwrap();
    work(it, now);
}

/// A peer's vote of a session, for a block of view 4: this replica leads the next view.
fn vote(peer: u8, session: u32) -> SessionFrame {
    let data = vec![2, 5, peer, 0, 0, 0, 4].into();
    SessionFrame::In { session, frame: Frame::Message(data) }
}

fn status(session: u32) -> SessionFrame {
    SessionFrame::In { session, frame: Frame::Status(Standing::default()) }
}

/// The steps of a change that were asked for; other outputs are passed over.
fn steps(it: &mut Sessions<Played>) -> Vec<Output> {
    let is_step = |it: &Output| {
        matches!(it, Output::Store(_) | Output::OpenLog(_) | Output::Mark(_) | Output::Recover(_))
    };
    it.outputs().into_iter().filter(is_step).collect()
}

fn only(mut steps: Vec<Output>) -> Output {
    assert_eq!(steps.len(), 1, "{steps:?}");
    steps.remove(0)
}

fn open_log(it: &mut Sessions<Played>, core: Played) {
    let Output::OpenLog(log) = only(steps(it)) else { panic!("no log is opened") };
    it.take(Input::Opened(log.opened(core)), NOW).unwrap();
}

fn mark(it: &mut Sessions<Played>) {
    let Output::Mark(mark) = only(steps(it)) else { panic!("no log is marked") };
    it.take(Input::Marked(mark.marked()), NOW).unwrap();
}

/// The batches of a session in which all keys are agreed, with the marker in the last one.
fn batches_to_the_cut(session: u32) -> Vec<Vec<Tx>> {
    let keys = (0..5).flat_map(|it| announcement(it, session + 1, &KEY)).collect();
    vec![vec![tx(1)], keys, vec![tx(2), marker(session)]]
}

/// A replica that runs the first session over a core.
fn running(core: Played) -> Sessions<Played> {
    let mut it = opened(fresh());
    open_log(&mut it, core);
    mark(&mut it);
    it
}

/// Peers report their clocks, so receipts are stamped.
fn open_intake(it: &mut Sessions<Played>, session: u32) {
    for peer in 1..4 {
        let frame = Frame::Receipts { clock: 0, receipts: Vec::new() };
        hear(it, peer, SessionFrame::In { session, frame }, NOW);
    }
}

/// One whose first session is cut, and to which a transaction has come that is carried over.
fn cut() -> Sessions<Played> {
    let mut batches = batches_to_the_cut(0);
    batches.push(vec![tx(9)]); // void
    let mut it = running(core_with(&batches));
    it.take(Input::Submit { ticket: 1, txs: vec![tx(2), tx(3)] }, NOW).unwrap();
    open_intake(&mut it, 0);
    it.outputs();
    (0..3).for_each(|_| hear(&mut it, 1, vote(1, 0), NOW));
    it
}

#[test]
fn each_step_of_a_change_waits_for_the_one_before() {
    let mut it = cut();
    let Output::Store(store) = only(steps(&mut it)) else { panic!("nothing is stored") };
    let ended = store.ended().clone();
    assert_eq!((ended.session, ended.first, ended.end()), (0, 0, 3));
    assert_eq!(ended.carried, [tx(3)]);
    assert_eq!(ended.keys, vec![Some(KEY); 5]);
    work(&mut it, NOW);
    assert!(steps(&mut it).is_empty());
    it.take(Input::Stored(store.stored()), NOW).unwrap();
    assert_eq!(it.status(NOW).stage, "opening");
    open_log(&mut it, Played::default());
    assert_eq!(it.status(NOW).stage, "marking");
    work(&mut it, NOW);
    assert!(it.running().is_none());
    mark(&mut it);
    work(&mut it, NOW);
    assert_eq!((it.status(NOW).session, it.status(NOW).stage), (1, "running"));
    let engine = it.running().unwrap();
    assert_eq!(engine.core_mut().acted[0], Event::Arrived(vec![tx(3)]));
}

/// One of the transactions of a submission is final when the session changes, and the other one
/// arrives in the next session, which does not know the first.
#[test]
fn a_submission_over_a_change_of_session_is_answered() {
    let mut it = cut();
    let Output::Store(store) = only(steps(&mut it)) else { panic!() };
    it.take(Input::Submit { ticket: 9, txs: vec![tx(1), tx(6)] }, NOW).unwrap();
    it.take(Input::Stored(store.stored()), NOW).unwrap();
    open_log(&mut it, Played::default());
    mark(&mut it);
    open_intake(&mut it, 1);
    work(&mut it, NOW + LATER);
    let ok = Answer::Ok { new: 2, old: 0 };
    let is_answer = |it: &Output| matches!(it, Output::Answer(9, answer) if *answer == ok);
    assert!(it.outputs().iter().any(is_answer));
}

/// A client uses a number twice: one of the two is final when the session changes, and the other
/// waits. No peer would take that one any more, so it does not wait on.
#[test]
fn what_waits_is_asked_by_the_windows_of_the_next_session() {
    let mut it = cut();
    let Output::Store(store) = only(steps(&mut it)) else { panic!() };
    let other = Tx { payload: 5, ..tx(2) };
    it.take(Input::Submit { ticket: 7, txs: vec![tx(4)] }, NOW).unwrap();
    it.take(Input::Submit { ticket: 8, txs: vec![tx(5), other] }, NOW).unwrap();
    it.take(Input::Stored(store.stored()), NOW).unwrap();
    open_log(&mut it, Played::default());
    mark(&mut it);
    assert_eq!(answers(&mut it), [(8, Answer::Refused(other, Check::BelowWindow))]);
    open_intake(&mut it, 1);
    work(&mut it, NOW + LATER);
    assert_eq!(arrived(&mut it), [tx(3), tx(4), tx(5)]);
}

/// What arrived in the session that runs.
fn arrived(it: &mut Sessions<Played>) -> Vec<Tx> {
    let acted = &it.running().unwrap().core_mut().acted;
    let lists = acted.iter().map(|it| if let Event::Arrived(txs) = it { txs } else { &[][..] });
    lists.flatten().copied().collect()
}

#[test]
fn what_comes_after_the_marker_is_void() {
    let mut it = cut();
    let shown = |it: &mut Sessions<Played>| {
        let batches = it.outputs().into_iter().filter(|it| matches!(it, Output::Batch { .. }));
        batches.count()
    };
    assert_eq!(shown(&mut it), 3);
    (0..3).for_each(|_| hear(&mut it, 1, vote(1, 0), NOW)); // one more is final there
    assert_eq!(it.helping().unwrap().core_mut().finals, 4);
    assert_eq!(shown(&mut it), 0);
    assert_eq!(it.status(NOW).position, 0); // nothing is stored yet
}

#[test]
fn a_start_goes_on_where_the_store_says() {
    let mut history = History::new(vec![Some(KEY); 5]);
    let Output::Store(store) = only(steps(&mut cut())) else { panic!() };
    history.extend(store.ended());
    // It was stored, and its log may be there or not.
    let stored = Restart { history: history.clone(), ..fresh() };
    open_log(&mut opened(stored), Played::default());
    // It was marked.
    let mut it = help::started(history);
    work(&mut it, NOW);
    assert_eq!(it.running().unwrap().core_mut().acted[0], Event::Arrived(vec![tx(3)]));
}

#[test]
fn a_lost_log_is_not_made_again() {
    let mut history = History::new(vec![Some(KEY); 5]);
    history.session = 4;
    let mut it = opened(Restart { history, is_opened: true, ..fresh() });
    let Output::Recover(recover) = only(steps(&mut it)) else { panic!() };
    it.take(Input::Recovered(recover.lost()), NOW).unwrap();
    work(&mut it, NOW);
    assert_eq!(it.status(NOW).stage, "out");
    assert!(steps(&mut it).is_empty());
}

#[test]
fn one_without_a_key_sits_out_announces_the_next_one_and_takes_the_history() {
    let mut history = History::new(vec![Some(KEY); 5]);
    (history.session, history.keys[0]) = (1, None);
    history.carried = vec![tx(2), tx(3)];
    let mut it = opened(Restart { history, ..fresh() });
    let grow = |it: &Output| matches!(it, Output::GrowKey(2));
    assert!(it.outputs().iter().any(grow));
    it.take(Input::Key { session: 2, key: KEY }, NOW).unwrap();
    let later = NOW + std::time::Duration::from_secs(1);
    work(&mut it, later);
    let told = it.outputs().into_iter().find_map(|it| match it {
        Output::Broadcast(frame) => SessionFrame::decode(frame[4], &frame.slice(5..)).ok(),
        _ => None,
    });
    let Some(SessionFrame::In { session: 1, frame: Frame::Receipts { receipts, .. } }) = told
    else {
        panic!("nothing is announced")
    };
    let told: Vec<Tx> = receipts.into_iter().map(|it| it.tx).collect();
    assert_eq!(told, announcement(0, 2, &KEY));

    let batches = batches_to_the_cut(1);
    let digest = batches.iter().fold([0; 32], |digest, it| behind::chained(&digest, it));
    let end = End { position: 3, digest };
    let part = |batches| SessionFrame::Part(HistoryPart { session: 1, end, from: 0, batches });
    hear(&mut it, 1, status(2), later);
    let much_later = later + std::time::Duration::from_secs(1);
    work(&mut it, much_later);
    assert_eq!(asked_of(&mut it), []); // one peer alone may lie
    hear(&mut it, 2, status(2), much_later);
    let at_last = much_later + std::time::Duration::from_secs(1);
    work(&mut it, at_last);
    assert_eq!(asked_of(&mut it), [1, 2]);
    hear(&mut it, 1, part(Vec::new()), at_last);
    assert_eq!(asked_of(&mut it), []);
    hear(&mut it, 2, part(Vec::new()), at_last);
    assert_eq!(asked_of(&mut it), [1]);
    hear(&mut it, 1, part(batches.clone()), at_last);
    let Output::Store(store) = only(steps(&mut it)) else { panic!("nothing is stored") };
    assert_eq!(store.ended().batches, batches);
    assert_eq!(store.ended().carried, [tx(3)]);
    it.take(Input::Stored(store.stored()), NOW).unwrap();
    assert_eq!((it.status(NOW).session, it.status(NOW).stage), (2, "opening"));
}

fn asked_of(it: &mut Sessions<Played>) -> Vec<u32> {
    let asked = it.outputs().into_iter().filter_map(|it| match it {
        Output::Send { to, frame } if frame[4] == 17 => Some(to),
        _ => None,
    });
    asked.collect()
}

#[test]
fn frames_of_the_next_session_wait_for_it() {
    let mut it = cut();
    hear(&mut it, 2, vote(2, 1), NOW);
    let Output::Store(store) = only(steps(&mut it)) else { panic!() };
    it.take(Input::Stored(store.stored()), NOW).unwrap();
    open_log(&mut it, Played::default());
    mark(&mut it);
    work(&mut it, NOW);
    let acted = &it.running().unwrap().core_mut().acted;
    assert!(acted.iter().any(|it| matches!(it, Event::Delivered(_))));
}

/// What no honest peer sends takes no place of what the next session needs.
#[test]
fn frames_that_no_honest_peer_sends_wait_for_no_session() {
    let mut it = cut();
    hear(&mut it, 2, vote(2, 1), NOW);
    for _ in 0..40 {
        hear(&mut it, 2, vote(3, 1), NOW); // it names another sender
    }
    let Output::Store(store) = only(steps(&mut it)) else { panic!() };
    it.take(Input::Stored(store.stored()), NOW).unwrap();
    open_log(&mut it, Played::default());
    mark(&mut it);
    work(&mut it, NOW);
    let acted = &it.running().unwrap().core_mut().acted;
    assert!(acted.iter().any(|it| matches!(it, Event::Delivered(_))));
}

/// The next session takes it.
#[test]
fn where_sessions_follow_one_another_none_is_over_for_clients() {
    let mut it = running(core_with(&[]));
    it.take(Input::Submit { ticket: 3, txs: vec![tx(1)] }, NOW).unwrap();
    for peer in 1..4 {
        let frame = Frame::Status(Standing { view: PLACE.views, ..Standing::default() });
        hear(&mut it, peer, SessionFrame::In { session: 0, frame }, NOW);
    }
    assert!(it.running().unwrap().is_over());
    it.take(Input::Submit { ticket: 4, txs: vec![tx(2)] }, NOW).unwrap();
    work(&mut it, NOW);
    assert_eq!(answers(&mut it), [(4, Answer::Busy)]);
}

/// What clients heard.
fn answers(it: &mut Sessions<Played>) -> Vec<(Ticket, Answer)> {
    let answers = it.outputs().into_iter().filter_map(|it| match it {
        Output::Answer(ticket, answer) => Some((ticket, answer)),
        _ => None,
    });
    answers.collect()
}

#[test]
fn clients_of_the_service_and_used_numbers_are_refused() {
    let mut it = running(core_with(&[vec![tx(1)]]));
    hear(&mut it, 1, vote(1, 0), NOW);
    it.outputs();
    let refused = |it: &mut Sessions<Played>, tx| {
        it.take(Input::Submit { ticket: 5, txs: vec![tx] }, NOW).unwrap();
        it.outputs().into_iter().find_map(|it| match it {
            Output::Answer(5, Answer::Refused(_, why)) => Some(why),
            _ => None,
        })
    };
    assert_eq!(refused(&mut it, marker(0)), Some(crate::Check::Reserved));
    let again = Tx { payload: 7, ..tx(1) };
    assert_eq!(refused(&mut it, again), Some(crate::Check::BelowWindow));
    assert_eq!(refused(&mut it, tx(4)), None);
}

#[test]
fn a_replica_whose_agreed_key_is_another_sits_out() {
    let mut it = opened(fresh());
    let Output::OpenLog(log) = only(steps(&mut it)) else { panic!("no log is opened") };
    it.take(Input::Opened(log.other_key()), NOW).unwrap();
    assert_eq!(it.status(NOW).stage, "out");
    assert!(steps(&mut it).is_empty());
}
