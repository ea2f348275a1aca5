//! A cluster that ends with a session.

use super::*;

/// One that opens no session after the first.
fn opened_for_the_first(restart: Restart) -> Sessions<Played> {
    let options = Options { last_session: Some(0), ..Options::default() };
    Sessions::open(PLACE, options, restart, NOW)
}

/// The same, where the first session is cut, and three transactions were submitted before that: one is
/// final, one has arrived, and one waits.
fn cut_for_good() -> Sessions<Played> {
    let mut it = opened_for_the_first(fresh());
    open_log(&mut it, core_with(&batches_to_the_cut(0)));
    mark(&mut it);
    it.take(Input::Submit { ticket: 1, txs: vec![tx(2), tx(3)] }, NOW).unwrap();
    open_intake(&mut it, 0);
    it.outputs();
    (0..3).for_each(|_| hear(&mut it, 1, vote(1, 0), NOW));
    it
}

/// The same, where it has ended.
fn ended() -> Sessions<Played> {
    let mut it = cut_for_good();
    let Output::Store(store) = only(steps(&mut it)) else { panic!("nothing is stored") };
    it.take(Input::Stored(store.stored()), NOW).unwrap();
    it
}

/// What it says to all.
fn said(it: &mut Sessions<Played>) -> Vec<SessionFrame> {
    let frames = it.outputs().into_iter().filter_map(|it| match it {
        Output::Broadcast(frame) => SessionFrame::decode(frame[4], &frame.slice(5..)).ok(),
        _ => None,
    });
    frames.collect()
}

/// The keys of all are agreed.
#[test]
fn no_log_is_made_ahead_of_a_session_that_is_never_opened() {
    let mut it = opened_for_the_first(fresh());
    open_log(&mut it, core_with(&batches_to_the_cut(0)));
    mark(&mut it);
    for seconds in 1..3 {
        hear(&mut it, 1, vote(1, 0), NOW);
        work(&mut it, NOW + LATER * seconds);
    }
    assert!(!it.outputs().iter().any(|it| matches!(it, Output::OpenAhead(..))));
}

#[test]
fn no_log_is_made_after_the_last_session() {
    let mut it = cut_for_good();
    let Output::Store(store) = only(steps(&mut it)) else { panic!("nothing is stored") };
    assert_eq!(store.ended().carried, [tx(3)]); // for the cluster that continues this one
    let (digest, end) = (store.ended().digest, store.ended().end());
    it.take(Input::Stored(store.stored()), NOW).unwrap();
    for seconds in 1..5 {
        work(&mut it, NOW + LATER * seconds);
    }
    assert!(steps(&mut it).is_empty());
    let status = it.status(NOW);
    assert_eq!((status.session, status.stage), (1, "ended"));
    assert_eq!((status.position, status.digest), (end, digest));
    // Nor after a start.
    let mut history = History::new(vec![Some(KEY); 5]);
    history.session = 1;
    let mut it = opened_for_the_first(Restart { history, ..fresh() });
    work(&mut it, NOW + LATER);
    assert!(steps(&mut it).is_empty());
    assert_eq!(it.status(NOW).stage, "ended");
}

#[test]
fn a_start_without_the_last_session_goes_on() {
    let mut history = History::new(vec![Some(KEY); 5]);
    history.session = 1;
    open_log(&mut opened(Restart { history, ..fresh() }), Played::default());
}

#[test]
fn clients_hear_that_it_is_over() {
    let mut it = cut_for_good();
    let Output::Store(store) = only(steps(&mut it)) else { panic!("nothing is stored") };
    // One is final, and the other one waits for a session that never comes.
    it.take(Input::Submit { ticket: 8, txs: vec![tx(2)] }, NOW).unwrap();
    it.take(Input::Submit { ticket: 9, txs: vec![tx(6)] }, NOW).unwrap();
    it.take(Input::Stored(store.stored()), NOW).unwrap();
    let ok = Answer::Ok { new: 1, old: 0 };
    assert_eq!(answers(&mut it), [(8, ok), (9, Answer::Over)]);
    it.take(Input::Submit { ticket: 10, txs: vec![tx(7)] }, NOW).unwrap();
    assert_eq!(answers(&mut it), [(10, Answer::Over)]);
    let text = it.end(None).unwrap_err().to_string();
    assert_eq!(text, "the cluster has ended: session 1 is never opened here");
    assert_eq!(it.end(Some(0)), Err(NotEnded::HasEnded(0)));
}

/// Its engine helps, its store answers, and once all have ended the session it is retired: then its
/// account is exported.
#[test]
fn those_that_have_not_ended_the_session_are_helped() {
    let mut it = ended();
    it.outputs();
    assert!(it.status(NOW).helps);
    work(&mut it, NOW + LATER);
    assert!(said(&mut it).contains(&SessionFrame::Ended(0)));
    hear(&mut it, 4, vote(4, 0), NOW + LATER);
    assert!(it
        .helping()
        .unwrap()
        .core_mut()
        .acted
        .iter()
        .any(|it| { matches!(it, Event::Delivered(it) if it.from == 4) }));
    let ask = frames::AskHistory { session: 0, from: 0, wants_batches: true };
    hear(&mut it, 4, SessionFrame::Ask(ask), NOW + LATER);
    let is_read = |it: &Output| matches!(it, Output::Read(it) if it.peer == 4 && it.session == 0);
    assert!(it.outputs().iter().any(is_read));
    (1..5).for_each(|peer| hear(&mut it, peer, SessionFrame::Ended(0), NOW + LATER * 2));
    work(&mut it, NOW + LATER * 3);
    assert!(it.outputs().iter().any(|it| matches!(it, Output::Retired(0))));
}

/// Two that say so are more than f, and one of them is honest.
#[test]
fn one_that_is_behind_takes_the_end_from_those_that_have_ended() {
    let mut it = running(core_with(&[]));
    it.outputs();
    let asked = |it: &mut Sessions<Played>, at| {
        work(it, at);
        asked_of(it)
    };
    hear(&mut it, 1, SessionFrame::Ended(0), NOW);
    assert_eq!(asked(&mut it, NOW + LATER * 2), []);
    hear(&mut it, 2, SessionFrame::Ended(0), NOW + LATER * 2);
    assert_eq!(asked(&mut it, NOW + LATER * 4), [1, 2]);
    // Whoever has ended the session is no replica that a session would end for.
    let keys: Vec<Tx> = (0..5).flat_map(|it| announcement(it, 1, &KEY)).collect();
    let mut it = running(core_with(&[keys]));
    hear(&mut it, 1, vote(1, 0), NOW);
    hear(&mut it, 3, SessionFrame::Ended(0), NOW);
    for seconds in [2, 4, 100, 102] {
        work(&mut it, NOW + LATER * seconds);
    }
    assert!(!arrived(&mut it).contains(&marker(0)));
}
