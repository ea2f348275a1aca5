//! What an operator asks.

use super::*;

/// A replica that runs session 1, in which the keys of all are agreed.
fn run_on(it: &mut Sessions<Played>) {
    let Output::Store(store) = only(steps(it)) else { panic!("nothing is stored") };
    it.take(Input::Stored(store.stored()), NOW).unwrap();
    open_log(it, core_with(&batches_to_the_cut(1)[..2]));
    mark(it);
    (0..2).for_each(|_| hear(it, 1, vote(1, 1), NOW));
    assert!(it.running().is_some());
    work(it, NOW + LATER * 2); // receipts are stamped by then
}

#[test]
fn an_order_ends_the_session_that_it_names_and_no_later_one() {
    let mut it = cut();
    // It comes when the session has ended already.
    assert_eq!(it.end(Some(0)), Err(NotEnded::HasEnded(0)));
    assert_eq!(it.end(None), Err(NotEnded::HasEnded(0)));
    assert_eq!(it.end(Some(2)), Err(NotEnded::IsLater(2)));
    run_on(&mut it);
    assert!(!arrived(&mut it).contains(&marker(1)));
    assert_eq!(it.end(Some(0)), Err(NotEnded::HasEnded(0)));
    work(&mut it, NOW + LATER * 3);
    assert!(!arrived(&mut it).contains(&marker(1)));
    assert_eq!(it.end(Some(1)), Ok(()));
    work(&mut it, NOW + LATER * 4);
    assert!(arrived(&mut it).contains(&marker(1)));
}

#[test]
fn an_order_for_the_session_that_is_about_to_run_is_kept() {
    let mut it = cut();
    assert_eq!(it.end(Some(1)), Ok(()));
    run_on(&mut it);
    assert!(arrived(&mut it).contains(&marker(1)));
}

#[test]
fn who_has_no_part_in_a_session_says_so() {
    let mut history = History::new(vec![Some(KEY); 5]);
    (history.session, history.keys[0]) = (1, None);
    let mut it = opened(Restart { history, ..fresh() });
    let answer = it.end(None).unwrap_err();
    assert_eq!(answer.to_string(), "the replica has no part in session 1");
    assert_eq!(it.end(Some(0)).unwrap_err().to_string(), "session 0 has ended");
    assert_eq!(it.end(Some(2)).unwrap_err().to_string(), "session 2 does not run yet");
}
