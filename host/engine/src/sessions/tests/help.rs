//! The session before: who is helped with it, and until when.

use super::*;

/// A replica that starts in session 1. The log of session 0 is still there.
pub(super) fn started(history: History) -> Sessions<Played> {
    let helped = Some(vec![Some(KEY); 5]);
    let mut it = opened(Restart { history, is_opened: true, helped, made_again: None });
    let Output::Recover(recover) = only(steps(&mut it)) else { panic!("no log is opened") };
    assert_eq!(recover.session(), 1);
    let recovered = recover.recovered(Played::default(), Vec::new(), 0);
    it.take(Input::Recovered(recovered), NOW).unwrap();
    it
}

/// The same, where a peer was heard that has not ended session 0, and some that have.
fn started_next_to_one_behind() -> (Sessions<Played>, requests::Recover) {
    let Output::Store(store) = only(steps(&mut cut())) else { panic!() };
    let mut history = History::new(vec![Some(KEY); 5]);
    history.extend(store.ended());
    let mut it = started(history);
    (1..4).for_each(|peer| hear(&mut it, peer, status(1), NOW));
    assert!(steps(&mut it).is_empty());
    hear(&mut it, 4, status(0), NOW + LATER);
    let Output::Recover(recover) = only(steps(&mut it)) else { panic!("nobody is helped") };
    assert_eq!(recover.session(), 0);
    (it, recover)
}

fn retired(it: &mut Sessions<Played>) -> bool {
    it.outputs().iter().any(|it| matches!(it, Output::Retired(0)))
}

/// To play a session again takes long, so that is done only where a peer needs it.
#[test]
fn after_a_start_those_that_are_behind_are_helped() {
    let (mut it, recover) = started_next_to_one_behind();
    assert!(!it.status(NOW).helps);
    let core = Played { finals: 3, ..core_with(&batches_to_the_cut(0)) };
    it.take(Input::Recovered(recover.recovered(core, Vec::new(), 0)), NOW).unwrap();
    assert!(it.status(NOW).helps && !retired(&mut it));
    hear(&mut it, 4, status(1), NOW + LATER * 2);
    assert!(retired(&mut it) && !it.status(NOW).helps);
}

/// A corrupt log helps nobody, also after the next start: it is not opened again.
#[test]
fn the_log_of_the_session_before_that_is_lost_is_given_up() {
    let (mut it, recover) = started_next_to_one_behind();
    it.take(Input::Recovered(recover.lost()), NOW).unwrap();
    assert!(retired(&mut it) && !it.status(NOW).helps);
}

#[test]
fn after_a_start_no_log_is_opened_that_nobody_needs() {
    let (mut it, recover) = started_next_to_one_behind();
    // It is there by itself before the log is open: then the log is closed, and once more when it
    // has been opened.
    hear(&mut it, 4, status(1), NOW + LATER * 2);
    assert!(retired(&mut it));
    let core = Played { finals: 3, ..core_with(&batches_to_the_cut(0)) };
    it.take(Input::Recovered(recover.recovered(core, Vec::new(), 0)), NOW).unwrap();
    assert!(retired(&mut it) && !it.status(NOW).helps);

    let Output::Store(store) = only(steps(&mut cut())) else { panic!() };
    let mut history = History::new(vec![Some(KEY); 5]);
    history.extend(store.ended());
    let mut it = started(history);
    (1..5).for_each(|peer| hear(&mut it, peer, status(1), NOW));
    work(&mut it, NOW + LATER);
    let outputs = it.outputs();
    assert!(outputs.iter().any(|it| matches!(it, Output::Retired(0))));
    assert!(!outputs.iter().any(|it| matches!(it, Output::Recover(_))));
}

#[test]
fn the_engine_of_the_session_before_goes_once_all_are_in_the_next() {
    let mut it = cut();
    let Output::Store(store) = only(steps(&mut it)) else { panic!() };
    it.take(Input::Stored(store.stored()), NOW).unwrap();
    open_log(&mut it, Played::default());
    mark(&mut it);
    (1..4).for_each(|peer| hear(&mut it, peer, status(1), NOW));
    let later = NOW + std::time::Duration::from_secs(1);
    work(&mut it, later);
    assert!(!retired(&mut it) && it.status(NOW).helps);
    hear(&mut it, 4, status(1), later + std::time::Duration::from_secs(1));
    assert!(retired(&mut it) && !it.status(NOW).helps);
}
