//! What a cut ends.

use super::*;
use crate::intake::played::Call;

/// Several batches become final in one turn: those after the one with the marker are void.
#[test]
fn batches_of_one_turn_end_with_the_marker() {
    let mut batches = batches_to_the_cut(0);
    batches.push(vec![tx(9)]);
    let mut it = running(core_with(&batches));
    open_intake(&mut it, 0);
    steps(&mut it);
    it.running().unwrap().core_mut().finals = 3;
    hear(&mut it, 1, vote(1, 0), NOW);
    let Output::Store(store) = only(steps(&mut it)) else { panic!("it is not cut") };
    assert_eq!(store.ended().batches, batches[..3]);
}

/// What has arrived by the cut is what is carried over, so nothing arrives after it.
#[test]
fn nothing_arrives_after_the_cut() {
    let mut it = cut();
    let asked = |it: &mut Sessions<Played>| {
        let calls = &it.helping().unwrap().core_mut().desk.calls;
        calls.iter().filter(|it| matches!(it, Call::Arrive | Call::ArriveProposed)).count()
    };
    let before = asked(&mut it);
    (0..3).for_each(|_| hear(&mut it, 1, vote(1, 0), NOW + LATER));
    assert_eq!(asked(&mut it), before);
}
