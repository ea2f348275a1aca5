//! What is made ahead of a change of session.

use super::*;

fn opened_ahead(it: &mut Sessions<Played>) -> Vec<(u32, PublicKeys)> {
    let ahead = it.outputs().into_iter().filter_map(|it| match it {
        Output::OpenAhead(session, keys) => Some((session, keys)),
        _ => None,
    });
    ahead.collect()
}

/// The keys with which it is opened are those of the cut: they were agreed before.
#[test]
fn the_next_session_is_opened_ahead_once_all_keys_are_agreed() {
    let mut it = running(core_with(&batches_to_the_cut(0)));
    hear(&mut it, 1, vote(1, 0), NOW);
    work(&mut it, NOW + LATER);
    assert!(opened_ahead(&mut it).is_empty());
    hear(&mut it, 1, vote(1, 0), NOW + LATER);
    work(&mut it, NOW + LATER * 2);
    assert_eq!(opened_ahead(&mut it), [(1, vec![Some(KEY); 5])]);
    work(&mut it, NOW + LATER * 3);
    assert!(opened_ahead(&mut it).is_empty());
}

#[test]
fn what_a_core_sent_ahead_goes_out_once_its_session_runs() {
    let mut it = cut();
    let Output::Store(store) = only(steps(&mut it)) else { panic!() };
    it.take(Input::Stored(store.stored()), NOW).unwrap();
    let sends = vec![Message { to: 1, bytes: vec![2, 1] }];
    open_log(&mut it, Played { sends, ..Played::default() });
    let is_sent = |it: &mut Sessions<Played>| {
        let sent =
            |it: &Output| matches!(it, Output::Send { to: 1, frame } if frame.ends_with(&[2, 1]));
        it.outputs().iter().any(sent)
    };
    let Output::Mark(mark) = only(steps(&mut it)) else { panic!() };
    work(&mut it, NOW);
    assert!(!is_sent(&mut it));
    it.take(Input::Marked(mark.marked()), NOW).unwrap();
    assert!(is_sent(&mut it));
}
