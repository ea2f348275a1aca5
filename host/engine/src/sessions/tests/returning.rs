//! A replica whose store was lost and made again.

use std::time::Duration;

use super::*;

const DRAWN: u64 = 77;
const LATER: Duration = Duration::from_secs(1);

fn made_again(known: MadeAgain) -> Sessions<Played> {
    opened(Restart { made_again: Some(known), ..fresh() })
}

fn answer(peer: u32, drawn: u64, session: u32) -> (u32, SessionFrame) {
    (peer, SessionFrame::Session { drawn, session })
}

/// Frames that name no session of theirs, by kind: to all, or to one peer.
fn sent(it: &mut Sessions<Played>) -> Vec<SessionFrame> {
    let frames = it.outputs().into_iter().filter_map(|it| match it {
        Output::Broadcast(frame) | Output::Send { frame, .. } => Some(frame),
        _ => None,
    });
    frames.map(|it| SessionFrame::decode(it[4], &it.slice(5..)).unwrap()).collect()
}

/// More than f peers are in a later session, and two of them hand out how this one ended.
fn end_by_others(it: &mut Sessions<Played>, session: u32, digest: &mut [u8; 32], now: &mut Time) {
    let first = 3 * session as usize;
    let numbers = [tx(1 + 2 * session), tx(2 + 2 * session)];
    let keys = (0..5).flat_map(|it| announcement(it, session + 1, &KEY)).collect();
    let batches = vec![vec![numbers[0]], keys, vec![numbers[1], marker(session)]];
    *digest = batches.iter().fold(*digest, |digest, it| behind::chained(&digest, it));
    let end = End { position: first + 3, digest: *digest };
    (1..3).for_each(|peer| hear(it, peer, status(session + 1), *now));
    *now = *now + LATER;
    work(it, *now);
    let part = |batches| SessionFrame::Part(HistoryPart { session, end, from: first, batches });
    (1..3).for_each(|peer| hear(it, peer, part(Vec::new()), *now));
    hear(it, 1, part(batches), *now);
    let store = steps(it).into_iter().find_map(|it| match it {
        Output::Store(it) => Some(it),
        _ => None,
    });
    it.take(Input::Stored(store.expect("nothing is stored").stored()), *now).unwrap();
}

/// Its key of a session has the same leaves as before, so it must not run where it may have run.
#[test]
fn it_sits_out_what_it_may_have_sealed_in_and_then_takes_part() {
    let mut it = made_again(MadeAgain::Unknown { drawn: DRAWN });
    assert_eq!(it.status(NOW).stage, "returning");
    work(&mut it, NOW);
    assert!(sent(&mut it).contains(&SessionFrame::AskSession(DRAWN)));
    for (peer, frame) in [answer(1, DRAWN, 1), answer(2, DRAWN, 1), answer(3, DRAWN, 1)] {
        hear(&mut it, peer, frame, NOW);
    }
    let (peer, of_another_start) = answer(4, DRAWN + 1, 1);
    hear(&mut it, peer, of_another_start, NOW);
    assert!(it.outputs().iter().all(|it| matches!(it, Output::Freed(..))));
    let (peer, frame) = answer(4, DRAWN, 0);
    hear(&mut it, peer, frame, NOW);
    let sit_out = it.outputs().into_iter().find_map(|it| match it {
        Output::SitOut(it) => Some(it),
        _ => None,
    });
    let sit_out = sit_out.expect("nothing is stored");
    assert_eq!((sit_out.through(), it.status(NOW).stage), (2, "returning"));
    it.take(Input::SatOut(sit_out.stored()), NOW).unwrap();

    let (mut digest, mut now) = ([0; 32], NOW);
    for session in 0..3 {
        assert_eq!((it.status(now).session, it.status(now).stage), (session, "out"));
        now = now + LATER;
        work(&mut it, now);
        let outputs = it.outputs();
        let grown = outputs.iter().any(|it| matches!(it, Output::GrowKey(_)));
        let is_said = |it: &Output| matches!(it, Output::Broadcast(frame) if *frame == SessionFrame::Out(session).encode());
        assert!(outputs.iter().any(is_said));
        assert_eq!(grown, session == 2, "{session}"); // no key of a session that it sits out
        assert!(!outputs.iter().any(|it| matches!(it, Output::OpenLog(_))));
        end_by_others(&mut it, session, &mut digest, &mut now);
    }
    assert_eq!((it.status(now).session, it.status(now).stage), (3, "opening"));
}

/// What it sits out is stored once, so a start does not ask again.
#[test]
fn a_start_knows_what_is_sat_out() {
    let mut it = made_again(MadeAgain::SitsOut { through: 0 });
    assert_eq!(it.status(NOW).stage, "out");
    assert!(steps(&mut it).is_empty());
    let mut history = History::new(vec![Some(KEY); 5]);
    history.session = 1;
    let known = Some(MadeAgain::SitsOut { through: 0 });
    let mut it = opened(Restart { history, made_again: known, ..fresh() });
    open_log(&mut it, Played::default());
}

#[test]
fn peers_are_answered_by_those_that_know_where_they_have_voted() {
    let asked = |it: &mut Sessions<Played>| {
        it.outputs();
        hear(it, 3, SessionFrame::AskSession(5), NOW);
        let all = sent(it);
        all.contains(&SessionFrame::Session { drawn: 5, session: 0 })
    };
    assert!(asked(&mut running(Played::default())));
    assert!(!asked(&mut made_again(MadeAgain::Unknown { drawn: DRAWN })));
    assert!(!asked(&mut made_again(MadeAgain::SitsOut { through: 0 })));
}

/// One that takes the history of many sessions makes no key of each of them.
#[test]
fn no_key_is_made_while_the_others_are_ahead() {
    let (mut digest, mut now) = ([0; 32], NOW);
    let mut it = made_again(MadeAgain::SitsOut { through: 1 });
    it.outputs();
    (1..3).for_each(|peer| hear(&mut it, peer, status(9), NOW));
    end_by_others(&mut it, 0, &mut digest, &mut now);
    assert_eq!((it.status(now).session, it.status(now).stage), (1, "out"));
    assert!(!it.outputs().iter().any(|it| matches!(it, Output::GrowKey(_))));
}

/// Its peers have a key of it, so they know from itself alone that it is out.
#[test]
fn a_session_ends_after_a_while_for_one_that_says_that_it_is_out() {
    let keys: Vec<Tx> = [0, 1, 2, 4].into_iter().flat_map(|it| announcement(it, 1, &KEY)).collect();
    let ends_for = |said: Option<u32>| {
        let mut it = running(core_with(std::slice::from_ref(&keys)));
        hear(&mut it, 1, vote(1, 0), NOW);
        if let Some(session) = said {
            hear(&mut it, 3, SessionFrame::Out(session), NOW);
        }
        for seconds in [2, 4, 100, 102] {
            work(&mut it, NOW + LATER * seconds);
        }
        let arrived = &it.running().unwrap().core_mut().acted;
        arrived.iter().any(|it| matches!(it, Event::Arrived(txs) if txs.contains(&marker(0))))
    };
    assert!(ends_for(Some(0)));
    assert!(!ends_for(Some(1)) && !ends_for(None)); // of another session, or nothing
}

#[test]
fn questions_of_a_peer_are_bounded() {
    let mut it = running(Played::default());
    let answers = |it: &mut Sessions<Played>, peer, count, now| {
        it.outputs();
        (0..count).for_each(|_| hear(it, peer, SessionFrame::AskSession(5), now));
        let all = sent(it).into_iter();
        all.filter(|it| matches!(it, SessionFrame::Session { .. })).count()
    };
    assert_eq!(answers(&mut it, 3, 100, NOW), 40);
    assert_eq!(answers(&mut it, 4, 1, NOW), 1); // another one is answered
    assert_eq!(answers(&mut it, 3, 100, NOW + LATER), 20);
}
