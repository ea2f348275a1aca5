//! What peers and clients may cost: each bound, under a flood.

use super::*;
use crate::clients::Answer;

/// A count by its name in the status.
fn count_of(it: &Engine<Played>, name: &str) -> Option<u64> {
    let counts = it.status(NOW).counts;
    counts.iter().find(|one| one.to_string() == name).map(|one| one.value)
}

/// Messages of a peer on which the core made its turns.
fn acted(it: &mut Engine<Played>, from: u32) -> usize {
    let is_of = |it: &&Event| matches!(it, Event::Delivered(it) if it.from == from);
    it.core_mut().acted.iter().filter(is_of).count()
}

#[test]
fn a_flood_of_statuses_is_dropped_and_counted() {
    let mut it = engine(Options::default());
    for _ in 0..1000 {
        hears(&mut it, 1, Frame::Status(Standing::default()));
    }
    assert_eq!(count_of(&it, "statuses dropped of 1"), Some(900));
    let freed = it.outputs();
    assert!(freed.contains(&Output::Freed(1, 1000)), "each slot is free again");
}

#[test]
fn refused_proposals_are_counted_and_slow_their_peer() {
    let mut it = engine(Options::default());
    let proposal: &[u8] = &[2, 4, 1, 0, 0, 0, 6];
    it.core_mut().refuses = Some((proposal.to_vec(), Reason::Misfit));
    for _ in 0..64 {
        hears(&mut it, 1, message(proposal));
        hears(&mut it, 2, message(OTHER_VOTE));
    }
    work(&mut it, NOW);
    assert_eq!((acted(&mut it, 1), acted(&mut it, 2)), (8, 64));
    assert_eq!(count_of(&it, "proposals refused of 1 for 9"), Some(8));
    work(&mut it, NOW + Duration::from_secs(1));
    assert!((9..24).contains(&acted(&mut it, 1)), "it is slowed, and not shut out");
}

#[test]
fn what_no_honest_peer_sends_does_not_reach_the_core() {
    let mut it = engine(Options::default());
    // Of a view that another replica leads, after the last view, of another sender, and too long.
    let mut long = VOTE.to_vec();
    long.resize(20_000, 0);
    for data in [&[2, 4, 1, 0, 0, 0, 7][..], &[2, 4, 1, 0, 0, 0, 101], OTHER_VOTE, &long] {
        hears(&mut it, 1, message(data));
    }
    work(&mut it, NOW);
    assert!(it.core_mut().acted.is_empty());
    assert_eq!(count_of(&it, "unfit of 1"), Some(4));
    assert!(it.outputs().contains(&Output::Freed(1, 4)), "each slot is free again");
}

#[test]
fn a_flood_of_orphans_slows_its_peer_alone() {
    let mut it = engine(Options::default());
    let mut proposal = vec![2, 4, 1, 0, 0, 0, 6];
    it.core_mut().refuses = Some((proposal.clone(), Reason::Orphan));
    proposal.resize(40_000, 0);
    for _ in 0..1000 {
        hears(&mut it, 1, message(&proposal));
    }
    hears(&mut it, 2, message(OTHER_VOTE));
    work(&mut it, NOW);
    assert!((170..190).contains(&acted(&mut it, 1)), "{}", acted(&mut it, 1));
    assert_eq!(acted(&mut it, 2), 1);
}

/// 34 bytes ask for a block, and five for 32 of them.
#[test]
fn what_a_peer_asks_for_is_bounded() {
    let mut it = engine(Options::default());
    it.core_mut().gives = vec![vec![2, 7, 0, 0, 0, 1]; 40];
    for _ in 0..1000 {
        hears(&mut it, 1, Frame::Blocks(0));
        hears(&mut it, 1, message(&[2, 6, 0]));
    }
    // Of 64, a request counts as one.
    assert_eq!(messages_sent(&mut it), 32 + 30);
    let dropped = count_of(&it, "fetches dropped of 1").unwrap();
    assert_eq!(dropped, 999 + (1000 - 64));
    while it.core_mut().acted.len() < 64 {
        work(&mut it, NOW);
    }
    hears(&mut it, 2, Frame::Blocks(0));
    assert_eq!(messages_sent(&mut it), 32, "others are answered");
}

#[test]
fn an_answer_ends_where_the_queue_of_the_peer_has_no_room() {
    let mut it = engine(Options::default());
    it.core_mut().gives = vec![vec![7; 1000]; 10];
    let frame = Frame::Blocks(0);
    it.take(Input::Frame { peer: 1, frame, room: 7000 }, NOW).unwrap();
    assert_eq!(messages_sent(&mut it), 3, "half of the room is for other messages");
}

#[test]
fn clients_are_refused_above_the_bound_and_after_the_end() {
    let mut it = engine(Options { max_waiting: 5, ..Options::default() });
    opened(&mut it);
    let mut submit = |ticket, txs: &[Tx]| {
        it.take(Input::Submit { ticket, txs: txs.to_vec() }, NOW).unwrap();
        let answers = it.outputs().into_iter().filter_map(|it| match it {
            Output::Answer(_, answer) => Some(answer),
            _ => None,
        });
        answers.collect::<Vec<_>>()
    };
    assert_eq!(submit(1, &burst()[..6]), [Answer::Busy]);
    assert_eq!(submit(2, &burst()[..5]), []);
    it.take(Input::Close, NOW).unwrap();
    it.take(Input::Submit { ticket: 3, txs: burst()[..1].to_vec() }, NOW).unwrap();
    assert_eq!(it.outputs().last(), Some(&Output::Answer(3, Answer::Closed)));
}

/// What one peer tells at a start takes the place of others' for a moment only: they tell it again.
#[test]
fn what_waits_at_a_start_is_bounded() {
    let mut it = engine(Options::default());
    for part in 0..40 {
        let made = |at: u32| Tx { client: 1, number: part * 1024 + at, payload: 0 };
        let receipts = (0..1024).map(|at| Receipt { tx: made(at), stamp: 1 }).collect();
        hears(&mut it, 1, Frame::Receipts { clock: 1, receipts });
    }
    (2..4).for_each(|peer| hears(&mut it, peer, Frame::Receipts { clock: 0, receipts: vec![] }));
    assert_eq!(it.status(NOW).queued, 16_384);
}

#[test]
fn a_flood_of_receipts_is_dropped_and_counted() {
    let mut it = engine(Options::default());
    opened(&mut it);
    for number in 0..1000 {
        let tx = Tx { client: 1, number, payload: 0 };
        let receipts = vec![Receipt { tx, stamp: u64::from(number) + 1 }];
        hears(&mut it, 4, Frame::Receipts { clock: 1000, receipts });
    }
    assert_eq!(count_of(&it, "receipts dropped of 4"), Some(800));
    assert_eq!(it.status(NOW).queued, 200);
    assert!(it.outputs().contains(&Output::Freed(4, 1000)), "each slot is free again");
}

/// Once a proposal is out, the replica goes to the next view, and has the next one.
/// Its next turn enters a view, and sends a proposal.
fn proposes(it: &mut Engine<Played>, view: u32) {
    it.core_mut().left = view;
    it.core_mut().sends = vec![Message { to: 1, bytes: vec![2, 4, 0] }];
    hears(it, 1, message(VOTE));
}

#[test]
fn a_held_proposal_goes_out_in_its_moment() {
    let mut it = engine(Options::default());
    opened(&mut it);
    it.take(Input::Submit { ticket: 1, txs: burst()[..20].to_vec() }, NOW).unwrap();
    work(&mut it, NOW);
    let _ = it.outputs();
    for view in 0..13 {
        proposes(&mut it, view);
        work(&mut it, NOW);
    }
    work(&mut it, NOW + Duration::from_millis(20));
    assert_eq!(messages_sent(&mut it), 12, "those that are free");
    let at = it.wake_at();
    assert!(at < NOW + Duration::from_millis(26), "before the next regular look");
    work(&mut it, at);
    assert_eq!(messages_sent(&mut it), 1);
}

#[test]
fn proposals_are_paced() {
    let mut it = engine(Options::default());
    opened(&mut it);
    it.take(Input::Submit { ticket: 1, txs: burst()[..1].to_vec() }, NOW).unwrap();
    work(&mut it, NOW);
    let (mut made, mut sent) = (0, 0);
    for step in 1..=100 {
        if made == sent {
            proposes(&mut it, made as u32);
            made += 1;
        }
        work(&mut it, NOW + Duration::from_millis(10 * step));
        sent += messages_sent(&mut it);
    }
    // Twelve that are free, and ten in a second.
    assert!((20..=23).contains(&sent), "{sent}");
}
