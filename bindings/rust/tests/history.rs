//! The history of a chain of two sessions, and what may arrive in the second one.

use themis::{Error, History, Tx};

const MARKER: Tx = tx(0, 0);
const OTHER: Tx = tx(0, 2);
const FIRST: Tx = tx(1, 1);
const SECOND: Tx = tx(2, 1);
const THIRD: Tx = tx(3, 1);

const fn tx(client: u32, number: u32) -> Tx {
    Tx {
        client,
        number,
        payload: 0,
    }
}

/// A session in which three transactions arrived, and one is final.
fn ended() -> History {
    let mut history = History::new();
    history.check(0, &[], &[FIRST, SECOND, MARKER]).unwrap();
    assert_eq!(history.add(0, &[FIRST]), Ok(false));
    assert_eq!(history.add(0, &[MARKER]), Ok(true));
    history
}

#[test]
fn what_is_carried_over_arrives_first() {
    let (mut history, before) = (ended(), [FIRST, SECOND, MARKER]);
    assert_eq!(history.carried(&before), Ok(vec![SECOND]));
    assert_eq!(history.check(1, &before, &[SECOND, THIRD]), Ok(()));
    for arrived in [&[THIRD, SECOND][..], &[]] {
        assert_eq!(history.check(1, &before, arrived), Err(Error::NotCarried));
    }
}

#[test]
fn nothing_final_and_no_other_marker_arrives() {
    let mut history = ended();
    let again = Err(Error::AlreadyFinal { at: 1 });
    assert_eq!(history.check(1, &[], &[OTHER, FIRST]), again);
    let other = Err(Error::OtherMarker { at: 0 });
    assert_eq!(history.check(1, &[], &[OTHER, SECOND]), other);
}

#[test]
fn a_batch_with_what_is_final_adds_nothing() {
    let mut history = ended();
    let again = Err(Error::AlreadyFinal { at: 1 });
    assert_eq!(history.add(1, &[SECOND, FIRST]), again);
    assert_eq!(history.check(1, &[], &[SECOND]), Ok(()));
}
