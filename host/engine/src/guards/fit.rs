//! Messages that no honest replica sends, by their first bytes and their size.

use crate::setting::Place;
use crate::wire::{self, Kind};

/// Whether an honest peer may send a message to this replica.
///
/// The core refuses any other one. But before that its seals are checked, and there may be 33 of them,
/// which a faulty peer copies from old blocks. So it is looked at first whether a message names its
/// sender and a view of the session, comes from the view's leader or goes to it, and is no longer than
/// a message of its kind can be.
pub fn is_fit(place: &Place, peer: u32, data: &[u8]) -> bool {
    let Some(kind) = wire::kind_of(data) else { return false };
    if data.len() > wire::max_size(kind, place.n) {
        return false;
    }
    let Some((sender, view)) = wire::sender_and_view(data) else {
        return matches!(kind, Kind::Fetch | Kind::Give);
    };
    let is_in_session = 0 < view && view <= place.views;
    is_in_session && sender == peer && is_led(place, kind, peer, view)
}

/// Whether a message about a view comes from the right replica, and goes to the right one.
fn is_led(place: &Place, kind: Kind, peer: u32, view: u32) -> bool {
    match kind {
        Kind::Ask | Kind::Propose => place.leader_of(view) == peer,
        Kind::NewView | Kind::Order => place.leader_of(view) == place.me,
        Kind::Vote => place.leader_of(view + 1) == place.me,
        Kind::Fetch | Kind::Give => true,
    }
}

#[cfg(test)]
mod tests {
    use super::*;

    const PLACE: Place = Place { me: 0, n: 5, f: 1, views: 100 };

    fn message(kind: u8, sender: u8, view: u8) -> Vec<u8> {
        vec![2, kind, sender, 0, 0, 0, view]
    }

    #[test]
    fn what_an_honest_peer_sends() {
        // A call and an order go to the leader of their view, a vote to that of the next one.
        for (kind, view) in [(1, 5), (2, 6), (3, 5), (4, 6), (5, 4), (5, 99)] {
            assert!(is_fit(&PLACE, 1, &message(kind, 1, view)), "{kind} {view}");
        }
        assert!(is_fit(&PLACE, 1, &[2, 7, 0, 0, 0, 9]) && is_fit(&PLACE, 1, &[2, 6, 0]));
    }

    #[test]
    fn what_it_does_not_send() {
        for (kind, view) in [(1, 6), (2, 5), (3, 6), (4, 5), (5, 5), (4, 101), (5, 0), (2, 0)] {
            assert!(!is_fit(&PLACE, 1, &message(kind, 1, view)), "{kind} {view}");
        }
        assert!(!is_fit(&PLACE, 1, &message(4, 2, 6)), "another sender");
        assert!(!is_fit(&PLACE, 1, &[1, 4, 1, 0, 0, 0, 6]), "no message");
        assert!(!is_fit(&PLACE, 1, &[2, 4, 1, 0, 0, 0]), "no view");
        for kind in 1..8 {
            let mut long = message(kind, 1, if kind == 5 { 4 } else { 5 + kind % 2 });
            long.resize(200_000, 0);
            assert!(!is_fit(&PLACE, 1, &long), "{kind} is too long");
        }
    }
}
