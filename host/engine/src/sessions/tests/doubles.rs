//! A number that is used for two transactions.

use std::time::Duration;

use themis::Receipt;

use super::*;

/// The peers of a replica at which one transaction of a number arrived alone take it, although another
/// one of that number is final. If it is final too, in a session that has ended, they do not.
#[test]
fn a_number_that_was_used_twice_keeps_no_place_for_ever() {
    let mut it = running(core_with(&[vec![tx(1), tx(2)]]));
    hear(&mut it, 1, vote(1, 0), NOW);
    let double = |number| Tx { payload: 5, ..tx(number) };
    let receipts = vec![double(1), double(2), tx(1)];
    let receipts = receipts.into_iter().map(|tx| Receipt { tx, stamp: 1 });
    let of_peer = [receipts.collect(), Vec::new(), Vec::new()];
    for (peer, receipts) in (1..).zip(of_peer) {
        let frame = Frame::Receipts { clock: 1, receipts };
        hear(&mut it, peer, SessionFrame::In { session: 0, frame }, NOW);
    }
    let later = NOW + Duration::from_secs(1);
    work(&mut it, later);
    assert!(arrived(&mut it).is_empty());
    let outputs = it.outputs().into_iter();
    let mut searches =
        outputs.filter_map(|it| if let Output::Search(it) = it { Some(it) } else { None });
    let search = searches.next().unwrap();
    assert!(search.txs().eq(&[double(1), double(2)]));
    let stored = [double(2)].into_iter().collect();
    it.take(Input::Searched(search.searched(&stored)), later).unwrap();
    work(&mut it, later + Duration::from_secs(1));
    assert_eq!(arrived(&mut it), [double(1)]);
}
