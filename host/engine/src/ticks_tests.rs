//! Ticks, while records are being written.

use super::*;

/// All peers wait in view 1.
fn hear_all(it: &mut Engine<Played>, now: Time) {
    let standing = Standing { view: 1, waiting: 1, ..Standing::default() };
    for peer in 1..5 {
        let frame = Frame::Status(standing);
        it.take(Input::Frame { peer, frame, room: 0 }, now).unwrap();
    }
}

/// A disk is slower than a timeout: the tick that is being written is the only one, and counts once.
#[test]
fn a_tick_counts_once_while_it_is_written() {
    let mut it = engine(Options::default());
    let step = Options::default().timeout + Duration::from_millis(10);
    hear_all(&mut it, NOW);
    let mut now = NOW + step;
    let pending = it.prepare(now).unwrap().unwrap();
    for _ in 0..5 {
        now = now + step;
        hear_all(&mut it, now);
        assert!(it.prepare(now).unwrap().is_none());
    }
    it.core_mut().left = 1;
    it.durable(pending);
    while it.turn(now).unwrap() {}
    drop(it.prepare(now).unwrap());
    let is_tick = |it: &&Event| matches!(it, Event::Tick(_));
    assert_eq!(it.core_mut().acted.iter().filter(is_tick).count(), 1);
    assert_eq!(it.counters.ticks, 1);
}
