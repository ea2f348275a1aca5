use std::collections::BTreeSet;

use super::*;

fn tx(client: u32, number: u32) -> Tx {
    Tx { client, number, payload: 0 }
}

/// The same answers from a set of all final numbers, which grows.
struct Plain {
    finals: BTreeSet<u64>,
    base: u64,
}

impl Plain {
    fn check(&self, number: u32) -> Check {
        let (number, base) = (u64::from(number), self.base);
        if number < base {
            Check::BelowWindow
        } else if number - base >= WINDOW {
            Check::TooFarAhead
        } else if self.finals.contains(&number) {
            Check::Repeat
        } else {
            Check::New
        }
    }

    fn settle(&mut self, number: u32) {
        if self.check(number) == Check::TooFarAhead {
            self.base = u64::from(number) + 1 - WINDOW;
        }
        self.finals.insert(u64::from(number));
        while self.finals.contains(&self.base) {
            self.base += 1;
        }
    }
}

/// Numbers that seem random, and are the same in each run.
struct Draws(u64);

impl Draws {
    fn below(&mut self, limit: u64) -> u64 {
        self.0 =
            self.0.wrapping_mul(6_364_136_223_846_793_005).wrapping_add(1_442_695_040_888_963_407);
        (self.0 >> 33) % limit
    }
}

#[test]
fn in_order_a_client_costs_no_bits() {
    let mut window = Window::default();
    assert_eq!(window.check(0), Check::BelowWindow);
    for number in 1..=5000 {
        assert_eq!(window.check(number), Check::New, "{number}");
        assert_eq!(window.settle(number), Settled::New);
        assert_eq!((window.base(), window.ahead()), (u64::from(number) + 1, None));
    }
    assert_eq!(window.check(5000), Check::BelowWindow);
    assert_eq!(window.settle(17), Settled::Repeat);
    assert_eq!(window.base(), 5001);
}

#[test]
fn a_gap_holds_the_window_until_it_is_filled() {
    let mut window = Window::default();
    for number in 2..=1024 {
        assert_eq!(window.check(number), Check::New, "{number}");
        assert_eq!(window.settle(number), Settled::New);
    }
    assert_eq!(window.base(), 1);
    assert_eq!(window.check(2), Check::Repeat);
    assert_eq!(window.check(1024), Check::Repeat);
    assert_eq!(window.check(1025), Check::TooFarAhead);
    assert_eq!(window.check(1), Check::New);
    assert_eq!(window.settle(1), Settled::New);
    assert_eq!((window.base(), window.ahead()), (1025, None));
    assert_eq!(window.check(1024), Check::BelowWindow);
    assert_eq!(window.check(2048), Check::New);
    assert_eq!(window.check(2049), Check::TooFarAhead);
}

#[test]
fn a_number_above_the_window_makes_it_jump() {
    let mut window = Window::default();
    window.settle(3);
    window.settle(900);
    assert_eq!(window.settle(1025), Settled::Jumped); // the window is now 2 to 1,025
    assert_eq!((window.base(), window.check(1)), (2, Check::BelowWindow));
    assert_eq!((window.check(3), window.check(900)), (Check::Repeat, Check::Repeat));
    assert_eq!(window.settle(2), Settled::New);
    assert_eq!(window.base(), 4);
    assert_eq!(window.settle(1_000_000), Settled::Jumped);
    assert_eq!(window.base(), 998_977);
    assert_eq!(window.check(998_977 + 900), Check::New); // no bit of before is left
    assert_eq!(window.check(1_000_000), Check::Repeat);
}

#[test]
fn the_last_numbers_of_all() {
    let mut window = Window::default();
    assert_eq!(window.settle(u32::MAX), Settled::Jumped);
    for number in u32::MAX - 1023..u32::MAX {
        assert_eq!(window.settle(number), Settled::New);
    }
    assert_eq!((window.base(), window.ahead()), (1 << 32, None));
    assert_eq!(window.check(u32::MAX), Check::BelowWindow);
    assert_eq!(Window::from_parts(1 << 32, None), Some(window));
}

#[test]
fn as_a_plain_set_says() {
    for seed in 0..40 {
        let (mut window, mut draws) = (Window::default(), Draws(seed));
        let mut plain = Plain { finals: BTreeSet::new(), base: FIRST };
        for _ in 0..4000 {
            let jumps = draws.below(400) == 0 && seed % 2 == 0;
            let span = if jumps { 5000 } else { 1040 };
            let number = plain.base.saturating_sub(8) + draws.below(span);
            // Mostly the number that is missing, so that the window moves.
            let number = if draws.below(3) > 0 { plain.base } else { number } as u32;
            let expected = plain.check(number);
            assert_eq!(window.check(number), expected, "seed {seed}, number {number}");
            if expected != Check::TooFarAhead || jumps {
                plain.settle(number);
                let settled = window.settle(number);
                assert_eq!(settled == Settled::New, expected == Check::New);
                assert_eq!(settled == Settled::Jumped, expected == Check::TooFarAhead);
            }
            assert_eq!(window.base(), plain.base);
        }
        let stored = Window::from_parts(window.base(), window.ahead().copied());
        assert_eq!(stored, Some(window));
    }
}

#[test]
fn no_window_has_such_parts() {
    let first = {
        let mut bits = Bits::default();
        bits[0] = 1 << 1;
        bits
    };
    assert_eq!(Window::from_parts(0, None), None); // numbers start at 1
    assert_eq!(Window::from_parts((1 << 32) + 1, None), None); // and end there
    assert_eq!(Window::from_parts(1, Some(Bits::default())), None); // no bits are stored as none
    assert_eq!(Window::from_parts(1, Some(first)), None); // the base is not final
    assert!(Window::from_parts(2, Some(first)).is_some());
}

#[test]
fn clients_are_apart_and_bounded() {
    let mut windows = Windows::default();
    for own in [0, OWN_CLIENTS, u32::MAX] {
        assert_eq!(windows.check(&tx(own, 1)), Check::Reserved);
    }
    assert_eq!(windows.settle(&tx(0, 1)), Settled::New);
    assert!(windows.is_empty() && !has_window(0) && has_window(1) && has_window(u32::MAX));
    // What is final of a replica's keys is known, and counts as no client.
    windows.settle(&tx(OWN_CLIENTS, 9));
    let is_open = |it: &Windows, number| it.is_open(&tx(OWN_CLIENTS, number));
    assert!(is_open(&windows, 8) && !is_open(&windows, 9) && is_open(&windows, 10));
    windows.settle(&tx(OWN_CLIENTS, 5000));
    assert!(!is_open(&windows, 8) && is_open(&windows, 4999) && !is_open(&windows, 5001));
    assert_eq!(windows.check(&tx(7, 1025)), Check::TooFarAhead);
    for client in 1..=MAX_CLIENTS as u32 {
        assert_eq!(windows.check(&tx(client, 1)), Check::New);
        windows.settle(&tx(client, 1));
    }
    let new = MAX_CLIENTS as u32 + 1;
    assert_eq!(windows.check(&tx(new, 1)), Check::TooManyClients);
    assert_eq!(windows.check(&tx(7, 1)), Check::BelowWindow);
    assert_eq!(windows.check(&tx(7, 2)), Check::New);
    // It was in flight.
    assert_eq!(windows.settle(&tx(new, 1)), Settled::New);
    assert_eq!((windows.len(), windows.check(&tx(new, 2))), (MAX_CLIENTS + 2, Check::New));
}

#[test]
fn what_a_client_costs() {
    assert_eq!(std::mem::size_of::<(u32, Window)>(), 24);
    assert_eq!(std::mem::size_of::<Bits>(), 128);
}

/// A replica takes a number only where it is in its own window. Then no final number is above the
/// window of the final list, also where replicas are behind: windows only move up.
#[test]
fn what_replicas_took_is_never_above_the_window() {
    for seed in 0..30 {
        let mut draws = Draws(seed);
        let mut list: Vec<u32> = Vec::new();
        let mut all = Window::default();
        let mut behind: Vec<(usize, Window)> = vec![(0, Window::default()); 4];
        let mut taken: BTreeSet<u32> = BTreeSet::new();
        for _ in 0..3000 {
            let at = draws.below(4) as usize;
            let (known, window) = &mut behind[at];
            let more = draws.below(40) as usize;
            for number in list[*known..].iter().take(more) {
                window.settle(*number);
                *known += 1;
            }
            let number = (window.base() + draws.below(1100)) as u32;
            if window.check(number) == Check::New && !list.contains(&number) {
                taken.insert(number);
            }
            if draws.below(2) == 0 && !taken.is_empty() {
                let chosen = draws.below(taken.len() as u64) as usize;
                let number = *taken.iter().nth(chosen).unwrap();
                taken.remove(&number);
                assert_eq!(all.settle(number), Settled::New);
                list.push(number);
            }
        }
        assert!(taken.iter().all(|it| all.check(*it) == Check::New));
    }
}
