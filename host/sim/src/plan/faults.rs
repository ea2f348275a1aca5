//! What goes wrong in a run: faults, and what a faulty replica does.

use rand::seq::SliceRandom;
use rand::{Rng, SeedableRng};
use rand_chacha::ChaCha8Rng;
use themis_deeds::Deed;

use super::{Fault, FaultKind, Plan, DEEDS_OF_MANY, LONGEST_SHORT_FAULT};
use crate::change::Step;

impl Plan {
    pub(super) fn draw_deeds(&mut self, rng: &mut ChaCha8Rng) {
        if rng.gen_ratio(2, 5) {
            let count = rng.gen_range(1..3);
            let known: Vec<Deed> = Deed::all().filter(|it| !it.is_over_sessions()).collect();
            self.deeds = known.choose_multiple(rng, count).copied().collect();
        }
    }

    pub(super) fn draw_deeds_of_many(&mut self, rng: &mut ChaCha8Rng) {
        if rng.gen_ratio(1, 2) {
            let count = rng.gen_range(1..3);
            self.deeds = DEEDS_OF_MANY.choose_multiple(rng, count).copied().collect();
        }
    }

    /// Crashes between the steps of changes, replicas that are away over some, and lost logs. With a
    /// faulty replica as well, more than f could miss the keys of a session.
    pub(super) fn draw_faults_of_many(&mut self, rng: &mut ChaCha8Rng) {
        let steps = [Step::Store, Step::Open, Step::Mark, Step::Recover];
        for _ in 0..rng.gen_range(0..6) {
            let step = *steps.choose(rng).unwrap_or(&Step::Store);
            let kind = FaultKind::CrashAt(step, rng.gen());
            let (at, replica) = (rng.gen_range(0..self.span), rng.gen_range(0..self.n));
            self.faults.push(Fault { at, span: 20, replica, kind });
        }
        let is_away = rng.gen_ratio(1, 2);
        if is_away && self.deeds.is_empty() {
            let kinds = [FaultKind::Crash, FaultKind::Alone, FaultKind::LoseLog];
            let kind = *kinds.choose(rng).unwrap_or(&FaultKind::Crash);
            let (at, span) = (rng.gen_range(0..self.span / 2), rng.gen_range(500..4000));
            self.faults.push(Fault { at, span, replica: rng.gen_range(0..self.n), kind });
        }
        self.faults.sort_by_key(|it| it.at);
    }

    /// In half of the runs in which a replica would lose a log it loses its store. All else is as it
    /// was drawn.
    pub(super) fn draw_lost_store(&mut self, is_wanted: bool) {
        let mut rng = ChaCha8Rng::seed_from_u64(!self.seed);
        for it in self.faults.iter_mut().filter(|it| it.kind == FaultKind::LoseLog) {
            if rng.gen() {
                it.kind = FaultKind::LoseStore;
            }
        }
        if is_wanted {
            self.deeds.clear();
            self.faults.retain(|it| it.span <= LONGEST_SHORT_FAULT);
            let (at, span) = (rng.gen_range(0..self.span), rng.gen_range(100..2000));
            let (replica, kind) = (rng.gen_range(0..self.n), FaultKind::LoseStore);
            self.faults.push(Fault { at, span, replica, kind });
            self.faults.sort_by_key(|it| it.at);
        }
        if self.faults.iter().any(|it| it.kind == FaultKind::LoseStore) {
            // Its key may be missing, and then the marker waits for three quarters of the views.
            self.views = self.views.max(100);
        }
    }

    pub(super) fn draw_ends(&mut self, rng: &mut ChaCha8Rng) {
        let mut at = 0;
        while at < self.span {
            at += rng.gen_range(400..1200);
            self.ends.push(at);
        }
        // A replica is alone over an end. What a client submits to it meanwhile is carried over.
        if rng.gen_ratio(2, 3) {
            let end = *self.ends.choose(rng).unwrap_or(&at);
            let (replica, span) = (rng.gen_range(0..self.n), rng.gen_range(400..900));
            let (at, kind) = (end.saturating_sub(100), FaultKind::Alone);
            self.faults.push(Fault { at, span, replica, kind });
            self.faults.sort_by_key(|it| it.at);
        }
    }

    pub(super) fn draw_faults(&mut self, rng: &mut ChaCha8Rng) {
        for _ in 0..rng.gen_range(0..if self.is_long { 6 } else { 4 }) {
            let replica = rng.gen_range(0..self.n);
            let peer = (replica + rng.gen_range(1..self.n)) % self.n;
            let kind = match rng.gen_range(0..12) {
                0 | 1 => FaultKind::Crash,
                2 => FaultKind::Tear(rng.gen()),
                3 => FaultKind::CrashAfterWrite,
                4 => FaultKind::Rot(rng.gen()),
                5 => FaultKind::Full,
                6 => FaultKind::Slow(rng.gen_range(10..300)),
                7 => FaultKind::Cut(peer),
                8 => FaultKind::OneWay(peer),
                9 => FaultKind::Alone,
                _ => FaultKind::Break(peer),
            };
            let lasts = self.is_long && rng.gen_ratio(1, 3);
            let span = rng.gen_range(20..if lasts { 4000 } else { LONGEST_SHORT_FAULT });
            self.faults.push(Fault { at: rng.gen_range(0..self.span), span, replica, kind });
        }
        self.faults.sort_by_key(|it| it.at);
    }
}
