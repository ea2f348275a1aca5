//! How much of something is allowed over time.

use crate::time::Time;

/// `rate` a second, and at most `burst` at a time.
#[derive(Clone, Copy, Debug)]
pub struct Budget {
    rate: f64,
    burst: f64,
    left: f64,
    at: Option<Time>,
}

impl Budget {
    /// A budget that is full.
    pub fn new(rate: f64, burst: f64) -> Budget {
        Budget { rate, burst, left: burst, at: None }
    }

    /// What is left by now, refilled at another rate from now on.
    pub fn refill(&mut self, rate: f64, now: Time) -> f64 {
        if let Some(at) = self.at.replace(now) {
            self.left = self.burst.min(self.left + now.since(at).as_secs_f64() * self.rate);
        }
        self.rate = rate;
        self.left
    }

    /// Whether that much is within the budget; it is taken from it then.
    pub fn take(&mut self, amount: f64, now: Time) -> bool {
        let is_within = self.refill(self.rate, now) >= amount;
        if is_within {
            self.left -= amount;
        }
        is_within
    }

    /// Takes that much in any case; the debt is at most one burst.
    pub fn spend(&mut self, amount: f64, now: Time) {
        self.left = (self.refill(self.rate, now) - amount).max(-self.burst);
    }

    /// Takes that much, as far as it is there; nothing is owed.
    pub fn use_up(&mut self, amount: f64, now: Time) {
        self.left = (self.refill(self.rate, now) - amount).max(0.0);
    }

    /// Whether something is left.
    pub fn has_left(&mut self, now: Time) -> bool {
        self.refill(self.rate, now) >= 1.0
    }
}

#[cfg(test)]
mod tests {
    use super::*;
    use std::time::Duration;

    #[test]
    fn it_fills_again() {
        let now = Time::default();
        let mut budget = Budget::new(2.0, 1.0);
        assert!(budget.take(1.0, now) && !budget.take(1.0, now));
        assert!(!budget.take(1.0, now + Duration::from_millis(400)));
        assert!(budget.take(1.0, now + Duration::from_millis(600)));
    }

    #[test]
    fn a_debt_is_bounded() {
        let now = Time::default();
        let mut budget = Budget::new(1.0, 4.0);
        budget.spend(100.0, now);
        assert!(!budget.has_left(now + Duration::from_secs(4)));
        assert!(budget.has_left(now + Duration::from_secs(5)));
    }
}
