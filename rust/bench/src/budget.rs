//! The time of a run, shared out among what is timed.

use std::time::{Duration, Instant};

/// What is left of the time, and of the weights of all that is still to be timed.
pub struct Budget {
    begin: Instant,
    whole: Duration,
    weights: usize,
}

impl Budget {
    pub fn new(whole: Duration, weights: usize) -> Budget {
        Budget { begin: Instant::now(), whole, weights }
    }

    /// The time for the next of the things, which has this weight. What one of them leaves goes to those after it.
    pub fn share(&mut self, weight: usize) -> Duration {
        let left = self.whole.saturating_sub(self.begin.elapsed());
        let share = left.mul_f64(weight as f64 / self.weights.max(weight) as f64);
        self.weights = self.weights.saturating_sub(weight);
        share
    }

    /// How long it has taken, of how long.
    pub fn spent(&self) -> String {
        let clock = |time: Duration| format!("{}:{:02}", time.as_secs() / 60, time.as_secs() % 60);
        format!("{} of {}", clock(self.begin.elapsed()), clock(self.whole))
    }
}

#[cfg(test)]
mod tests {
    use super::*;

    #[test]
    fn the_last_gets_all_that_is_left() {
        let mut budget = Budget::new(Duration::from_secs(3600), 10);
        assert!(budget.share(4) <= Duration::from_secs(1440));
        assert!(budget.share(6) > Duration::from_secs(3500));
        assert!(budget.share(1) > Duration::from_secs(3500));
    }
}
