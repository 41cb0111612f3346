//! How long a client waits before it asks a server once more (draft 19, section 5).

use super::moment::Moment;
use std::time::Duration;

/// What the wait grows by with each failure.
const BASE: f64 = 1.5;

/// The longest wait, in seconds: 24 hours.
const LONGEST: f64 = 86_400.0;

/// The tries of one server since it last answered, and when the next one may be.
#[derive(Clone, Copy, Debug, Default)]
pub struct Backoff {
    failures: i32,
    next: Moment,
}

impl Backoff {
    /// A try begins, which has failed where no answer comes: after n failures the next one may be
    /// min(1.5^(n-1), 86400) seconds later.
    pub fn tries(&mut self, now: Moment) {
        self.failures = self.failures.saturating_add(1);
        let wait = BASE.powi(self.failures - 1).min(LONGEST);
        self.next = now.after(Duration::from_secs_f64(wait));
    }

    /// When the next try may be.
    pub fn next(&self) -> Moment {
        self.next
    }

    /// Starts over. This is for a properly signed response only: whoever can send a packet could
    /// else make a client ask without a pause.
    pub fn answered(&mut self) {
        *self = Backoff::default();
    }
}

#[cfg(test)]
mod tests {
    use super::*;

    fn waits(backoff: &mut Backoff, count: usize) -> Vec<f64> {
        let wait = |_| {
            let now = Moment::now();
            backoff.tries(now);
            now.until(backoff.next()).as_secs_f64()
        };
        (0..count).map(wait).collect()
    }

    #[test]
    fn the_wait_grows_by_half_up_to_a_day() {
        let waits = waits(&mut Backoff::default(), 40);
        assert_eq!(waits[..5], [1.0, 1.5, 2.25, 3.375, 5.0625]);
        // 1.5^28 is the last below 86,400.
        assert!((85_222.0..85_223.0).contains(&waits[28]));
        assert!(waits[29..].iter().all(|wait| *wait == 86_400.0));
    }

    #[test]
    fn an_answer_starts_it_over() {
        let mut backoff = Backoff::default();
        assert!(backoff.next().is_past());
        assert_eq!(waits(&mut backoff, 2), [1.0, 1.5]);
        backoff.answered();
        assert!(backoff.next().is_past());
        assert_eq!(waits(&mut backoff, 1), [1.0]);
    }

    #[test]
    fn any_number_of_failures_is_counted() {
        let mut backoff = Backoff { failures: i32::MAX - 1, next: Moment::default() };
        assert_eq!(waits(&mut backoff, 2), [86_400.0; 2]);
    }
}
