//! Limits how often something is logged that may happen at any rate.

use crate::work::locked;
use std::sync::Mutex;
use std::time::{Duration, Instant};

/// Allows one event in each interval.
pub struct RateLimit {
    between: Duration,
    last: Mutex<Option<Instant>>,
}

impl RateLimit {
    /// Allows one a second.
    pub const fn new() -> RateLimit {
        RateLimit::every(Duration::from_secs(1))
    }

    pub const fn every(between: Duration) -> RateLimit {
        RateLimit { between, last: Mutex::new(None) }
    }

    /// Whether the caller may log now.
    pub fn is_due(&self) -> bool {
        self.is_due_at(Instant::now())
    }

    pub(super) fn is_due_at(&self, now: Instant) -> bool {
        let mut last = locked(&self.last);
        let is_due = last.is_none_or(|last: Instant| now >= last + self.between);
        if is_due {
            *last = Some(now);
        }
        is_due
    }
}

#[cfg(test)]
mod tests {
    use super::*;

    #[test]
    fn once_a_second() {
        let (rate_limit, begun) = (RateLimit::new(), Instant::now());
        let told = |millis| rate_limit.is_due_at(begun + Duration::from_millis(millis));
        assert_eq!(
            [0, 1, 999, 1000, 1500, 2000, 9000].map(told),
            [true, false, false, true, false, true, true]
        );
    }
}
