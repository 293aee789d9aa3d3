//! Judges this instance's clock by those of the others and of the store. With a wrong clock it would reject good points
//! and tell their senders that their clocks are wrong.

use std::time::Duration;

/// How many heartbeats in a row must find a change before it counts: a store that fails over has another clock.
const SURE: u32 = 4;

#[derive(Default)]
pub(super) struct OwnClock {
    /// How far it may be off; none if that does not matter.
    most: Option<i64>,
    /// How many microseconds it is ahead of the store's.
    now: Option<i64>,
    is_off: bool,
    /// How many heartbeats have found the opposite of `is_off`.
    otherwise: u32,
    /// How many microseconds it is ahead of the clock with which most agree.
    ahead: i64,
    has_begun: bool,
}

impl OwnClock {
    pub fn of(most: Option<Duration>) -> OwnClock {
        let most = most.map(|most| i64::try_from(most.as_micros()).unwrap_or(i64::MAX));
        OwnClock { most, ..OwnClock::default() }
    }

    /// What the others are told.
    pub fn now(&self) -> Option<i64> {
        self.now
    }

    /// How many microseconds the clock is ahead, if it is off; below 0 if it is behind.
    pub fn off(&self) -> Option<i64> {
        self.is_off.then_some(self.ahead)
    }

    /// Whether a clock that is this many microseconds ahead of the store's is right, while ours is off.
    pub fn is_right(&self, other: i64) -> bool {
        let best = self.now.unwrap_or_default().saturating_sub(self.ahead);
        self.most.is_some_and(|most| other.abs_diff(best) <= most.unsigned_abs())
    }

    /// Takes the clocks that a heartbeat has found. Ours is off if another clock, possibly the store's, agrees with
    /// more clocks; or if the store's agrees with as many, and ours not with it.
    pub fn note(&mut self, own: Option<i64>, others: impl Iterator<Item = i64>) {
        self.now = own.or(self.now);
        let (Some(own), Some(most)) = (own, self.most) else { return };
        let all: Vec<i64> = [0, own].into_iter().chain(others).collect();
        let agree = |one: i64, other: i64| one.abs_diff(other) <= most.unsigned_abs();
        let agreeing = |one: i64| all.iter().filter(|other| agree(one, **other)).count();
        // Takes the last of several equals, so the store's wins among its like.
        let best = all.iter().rev().copied().max_by_key(|one| agreeing(*one)).unwrap_or_default();
        let is_off = agreeing(own) < agreeing(best) || best == 0 && !agree(own, best);
        self.ahead = own.saturating_sub(best);
        self.otherwise = if is_off == self.is_off { 0 } else { self.otherwise + 1 };
        if self.otherwise >= SURE || !self.has_begun {
            (self.is_off, self.otherwise) = (is_off, 0);
        }
        self.has_begun = true;
    }
}

#[cfg(test)]
mod tests {
    use super::*;

    const SECOND: i64 = 1_000_000;

    fn off(own: i64, others: &[i64]) -> Option<i64> {
        let mut clock = OwnClock::of(Some(Duration::from_secs(60)));
        clock.note(Some(own * SECOND), others.iter().map(|other| other * SECOND));
        clock.off().map(|ahead| ahead / SECOND)
    }

    #[test]
    fn a_clock_is_off_if_others_agree_with_more() {
        assert_eq!(
            (off(60, &[]), off(61, &[]), off(-61, &[])),
            (None, Some(61), Some(-61)),
            "the store's alone"
        );
        assert_eq!((off(3600, &[0, 1]), off(-3600, &[0, 1])), (Some(3600), Some(-3600)));
        assert_eq!((off(3600, &[3601, 3599]), off(3600, &[3601])), (None, None), "the store's is wrong");
        assert_eq!((off(0, &[3600]), off(0, &[3600, -3600])), (None, None), "those of others are wrong");
        assert_eq!(
            (off(0, &[3600, 3601]), off(3600, &[3601, 1])),
            (None, Some(3600)),
            "as many, and the store's"
        );
    }

    /// As when the store fails over to a server with a wrong clock: ours seems off until the others have read that
    /// clock too.
    #[test]
    fn what_a_beat_finds_otherwise_counts_once_it_stays() {
        let mut clock = OwnClock::of(Some(Duration::from_secs(60)));
        let mut find = |own: i64| {
            clock.note(Some(own * SECOND), [].into_iter());
            clock.off().is_some()
        };
        assert!(!find(0));
        assert_eq!([90, 90, 90, 0, 90, 90, 90].map(&mut find), [false; 7]);
        assert_eq!([90, 90, 0, 0, 0, 0].map(&mut find), [true, true, true, true, true, false]);
        let mut free = OwnClock::of(None);
        free.note(Some(3600 * SECOND), [].into_iter());
        assert_eq!((free.off(), free.now()), (None, Some(3600 * SECOND)), "nothing hangs on it");
    }
}
