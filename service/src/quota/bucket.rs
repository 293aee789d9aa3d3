//! Quotas of points a second: each sender has a token bucket of a minute's points, since senders usually post once a
//! minute. `Quotas` owns it.
//!
//! Of a bucket only the time at which it is full again is kept. A post moves that time by as long as its points take to
//! come back.

use std::collections::HashMap;
use std::time::{Duration, Instant};

/// How many seconds' worth of points a full bucket has.
pub const BURST: u64 = 60;
const ALL: Duration = Duration::from_secs(BURST);

/// The most senders with a bucket. If another one comes, full buckets are forgotten, which changes nothing; of the
/// others, those that are full soonest, up to half of all. So made-up names can't exceed the bound, and this is done
/// seldom.
const MOST: usize = 100_000;

/// The time at which each sender's bucket is full again.
#[derive(Default)]
pub struct Buckets(HashMap<String, Instant>);

/// How long these points take to come back.
pub fn cost(points: u64, most: u64) -> Duration {
    let nanoseconds = u128::from(points) * 1_000_000_000 / u128::from(most.max(1));
    Duration::from_nanos(u64::try_from(nanoseconds).unwrap_or(u64::MAX))
}

/// How many points come back in this time.
pub fn points(debt: Duration, most: u64) -> u64 {
    (debt.as_nanos() * u128::from(most) / 1_000_000_000) as u64
}

impl Buckets {
    /// Takes points from the bucket of a sender, or returns how long it has to wait. More than a full bucket is taken
    /// from a full one, since no bucket ever has as much.
    pub fn take(&mut self, sender: &str, cost: Duration, now: Instant) -> Result<(), Duration> {
        let full = self.0.get(sender).copied().unwrap_or(now).max(now);
        let debt = full - now;
        if let Some(wait) = (debt + cost.min(ALL)).checked_sub(ALL).filter(|wait| !wait.is_zero()) {
            return Err(wait);
        }
        self.make_room(now);
        self.0.insert(sender.to_string(), full + cost);
        Ok(())
    }

    /// Returns points to a sender's bucket.
    pub fn give_back(&mut self, sender: &str, cost: Duration) {
        if let Some(full) = self.0.get_mut(sender) {
            *full = full.checked_sub(cost).unwrap_or(*full);
        }
    }

    /// What is missing in each bucket that is not full.
    pub fn used(&self, now: Instant) -> HashMap<String, Duration> {
        let used = self.0.iter().filter(|(_, full)| **full > now);
        used.map(|(sender, full)| (sender.clone(), *full - now)).collect()
    }

    fn make_room(&mut self, now: Instant) {
        if self.0.len() < MOST {
            return;
        }
        self.0.retain(|_, full| *full > now);
        let mut times: Vec<Instant> = self.0.values().copied().collect();
        if let Some(many) = times.len().checked_sub(MOST / 2 + 1) {
            let (_, last, _) = times.select_nth_unstable(many);
            self.0.retain(|_, full| *full > *last);
        }
    }
}

#[cfg(test)]
mod tests {
    use super::*;

    const SECOND: Duration = Duration::from_secs(1);

    #[test]
    fn a_minute_s_points_come_at_once_and_then_by_time() {
        let (mut buckets, begun) = (Buckets::default(), Instant::now());
        let post = |buckets: &mut Buckets, points, after| buckets.take("A", cost(points, 10), begun + after);
        assert_eq!(post(&mut buckets, 600, Duration::ZERO), Ok(()));
        assert_eq!(post(&mut buckets, 10, Duration::ZERO), Err(SECOND));
        assert_eq!(buckets.take("B", cost(600, 10), begun), Ok(()), "another's is its own");
        assert_eq!(post(&mut buckets, 10, SECOND), Ok(()));
        assert_eq!(post(&mut buckets, 25, SECOND), Err(5 * SECOND / 2));
        assert_eq!(post(&mut buckets, 600, 30 * SECOND), Err(31 * SECOND));
        assert_eq!(post(&mut buckets, 600, 61 * SECOND), Ok(()));
    }

    #[test]
    fn what_is_given_back_is_there_again() {
        let (mut buckets, now) = (Buckets::default(), Instant::now());
        for _ in 0..100 {
            assert_eq!(buckets.take("A", ALL, now), Ok(()));
            buckets.give_back("A", ALL);
        }
        assert_eq!(buckets.used(now), HashMap::new());
        assert_eq!(buckets.take("A", cost(7, 1), now), Ok(()));
        assert_eq!(points(buckets.used(now)["A"], 1), 7);
    }

    /// Otherwise a post with more than a minute's points would be retried for ever.
    #[test]
    fn a_post_of_more_than_all_is_taken_from_a_full_bucket() {
        let (mut buckets, begun) = (Buckets::default(), Instant::now());
        let mut post = |after| buckets.take("A", cost(1000, 10), begun + after);
        assert_eq!(post(Duration::ZERO), Ok(()));
        assert_eq!(post(99 * SECOND), Err(SECOND));
        assert_eq!(post(100 * SECOND), Ok(()));
    }

    #[test]
    fn senders_that_are_made_up_take_no_memory_for_ever() {
        for cost in [SECOND, 1000 * SECOND] {
            let (mut buckets, begun) = (Buckets::default(), Instant::now());
            for number in 0..3 * MOST as u32 {
                let now = begun + Duration::from_micros(100) * number;
                assert_eq!(buckets.take(&number.to_string(), cost, now), Ok(()));
            }
            assert!(buckets.0.len() <= MOST, "{}", buckets.0.len());
            let last = (3 * MOST - 1).to_string();
            assert!(buckets.used(begun).contains_key(&last), "who posted last has used some");
        }
    }
}
