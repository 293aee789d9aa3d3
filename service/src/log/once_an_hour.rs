//! Log lines that any sender can cause at any rate: one an hour for each key.

use super::RateLimit;
use std::collections::{HashMap, VecDeque};
use std::hash::Hash;
use std::time::{Duration, Instant};

const HOUR: Duration = Duration::from_secs(3600);

/// The keys that were logged within the last hour, each with a value. At most `most` are remembered; beyond that the oldest is
/// forgotten for a new one, once a second. So a client that makes up names neither fills the log nor silences it for good.
pub struct OnceAnHour<K, V = ()> {
    most: usize,
    known: HashMap<K, V>,
    /// The oldest first.
    since: VecDeque<(Instant, K)>,
    beyond: RateLimit,
}

impl<K: Clone + Eq + Hash, V: Default> OnceAnHour<K, V> {
    pub fn new(most: usize) -> OnceAnHour<K, V> {
        let (known, since) = (HashMap::new(), VecDeque::new());
        OnceAnHour { most, known, since, beyond: RateLimit::new() }
    }

    /// Whether the caller has to log this key now. It counts as logged from then on.
    pub fn is_due(&mut self, what: &K) -> bool {
        self.is_due_at(what, Instant::now())
    }

    /// The value of a key that was logged within the hour.
    pub fn get_mut(&mut self, what: &K) -> Option<&mut V> {
        self.get_mut_at(what, Instant::now())
    }

    /// Whether a new key would push out another one.
    pub fn is_full(&mut self) -> bool {
        self.forget_before(Instant::now());
        self.known.len() >= self.most
    }

    #[cfg(test)]
    pub fn count(&self) -> usize {
        self.known.len()
    }

    fn get_mut_at(&mut self, what: &K, now: Instant) -> Option<&mut V> {
        self.forget_before(now);
        self.known.get_mut(what)
    }

    fn is_due_at(&mut self, what: &K, now: Instant) -> bool {
        self.forget_before(now);
        if self.known.contains_key(what) {
            return false;
        }
        if self.known.len() >= self.most {
            if !self.beyond.is_due_at(now) {
                return false;
            }
            self.forget_oldest();
        }
        self.known.insert(what.clone(), V::default());
        self.since.push_back((now, what.clone()));
        true
    }

    /// Forgets keys that were logged an hour ago or earlier.
    fn forget_before(&mut self, now: Instant) {
        while self.since.front().is_some_and(|(since, _)| now >= *since + HOUR) {
            self.forget_oldest();
        }
    }

    fn forget_oldest(&mut self) {
        if let Some((_, oldest)) = self.since.pop_front() {
            self.known.remove(&oldest);
        }
    }
}

#[cfg(test)]
mod tests {
    use super::*;

    #[test]
    fn each_is_told_once_an_hour() {
        let (mut told, begun) = (OnceAnHour::<u32>::new(9), Instant::now());
        let mut is_due = |what, seconds| told.is_due_at(&what, begun + Duration::from_secs(seconds));
        assert_eq!([1, 2, 1, 2].map(|what| is_due(what, 5)), [true, true, false, false]);
        assert_eq!([3604, 3605, 3606].map(|seconds| is_due(1, seconds)), [false, true, false]);
    }

    /// Otherwise a thousand made-up names could silence the log for good, or more of them could fill the disk.
    #[test]
    fn where_there_are_many_the_oldest_goes_and_one_a_second_is_told() {
        let (mut told, begun) = (OnceAnHour::<u32>::new(100), Instant::now());
        let mut is_due = |what, millis| told.is_due_at(&what, begun + Duration::from_millis(millis));
        let lines = (0..1000).filter(|what| is_due(*what, 0)).count();
        assert_eq!(lines, 101);
        let later = (1000..11_000).filter(|what| is_due(*what, u64::from(*what))).count();
        assert_eq!(later, 10);
        assert!(is_due(0, 12_000), "it was the oldest");
        assert!(!is_due(99, 13_000), "it was one of the youngest");
        assert_eq!((told.known.len(), told.since.len()), (100, 100));
    }

    #[test]
    fn what_is_known_is_forgotten_with_it() {
        let (mut told, begun) = (OnceAnHour::<&str, u32>::new(9), Instant::now());
        assert!(told.get_mut_at(&"a", begun).is_none() && told.is_due_at(&"a", begun));
        *told.get_mut_at(&"a", begun).unwrap() = 7;
        assert!(!told.is_due_at(&"a", begun));
        assert_eq!(told.get_mut_at(&"a", begun + HOUR / 2), Some(&mut 7));
        assert_eq!(told.get_mut_at(&"a", begun + HOUR), None);
        assert!(told.is_due_at(&"a", begun + HOUR));
        assert_eq!(told.get_mut_at(&"a", begun + HOUR), Some(&mut 0));
    }
}
