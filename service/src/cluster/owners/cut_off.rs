//! Finds instances that too few of the others can reach although they are alive: their shards are of more use
//! elsewhere. All instances read the same rows, so they agree.

use std::cmp::Ordering;
use std::collections::{BTreeMap, BTreeSet};

/// How many more heartbeats must have found an instance cut off than not, before it counts.
const SURE: u32 = super::GONE;
/// How many before others take its shards; until then it hands them over itself.
const TAKEN: u32 = 30;
/// For how many heartbeats this instance must fail to reach a live one before that counts.
const MISSED: u32 = super::GONE + 2;

#[derive(Default)]
pub(super) struct CutOff {
    /// How many heartbeats found each instance cut off, minus those since that did not.
    beats: BTreeMap<String, u32>,
    /// The instances that this one can reach; none while that is unknown.
    reached: Option<BTreeSet<String>>,
    /// How many heartbeats in a row found each instance unreachable from here.
    missed: BTreeMap<String, u32>,
}

/// For each live instance that stays, the instances it can reach; none if it has not tried.
pub(super) type Reached<'a> = BTreeMap<&'a str, Option<&'a BTreeSet<String>>>;

/// Those that more than half of all don't reach; or half, and the one with the first name neither, of those that say whom they reach:
/// one that does not may be at fault itself. At least one is left, so that one has the shards.
fn cut_off<'a>(all: &Reached<'a>) -> BTreeSet<&'a str> {
    let says = all.iter().find(|(_, reached)| reached.is_some());
    let Some((first, of_first)) = says.or(all.first_key_value()) else { return BTreeSet::new() };
    let is_cut_off = |name: &&str| {
        let misses = |(other, reached): &(&&str, &Option<&BTreeSet<String>>)| {
            *other != name && reached.is_some_and(|reached| !reached.contains(*name))
        };
        match (2 * all.iter().filter(misses).count()).cmp(&all.len()) {
            Ordering::Greater => true,
            Ordering::Equal => name != first && of_first.is_some_and(|reached| !reached.contains(*name)),
            Ordering::Less => false,
        }
    };
    let mut found: BTreeSet<&str> = all.keys().copied().filter(is_cut_off).collect();
    if found.len() == all.len() {
        found.remove(first);
    }
    found
}

impl CutOff {
    pub fn has_reached(&mut self, reached: Option<BTreeSet<String>>) {
        self.reached = reached;
    }

    pub fn reached(&self) -> Option<&BTreeSet<String>> {
        self.reached.as_ref()
    }

    /// Takes which instances each one reaches, as a heartbeat has read it.
    pub fn note(&mut self, me: &str, all: &Reached<'_>) {
        let found = cut_off(all);
        // One good heartbeat among bad ones does not reset the count.
        self.beats.retain(|name, beats| {
            *beats -= u32::from(!found.contains(name.as_str()));
            *beats > 0
        });
        for name in &found {
            let beats = self.beats.entry((*name).into()).or_default();
            *beats = (*beats + 1).min(TAKEN);
        }
        // Otherwise nobody would have the shards for a while after another one is cut off than before.
        if all.keys().all(|name| self.is_cut_off(name)) {
            self.beats.retain(|name, _| found.contains(name.as_str()));
        }
        let is_missed = |name: &str| {
            let is_reached = self.reached.as_ref().is_none_or(|reached| reached.contains(name));
            name != me && !is_reached && !found.contains(name)
        };
        let missed: Vec<&str> = all.keys().copied().filter(|name| is_missed(name)).collect();
        self.missed.retain(|name, _| missed.contains(&name.as_str()));
        for name in missed {
            let beats = self.missed.entry(name.into()).or_default();
            *beats = beats.saturating_add(1);
        }
    }

    /// Whether the instance may own no shards.
    pub fn is_cut_off(&self, name: &str) -> bool {
        self.beats.get(name).is_some_and(|beats| *beats >= SURE)
    }

    /// Whether others may take its shards.
    pub fn is_left(&self, name: &str) -> bool {
        self.beats.get(name).is_some_and(|beats| *beats >= TAKEN)
    }

    /// Whether this instance can't reach it although it is alive and not cut off.
    pub fn is_missed(&self, name: &str) -> bool {
        self.missed.get(name).is_some_and(|beats| *beats >= MISSED)
    }
}

#[cfg(test)]
mod tests {
    use super::*;

    /// Which others each instance reaches, by letters; `?` if it has not tried.
    fn found(all: &[(&'static str, &str)]) -> Vec<&'static str> {
        let sets: Vec<Option<BTreeSet<String>>> = all
            .iter()
            .map(|(_, reached)| (*reached != "?").then(|| reached.chars().map(String::from).collect()))
            .collect();
        let all: Reached = all.iter().map(|(name, _)| *name).zip(sets.iter().map(Option::as_ref)).collect();
        let names = ["a", "b", "c", "d"];
        let found = cut_off(&all);
        names.into_iter().filter(|name| found.contains(name)).collect()
    }

    #[test]
    fn one_good_beat_among_bad_ones_does_not_begin_anew() {
        let (none, both) = (BTreeSet::new(), BTreeSet::from(["a".to_string(), "b".to_string()]));
        let mut cut_off = CutOff::default();
        let mut note = |reached: &BTreeSet<String>| {
            cut_off.note("a", &[("a", Some(reached)), ("b", Some(reached))].into());
            cut_off.is_cut_off("b")
        };
        assert_eq!([&none, &none, &none, &none, &none, &both].map(&mut note), [false; 6]);
        assert_eq!([&none, &none].map(&mut note), [false, true]);
        assert_eq!([&both, &both].map(&mut note), [false; 2]);
    }

    /// Two don't reach each other, and then the first does not reach itself either.
    #[test]
    fn one_is_left_at_any_time_if_another_one_is_cut_off_than_before() {
        let none = BTreeSet::new();
        let mut cut_off = CutOff::default();
        let mut note = |of_a: Option<&BTreeSet<String>>| {
            cut_off.note("a", &[("a", of_a), ("b", Some(&none))].into());
            ["a", "b"].map(|name| cut_off.is_cut_off(name))
        };
        for _ in 0..TAKEN {
            note(Some(&none));
        }
        assert_eq!(note(Some(&none)), [false, true]);
        let then: Vec<[bool; 2]> = (0..SURE).map(|_| note(None)).collect();
        assert!(!then.contains(&[true, true]), "{then:?}");
        assert_eq!(note(None), [true, false]);
    }

    #[test]
    fn who_is_reached_by_less_than_half_is_cut_off_and_one_is_left() {
        assert_eq!(found(&[("a", "")]), [""; 0]);
        assert_eq!(found(&[("a", "bc"), ("b", "ac"), ("c", "ab")]), [""; 0]);
        assert_eq!(found(&[("a", "b"), ("b", "a"), ("c", "")]), ["c"]);
        assert_eq!(found(&[("a", "b"), ("b", "a"), ("c", "ab")]), ["c"], "one way");
        assert_eq!(found(&[("a", "c"), ("b", "c"), ("c", "ab")]), [""; 0], "two are cut off from each other");
        assert_eq!(found(&[("a", ""), ("b", "")]), ["b"]);
        assert_eq!(
            found(&[("a", "b"), ("b", "")]),
            [""; 0],
            "the first can't be told from one that others reach"
        );
        assert_eq!(found(&[("a", ""), ("b", "a")]), ["b"]);
        assert_eq!(found(&[("a", "?"), ("b", "")]), ["a"], "it does not reach itself either");
        assert_eq!(found(&[("a", "?"), ("b", "a")]), [""; 0]);
        assert_eq!(found(&[("a", ""), ("b", ""), ("c", "")]), ["b", "c"]);
        assert_eq!(found(&[("a", "b"), ("b", "a"), ("c", "d"), ("d", "c")]), ["c", "d"]);
        assert_eq!(found(&[("a", "?"), ("b", "?"), ("c", "")]), [""; 0], "they have not tried");
    }
}
