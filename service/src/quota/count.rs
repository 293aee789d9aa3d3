//! Counts the series of each sender: by the owners known from the last flush, by what came since, and by what posts in
//! flight may bring. `Quotas` owns it.

use super::{Named, Owned};
use crate::otlp::series::only;
use crate::work::locked;
use std::collections::{HashMap, HashSet};
use std::sync::atomic::{AtomicU64, Ordering::Relaxed};
use std::sync::{Arc, Mutex, Weak};
use std::time::{Duration, Instant};

/// An unflushed series is no longer counted so long after its flush was due: its sender may be quarantined, or its
/// shard may have moved to another instance.
const LONGEST: Duration = Duration::from_secs(600);

/// The counts of series, of all senders and of each.
#[derive(Default)]
pub struct Counted {
    all: AtomicU64,
    /// How many series posts in flight may add.
    claimed: AtomicU64,
    state: Mutex<State>,
}

#[derive(Default)]
struct State {
    /// The state of `Owned` that was counted, unless its owners were not all known.
    of: Option<(u64, usize)>,
    each: HashMap<String, Has>,
    /// Known series by number: those that came since the last flush, and, without a value, those that were found to be
    /// flushed.
    there: HashMap<Number, Option<Came>>,
}

/// The generation of a number, and the number.
type Number = (u64, u64);

/// How many series a sender has.
#[derive(Clone, Copy, Debug, Default, PartialEq, Eq)]
pub struct Has {
    pub series: u64,
    /// How many more it may get by posts in flight.
    pub claimed: u64,
}

/// An unflushed series. Its names are held weakly, since they may take much memory.
struct Came {
    sender: Arc<str>,
    names: Weak<Named>,
    at: Instant,
}

impl Counted {
    /// Counts anew if series have come or gone.
    pub fn count(&self, owned: &dyn Owned, flush_interval: Duration) {
        let found = owned.seen();
        if locked(&self.state).of == Some(found) {
            return;
        }
        // The owners of a flush may become known between here and the second look.
        let known: u64 = owned.by_owner().values().sum();
        // Before the owners are read: a series that is flushed meanwhile is counted twice until the next time, and none
        // is left out.
        let gone = self.not_waited_for(owned, flush_interval.saturating_add(LONGEST));
        let by_owner = owned.by_owner();
        let of_owner = |(sender, series)| (sender, Has { series, claimed: 0 });
        let mut each: HashMap<String, Has> = by_owner.into_iter().map(of_owner).collect();
        let mut state = locked(&self.state);
        state.there.retain(|number, came| came.is_some() && !gone.contains(number));
        state.there.shrink_to_fit();
        for came in state.there.values().flatten() {
            each.entry(came.sender.to_string()).or_default().series += 1;
        }
        self.all.store(each.values().map(|has| has.series).sum(), Relaxed);
        for (sender, has) in state.each.iter().filter(|(_, has)| has.claimed > 0) {
            each.entry(sender.clone()).or_default().claimed = has.claimed;
        }
        state.of = (known == found.1 as u64).then_some(found);
        state.each = each;
    }

    /// Of the unflushed series those that are flushed now, can't be looked up any more, or are older than `longest`.
    fn not_waited_for(&self, owned: &dyn Owned, longest: Duration) -> HashSet<Number> {
        let state = locked(&self.state);
        let came = |(number, came): (&Number, &Option<Came>)| {
            let came = came.as_ref()?;
            Some((*number, came.names.clone(), came.at))
        };
        let came: Vec<_> = state.there.iter().filter_map(came).collect();
        drop(state);
        let is_gone = |(number, names, at): &(Number, Weak<Named>, Instant)| {
            let names = names.upgrade();
            names.is_none_or(|names| at.elapsed() > longest || is_flushed(owned, &*names, number.1))
        };
        came.into_iter().filter(is_gone).map(|(number, ..)| number).collect()
    }

    /// Claims room for `new` series, unless all series, with those claimed by others, would exceed `most`.
    pub fn claim_of_all(&self, new: u64, most: u64) -> bool {
        let has_room =
            |claimed: u64| new == 0 || self.all().saturating_add(claimed).saturating_add(new) <= most;
        let claim = |claimed| has_room(claimed).then_some(claimed + new);
        self.claimed.fetch_update(Relaxed, Relaxed, claim).is_ok()
    }

    /// Ends a claim of `claim_of_all`.
    pub fn give_back_of_all(&self, claimed: u64) {
        self.claimed.fetch_sub(claimed, Relaxed);
    }

    /// Claims room for `new` series of a sender, unless it would have more than `most`.
    pub fn claim(&self, sender: &str, new: u64, most: u64) -> Result<(), Has> {
        if new == 0 {
            return Ok(());
        }
        let mut state = locked(&self.state);
        let has = state.each.get(sender).copied().unwrap_or_default();
        if has.series + has.claimed + new > most {
            return Err(has);
        }
        state.each.entry(sender.to_string()).or_default().claimed += new;
        Ok(())
    }

    /// Ends a claim. A sender without series is forgotten, since names can be made up.
    pub fn give_back(&self, sender: &str, claimed: u64) {
        let mut state = locked(&self.state);
        if let Some(has) = state.each.get_mut(sender) {
            has.claimed = has.claimed.saturating_sub(claimed);
            if *has == Has::default() {
                state.each.remove(sender);
            }
        }
    }

    /// Adds `series` new series of a sender. `numbered` has the numbers of all series of its post, new and known.
    pub fn add(&self, sender: &str, series: u64, numbered: Option<(Arc<Named>, Vec<u64>)>) {
        let mut state = locked(&self.state);
        state.each.entry(sender.to_string()).or_default().series += series;
        self.all.fetch_add(series, Relaxed);
        let Some((names, numbers)) = numbered else { return };
        let (sender, generation, at): (Arc<str>, _, _) = (sender.into(), names.generation(), Instant::now());
        for number in numbers {
            let came = || Some(Came { sender: sender.clone(), names: Arc::downgrade(&names), at });
            state.there.entry((generation, number)).or_insert_with(came);
        }
    }

    /// How many of these series are new; stops counting after `most`.
    pub fn new_of(&self, owned: &dyn Owned, names: &Named, mut numbers: Vec<u64>, most: u64) -> u64 {
        let generation = names.generation();
        let is_there = |state: &State, number: u64| state.there.contains_key(&(generation, number));
        let state = locked(&self.state);
        numbers.retain(|number| !is_there(&state, *number));
        drop(state);
        let (mut new, mut flushed) = (0, Vec::new());
        for number in numbers {
            match is_flushed(owned, names, number) {
                true => flushed.push(number),
                false => new += 1,
            }
            if new > most {
                break;
            }
        }
        let mut state = locked(&self.state);
        for number in flushed {
            state.there.entry((generation, number)).or_insert(None);
        }
        new
    }

    /// How many series there are.
    pub fn all(&self) -> u64 {
        self.all.load(Relaxed)
    }

    pub fn of(&self, sender: &str) -> u64 {
        locked(&self.state).each.get(sender).map_or(0, |has| has.series)
    }

    pub fn each(&self) -> HashMap<String, u64> {
        locked(&self.state).each.iter().map(|(sender, has)| (sender.clone(), has.series)).collect()
    }
}

fn is_flushed(owned: &dyn Owned, names: &Named, number: u64) -> bool {
    only(&names.text(number)).is_some_and(|key| owned.has(&key))
}
