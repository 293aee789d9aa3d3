//! `--integer-unit auto`: in which unit the points of each metric are taken that has a known unit and no rule.
//!
//! A metric is taken in **the coarsest unit, no coarser than its own, that a series of its name has**; where there is none, in
//! a finer one if it has doubles, and else in its own. So what decides is what the folder knows already: a unit that was taken
//! once is the coarsest of these for ever, since a coarser one between would be taken in it (units are in chains, each of which
//! divides the one before). Which is why a start has to know all series before posts are read.
//!
//! But a rule may bring a coarser one between. Such a unit is **beside** the finer one: it decides nothing, and the outbox has it
//! before its first point is taken (`keep` in `folder_units`), since the series do not say which came first. Once a start finds
//! no series of the finer one it is as any other: nothing hangs on that any more.
//!
//! Times are taken in microseconds: a histogram's sum of at most 2^53 is 285 years then, and would be 104 days in nanoseconds.
//! A histogram of times is taken so from the first, since after a whole second its later points would be foreign. Doubles of
//! a metric that was taken in its own unit are foreign by name, also 5.0: rounded they could count as nothing, and in another
//! unit it would have two totals.
//!
//! Of several shards each decides by what it has itself, so that a post means the same wherever its shard is: else a repeat
//! would be of another series, and count twice. Where a shard knows nothing of a name yet, it takes what others here have.
//!
//! What a post decides, or puts beside another, is **pending** until it was taken, and gone where it was refused: others that are
//! under way meanwhile are read by it, and hold it too. What is beside nothing any more then decides, as behind a start; what the
//! outbox has of it is taken back before another post hangs on that.

mod decided;

use super::{Rule, BYTES, PARTS, TIMES};
pub use decided::Decided;
use std::collections::{BTreeMap, BTreeSet, HashMap};
use std::sync::atomic::{AtomicBool, AtomicU64, Ordering::Relaxed, Ordering::SeqCst};
use std::sync::{Arc, LazyLock, PoisonError, RwLock, RwLockReadGuard, RwLockWriteGuard};

/// Units of which each is a whole part of all before it, and the one in which doubles are taken.
const CHAINS: [(&[&str], &str); 4] = [
    (&["d", "h", "min", "s", "ms", "us", "ns"], "us"),
    (&["TiBy", "GiBy", "MiBy", "KiBy", "By"], "By"),
    (&["TBy", "GBy", "MBy", "kBy", "By"], "By"),
    (&["1", "%", "[ppm]"], "[ppm]"),
];
/// How much memory names may take, and what one takes beside its bytes.
const MOST: usize = 64 << 20;
const ENTRY: usize = 96;

/// A known unit: its place among all, the coarser ones first.
#[derive(Clone, Copy, Debug, PartialEq, Eq, PartialOrd, Ord)]
pub struct Unit(usize);

/// A metric's name, and a unit.
pub type Named = (Box<str>, Unit);

/// A set of known units, a bit each.
type Set = u32;

/// The last number that a shard's got.
static LAST: AtomicU64 = AtomicU64::new(0);

/// By the place of a unit those that it may be taken in.
static FINER: LazyLock<Vec<Set>> =
    LazyLock::new(|| (0..all().count()).map(|place| Unit(place).finer()).collect());

/// By the place of a unit, and then of the one that it is taken in.
static RULES: LazyLock<Vec<Vec<Option<Rule>>>> = LazyLock::new(|| {
    let rule = |from: &str, to: &str| format!("{from}={to}").parse().ok();
    let row = |from| all().map(|(to, _)| rule(from, to)).collect();
    all().map(|(from, _)| row(from)).collect()
});

/// In which known units there are series, by the name of their metric.
#[derive(Default)]
pub struct Units {
    /// Of each that is opened another; 0 of those that all shards share.
    pub(super) number: u64,
    names: RwLock<Names>,
    /// The outbox may have something else of a name.
    has_unkept: AtomicBool,
    /// What is known here of a name that this shard does not know yet.
    of_all: Option<Arc<Units>>,
}

#[derive(Default)]
struct Names {
    units: HashMap<Box<str>, Known>,
    /// Of memory.
    taken: usize,
    /// Names of which the outbox may have something else; none where there is no outbox.
    unsaved: Option<BTreeSet<Box<str>>>,
    /// Those that are pending, and how many posts hold each.
    pending: BTreeMap<Named, usize>,
}

/// The units of a name.
#[derive(Clone, Copy, Default, PartialEq)]
struct Known {
    deciding: Set,
    beside: Set,
    /// Those that decide, and those that are beside others, if a post is taken that is under way.
    pending: Set,
    pending_beside: Set,
    /// Those that the outbox has as beside others.
    kept: Set,
}

impl Known {
    /// Whether it is known of a unit whether it decides.
    fn is_noted(self, unit: Unit) -> bool {
        (self.deciding | self.beside) & bit(unit) != 0
    }

    /// Those of which a start would believe something else, since the outbox has it.
    fn unsaved(self) -> Set {
        let beside = self.beside | self.pending_beside;
        beside & !self.kept | (self.deciding | self.pending) & !beside & self.kept
    }

    /// Of those that decide, or would, the coarsest that a unit is made of.
    fn coarsest(self, unit: Unit) -> Option<Unit> {
        match (self.deciding | self.pending) & FINER[unit.0] {
            0 => None,
            both => Some(Unit(both.trailing_zeros() as usize)),
        }
    }
}

impl Unit {
    pub fn of(name: &str) -> Option<Unit> {
        all().position(|known| known.0 == name).map(Unit)
    }

    pub fn name(self) -> &'static str {
        all().nth(self.0).map_or("", |known| known.0)
    }

    pub fn is_time(self) -> bool {
        self.0 < TIMES.len()
    }

    /// The one in which its doubles are taken, where nothing else is known: itself, where it is as fine.
    pub fn of_doubles(self) -> Unit {
        let wanted = CHAINS.iter().find(|(chain, _)| chain.contains(&self.name()));
        let wanted = wanted.and_then(|(_, wanted)| Unit::of(wanted)).unwrap_or(self);
        Unit(self.0.max(wanted.0))
    }

    /// How it is taken in another, which is a part of it.
    pub fn rule(self, to: Unit) -> Option<&'static Rule> {
        RULES[self.0][to.0].as_ref()
    }

    /// Those that it may be taken in, itself too.
    fn finer(self) -> Set {
        let behind = |(chain, _): &(&[&'static str], &str)| {
            let place = chain.iter().position(|name| *name == self.name());
            place.map_or(vec![], |place| chain[place..].to_vec())
        };
        let all = CHAINS.iter().flat_map(behind).filter_map(Unit::of);
        all.fold(0, |set, unit| set | bit(unit))
    }
}

fn all() -> impl Iterator<Item = (&'static str, u64)> {
    TIMES.into_iter().chain(BYTES).chain(PARTS)
}

impl Units {
    /// Of one of several shards, which knows nothing yet.
    pub fn of_shard(of_all: Arc<Units>) -> Units {
        Units { number: 1 + LAST.fetch_add(1, Relaxed), of_all: Some(of_all), ..Units::default() }
    }

    /// Whether such a series was noted.
    pub fn has(&self, metric: &str, unit: Unit) -> bool {
        self.known(metric).deciding & bit(unit) != 0
    }

    /// Notes a series.
    pub fn note(&self, metric: &str, unit: Unit) {
        let known = self.known(metric);
        if known.deciding & bit(unit) == 0 {
            if let Some(known) = self.write().with_room(metric) {
                known.deciding |= bit(unit);
            }
        }
        if known.beside & bit(unit) == 0 {
            self.of_all.iter().for_each(|of_all| of_all.note(metric, unit));
        }
    }

    /// Whether a series was noted that a rule has put into a unit.
    pub fn has_of_rule(&self, metric: &str, unit: Unit) -> bool {
        self.known(metric).is_noted(unit)
    }

    /// Notes one.
    pub fn note_of_rule(self: &Arc<Units>, metric: &str, unit: Unit, decided: &mut Decided) {
        if !self.has_of_rule(metric, unit) {
            let names = self.write();
            // Else another was here meanwhile.
            if !names.of(metric).is_noted(unit) {
                self.hold(names, metric, unit, decided);
            }
        }
        self.of_all.iter().for_each(|of_all| of_all.note_of_rule(metric, unit, decided));
    }

    /// In which unit a metric of this one is taken, where that is decided, and nothing pending may change it.
    pub fn decided(&self, metric: &str, unit: Unit) -> Option<Unit> {
        let known = self.known(metric);
        known.coarsest(unit).filter(|found| known.deciding & bit(*found) != 0)
    }

    /// The same, where a post may decide it now. Where there is no room for more names it is the metric's own.
    pub fn decide(
        self: &Arc<Units>,
        metric: &str,
        unit: Unit,
        has_doubles: bool,
        decided: &mut Decided,
    ) -> Unit {
        if let Some(known) = self.decided(metric, unit) {
            return known;
        }
        let elsewhere = self.of_all.as_ref();
        let elsewhere = elsewhere.map(|of_all| of_all.decide(metric, unit, has_doubles, decided));
        let names = self.write();
        let known = names.of(metric);
        let own = if has_doubles { unit.of_doubles() } else { unit };
        let found = known.coarsest(unit).or(elsewhere).unwrap_or(own);
        match known.deciding & bit(found) != 0 || self.hold(names, metric, found, decided) {
            true => found,
            false => unit,
        }
    }

    fn known(&self, metric: &str) -> Known {
        self.read().of(metric)
    }

    fn read(&self) -> RwLockReadGuard<'_, Names> {
        self.names.read().unwrap_or_else(PoisonError::into_inner) // each change of it is whole
    }

    fn write(&self) -> RwLockWriteGuard<'_, Names> {
        self.names.write().unwrap_or_else(PoisonError::into_inner)
    }
}

fn bit(unit: Unit) -> Set {
    1 << unit.0
}

/// What a folder keeps of them.
impl Units {
    /// Ahead of the series that a start finds: these are beside others.
    pub fn begin(&self, beside: impl IntoIterator<Item = (String, Unit)>) {
        let mut names = self.write();
        for (metric, unit) in beside {
            if let Some(known) = names.with_room(&metric) {
                known.beside |= bit(unit);
            }
        }
        names.unsaved = Some(BTreeSet::new());
    }

    /// Behind them, which were noted as if all of them decided: those that are beside nothing any more, and are as others from
    /// now on.
    pub fn settle(&self) -> Vec<Named> {
        let mut left = Vec::new();
        for (metric, known) in self.write().units.iter_mut().filter(|(_, known)| known.beside != 0) {
            let before = known.beside;
            known.beside &= known.deciding;
            known.deciding &= !before;
            known.decide_beside_nothing();
            known.kept = known.beside;
            left.extend(units_of(before & !known.beside).map(|unit| (metric.clone(), unit)));
        }
        let decide = left.iter().filter(|(metric, unit)| self.has(metric, *unit));
        decide.for_each(|(metric, unit)| self.note(metric, *unit)); // also for others here
        left
    }

    /// Whether a post may hang on what no outbox has.
    pub fn has_unkept(&self) -> bool {
        self.has_unkept.load(SeqCst)
    }

    /// What the outbox has to have as beside others, and what no more.
    pub fn unsaved(&self) -> [Vec<Named>; 2] {
        let (names, mut both) = (self.read(), [Vec::new(), Vec::new()]);
        for metric in names.unsaved.iter().flatten() {
            let known = names.of(metric);
            for unit in units_of(known.unsaved()) {
                both[usize::from(known.kept & bit(unit) != 0)].push((metric.clone(), unit));
            }
        }
        both
    }

    /// The outbox has the first ones, and the others no more.
    pub fn kept(&self, these: &[Vec<Named>; 2]) {
        let mut names = self.write();
        for (metric, unit) in these.iter().flatten() {
            if let Some(known) = names.units.get_mut(metric) {
                known.kept ^= bit(*unit);
            }
        }
        // Others may have come meanwhile.
        let told = names.unsaved.as_mut().map(std::mem::take).unwrap_or_default();
        told.iter().for_each(|metric| self.note_change(&mut names, metric));
    }

    /// Behind a change of what is known of a name, with the lock: who finds it changed finds this too.
    fn note_change(&self, names: &mut Names, metric: &str) {
        names.note_change(metric);
        self.has_unkept.store(names.unsaved.iter().any(|unsaved| !unsaved.is_empty()), SeqCst);
    }
}

fn units_of(set: Set) -> impl Iterator<Item = Unit> {
    (0..Set::BITS as usize).map(Unit).filter(move |unit| set & bit(*unit) != 0)
}

impl Names {
    fn of(&self, metric: &str) -> Known {
        self.units.get(metric).copied().unwrap_or_default()
    }

    /// What nothing is known of goes, but where the outbox is being told of it.
    fn note_change(&mut self, metric: &str) {
        let known = self.of(metric);
        let is_told = self.unsaved.as_mut().is_some_and(|unsaved| {
            let is_new = known.unsaved() != 0 && unsaved.insert(metric.into());
            is_new || unsaved.contains(metric)
        });
        if known == Known::default() && !is_told && self.units.remove(metric).is_some() {
            self.taken -= metric.len() + ENTRY;
        }
    }

    /// What is known of a name; none where there is no room for it.
    fn with_room(&mut self, metric: &str) -> Option<&mut Known> {
        if !self.units.contains_key(metric) {
            let taken = self.taken + metric.len() + ENTRY;
            self.taken = (taken <= MOST).then_some(taken)?;
            self.units.insert(metric.into(), Known::default());
        }
        self.units.get_mut(metric)
    }
}

#[cfg(test)]
mod tests;
