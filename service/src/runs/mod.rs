//! Runs of cumulative series: converts cumulative points to deltas before they reach the book. `shard` owns a `Runs` for
//! each shard.
//!
//! For each series the last point that was taken is kept, under a lock of its own. That lock is taken before the book's
//! and held until the journal has the post. So a refused post changes nothing, and posts without cumulative points
//! never wait for it.
//!
//! - `law`: the cases of the law; `crates/service_law` has the same ones, except that a run may end by its silence.
//! - `draft`: makes the points of a post that the book is asked to take.
//! - `forgotten`: the ends of forgotten series.
//!
//! Runs last as frontiers do. The journal has what was added, and whether a run is new or only noted. A commit, and the
//! snapshot, have the run of each series of the group as it was at the roll. A start applies to them the entries of the
//! journal that they do not contain yet.

mod draft;
mod forgotten;
mod rules;

pub use draft::{Draft, Posted};
pub use forgotten::Forgotten;
pub use rules::{EndedRun, Entry, InitialValue, Kind, Options, Point, Reset, Run, Since};

use crate::book::Names;
use crate::journal;
use crate::journal::{OfRun, Points};
use crate::otlp::series::{self, Digest, SeriesKey};
use crate::otlp::Reason;
use crate::outbox;
use crate::outbox::Outbox;
use crate::work::locked;
use rules::entry;
use std::collections::HashMap;
use std::sync::atomic::{AtomicUsize, Ordering::Relaxed};
use std::sync::{Arc, Mutex, MutexGuard, OnceLock};

/// The runs of all series of a shard.
#[derive(Default)]
pub struct Runs {
    options: OnceLock<Options>,
    state: Mutex<State>,
    /// Readable without the lock, which is held over a call of the disk.
    count: AtomicUsize,
}

/// The state, for the holder of the lock.
pub type Locked<'r> = MutexGuard<'r, State>;

/// An index that was not looked up yet.
const UNKNOWN: u32 = u32::MAX;

/// What is known of all runs.
#[derive(Default)]
pub struct State {
    since: Since,
    forgotten: Forgotten,
    series: Vec<Series>,
    places: HashMap<Digest, u32>,
    /// The index of each number, in the names that were used last.
    by_number: Vec<u32>,
    /// By the same numbers, series without a run, since no point of theirs was taken yet. They are kept because parsing
    /// their long texts for each such post would make all other posts wait.
    untaken: HashMap<u64, Series>,
    generation: u64,
    /// The indexes of series whose current runs are in no commit.
    changed: Vec<u32>,
}

/// A series by the digest of its key, as in the outbox: the text may have 48 KB, and is found by number if it has to be
/// shown.
struct Series {
    digest: Digest,
    terms: Terms,
    run: Option<Arc<Run>>,
    is_changed: bool,
}

/// What decides about a series' points besides its run.
#[derive(Clone, Copy)]
struct Terms {
    kind: Kind,
    since: Since,
    /// The end of the series in the book, if it was found to be later than its run: it also has delta points.
    frontier: u64,
}

impl Runs {
    /// Sets the options; only the first call counts.
    pub fn set(&self, options: Options) {
        self.options.get_or_init(|| options);
    }

    fn options(&self) -> Options {
        self.options.get().copied().unwrap_or_default()
    }

    /// Waits for the lock, which is taken before that of the book.
    pub fn lock(&self) -> Locked<'_> {
        locked(&self.state) // each change of it is complete
    }

    /// Replaces everything by what a start has found.
    pub fn put(&self, locked: &mut Locked<'_>, state: State) {
        **locked = state;
        self.note_count(locked);
    }

    fn note_count(&self, state: &State) {
        self.count.store(state.series.len(), Relaxed);
    }

    /// How many series have a run. Never waits.
    pub fn count(&self) -> usize {
        self.count.load(Relaxed)
    }
}

impl State {
    /// The state that an outbox has.
    pub fn of(outbox: &Outbox) -> State {
        let mut state = State { since: outbox.since(), forgotten: outbox.forgotten(), ..State::default() };
        let series = |key: SeriesKey, known: outbox::Series| {
            let series = state.series_of(&key, key.digest(), |_| known.frontier)?;
            Some(Series { run: known.run, ..series })
        };
        for series in outbox.with_run(series).into_iter().flatten() {
            state.put(series);
        }
        state
    }

    /// Applies what a post of the journal says of runs. What is known already stays.
    pub fn replay(&mut self, names: &Names, points: &Points) {
        self.go_by(names);
        for ((_, of_run), point) in points.with_runs() {
            let Some(series) = self.find(names, point[0], |_| 0) else {
                continue; // each name in the journal is that of a series
            };
            let (of_run, words) = (of_run.clone(), point[3..].to_vec());
            let entry = Entry { of_run, from: point[1], time: point[2], words };
            if let Some(run) = entry.after(series.terms.kind, series.run.as_deref()) {
                self.come_to(point[0], run);
            }
        }
    }

    /// Sets the run of a series. Whoever shares the old run keeps it unchanged.
    fn come_to(&mut self, number: u64, run: Run) {
        let taken = |state: &mut State| {
            let series = state.untaken.remove(&number)?;
            let place = state.put(series);
            state.number(number, place);
            Some(place)
        };
        let Some(place) = self.place(number).or_else(|| taken(self)) else {
            return; // it was found by this number
        };
        let known = &mut self.series[place as usize].run;
        match known.as_mut().and_then(Arc::get_mut) {
            Some(known) => *known = run,
            None => *known = Some(Arc::new(run)),
        }
        self.note_change(place);
    }

    fn note_change(&mut self, place: u32) {
        let series = &mut self.series[place as usize];
        if !series.is_changed {
            series.is_changed = true;
            self.changed.push(place);
        }
    }

    /// The current runs that are in no commit.
    pub fn changed(&self) -> outbox::Runs {
        let changed = self.changed.iter().map(|place| &self.series[*place as usize]);
        let runs = changed.filter_map(|series| Some((series.digest, series.run.clone()?)));
        runs.collect()
    }

    /// Records that these runs are in a commit.
    pub fn saved(&mut self, runs: &outbox::Runs) {
        for (digest, saved) in runs {
            let Some(place) = self.places.get(digest) else {
                continue;
            };
            let series = &mut self.series[*place as usize];
            series.is_changed = !series.run.as_ref().is_some_and(|run| Arc::ptr_eq(run, saved));
        }
        let series = &self.series;
        self.changed.retain(|place| series[*place as usize].is_changed);
    }

    /// Switches to the numbers of these names.
    fn go_by(&mut self, names: &Names) {
        let generation = journal::Names::generation(names);
        if self.generation != generation {
            self.generation = generation;
            self.by_number.clear();
            self.untaken.clear();
        }
    }

    /// The series of a number; none if its name does not name one. `frontier` is asked for a series that is new here.
    fn find(&mut self, names: &Names, number: u64, frontier: impl Fn(&Digest) -> u64) -> Option<&Series> {
        if self.place(number).is_none() && !self.untaken.contains_key(&number) {
            let key = series::only(&journal::Names::text(names, number))?;
            let digest = key.digest();
            match self.places.get(&digest).copied() {
                Some(place) => self.number(number, place),
                None => {
                    let series = self.series_of(&key, digest, frontier)?;
                    self.untaken.insert(number, series);
                }
            }
        }
        self.get_mut(number).map(|series| &*series)
    }

    /// A series that `find` has found.
    fn get_mut(&mut self, number: u64) -> Option<&mut Series> {
        match self.place(number) {
            Some(place) => self.series.get_mut(place as usize),
            None => self.untaken.get_mut(&number),
        }
    }

    fn place(&self, number: u64) -> Option<u32> {
        self.by_number.get(number as usize).copied().filter(|place| *place != UNKNOWN)
    }

    /// A new series without a run.
    fn series_of(
        &self,
        key: &SeriesKey,
        digest: Digest,
        frontier: impl FnOnce(&Digest) -> u64,
    ) -> Option<Series> {
        let kind = match key.parts().ok()?.kind {
            series::Kind::Sum => Kind::Sum,
            series::Kind::Monotonic => Kind::Monotonic,
            series::Kind::Histogram { .. } => Kind::Histogram,
        };
        let forgotten = self.since.forgotten.max(self.forgotten.of(&digest));
        let terms = Terms { kind, since: Since { forgotten, ..self.since }, frontier: frontier(&digest) };
        Some(Series { digest, terms, run: None, is_changed: false })
    }

    fn put(&mut self, series: Series) -> u32 {
        let place = self.series.len() as u32;
        self.places.insert(series.digest, place);
        self.series.push(series);
        place
    }

    fn number(&mut self, number: u64, place: u32) {
        let index = number as usize; // names have fewer than 2^32
        if index >= self.by_number.len() {
            self.by_number.resize(index + 1, UNKNOWN);
        }
        self.by_number[index] = place;
    }
}

/// What a point adds to a series with this run. If the book has more of the series than its run, up to its frontier or
/// to the end of delta points before it in the post, delta points have counted that, so a point that begins before this
/// end is refused.
fn added_by(
    options: Options,
    terms: Terms,
    known: Option<&Run>,
    deltas: u64,
    point: &Point,
) -> Result<Option<Entry>, Reason> {
    let found = entry(options, terms.since, terms.kind, known, point)?;
    let begins = found.as_ref().map_or(u64::MAX, |entry| match (&entry.of_run, known) {
        (OfRun::Noted { start, .. }, None) => entry.from.min(*start),
        _ => entry.from,
    });
    match begins < terms.frontier.max(deltas) {
        true => Err(Reason::Mixed),
        false => Ok(found),
    }
}

#[cfg(test)]
mod tests;
