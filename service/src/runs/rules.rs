//! The law of runs: decides, case by case, what a cumulative point adds. `draft` asks it for each post; a start applies
//! the entries of the journal again (`Entry::after`).
//!
//! A *run* is what a series counts from one start on. For each series the last point that was taken is kept, so the
//! next point adds the difference, or, if its run began later, all of it. Points of other runs are refused by name, so
//! that nothing is lost silently, until the known run has ended by its silence: then another run is noted and counts
//! from there. So nothing counts twice, even if a sender reports another start for the same run.

use crate::journal::OfRun;
use crate::otlp::Reason;
use serde::{Deserialize, Serialize};

/// A cumulative point of a series.
#[derive(Clone, Debug, Default, PartialEq, Eq)]
pub struct Point {
    /// The start of its run; 0 if it is unknown.
    pub start: u64,
    pub time: u64,
    /// The value of a sum; or of a histogram the count, whether it has a sum, the sum, and the buckets.
    pub words: Vec<u64>,
}

/// What is kept of a series.
#[derive(Clone, Debug, Default, PartialEq, Eq)]
pub struct Run {
    /// The last point that was taken.
    pub last: Point,
    /// The time between the last two points, but at least half of the previous interval; 0 if unknown. So one early
    /// point does not make a run look fast, and a long pause is soon forgotten.
    pub interval: u64,
    pub before: EndedRun,
}

/// The previous run, of which a repeat may still come; zeros if there was none.
#[derive(Clone, Copy, Debug, Default, PartialEq, Eq)]
pub struct EndedRun {
    pub start: u64,
    /// The time of its last point.
    pub time: u64,
}

/// A run has ended if it was silent for so many of its intervals.
const SILENT_INTERVALS: u64 = 3;

/// What a point adds to the book over (from, time], and what it says about its run: the run continues with more, it
/// began after the time before or anew, with all of it, or it counts only from here on.
#[derive(Clone, Debug, PartialEq, Eq)]
pub struct Entry {
    pub of_run: OfRun,
    pub from: u64,
    pub time: u64,
    pub words: Vec<u64>,
}

/// Which first points count from their start.
#[derive(Clone, Copy, Debug, Default, PartialEq, Eq, clap::ValueEnum)]
pub enum InitialValue {
    /// It counts if its run began after this folder was made
    #[default]
    Auto,
    /// It always counts, even if another service has counted it
    Keep,
    /// It never counts
    Drop,
}

/// How a word that went down is treated.
#[derive(Clone, Copy, Debug, Default, PartialEq, Eq, clap::ValueEnum)]
pub enum Reset {
    /// A fault of the sender: the point is rejected (`went_down`)
    #[default]
    Refuse,
    /// The counter was restarted: the point counts from zero
    Count,
}

#[derive(clap::Args, Clone, Copy, Debug, Default)]
#[command(next_help_heading = "Options of cumulative points")]
#[group(skip)]
pub struct Options {
    /// Whether the first point of a cumulative series counts from its start; otherwise what it has already is left out
    #[arg(long, env = "TOTXEGUN_INITIAL_VALUE", value_name = "WHICH", default_value = "auto", value_enum)]
    pub initial_value: InitialValue,
    /// How to treat a value that went down although its start is the same
    #[arg(long, env = "TOTXEGUN_RESET", value_name = "WHAT", default_value = "refuse", value_enum)]
    pub reset: Reset,
}

/// When the knowledge of a folder began, in nanoseconds since 1970.
#[derive(Clone, Copy, Debug, Default, PartialEq, Eq, Serialize, Deserialize)]
pub struct Since {
    /// Runs that began from here on were never in another folder; older ones may have been counted by another service.
    pub made: u64,
    /// Nothing that ends after this was forgotten, of all series, or of one series if that is known.
    pub forgotten: u64,
}

/// The kind of a series, as far as it decides about the words of its points.
#[derive(Clone, Copy, Debug, PartialEq, Eq)]
pub enum Kind {
    /// A sum that only goes up.
    Monotonic,
    /// A sum that may go down.
    Sum,
    Histogram,
}

impl Since {
    /// Whether a first point with this start counts from there. If the start is unknown, nothing says what the run
    /// counted before.
    fn counts(self, initial_value: InitialValue, start: u64) -> bool {
        let is_new = start > 0 && start >= self.forgotten;
        match initial_value {
            InitialValue::Drop => false,
            InitialValue::Keep => is_new,
            InitialValue::Auto => is_new && start >= self.made,
        }
    }
}

impl Run {
    /// Whether the point is counted already, as a repeat is.
    fn has_counted(&self, point: &Point) -> bool {
        let Run { last, before, .. } = self;
        let is_of_last = point.start == last.start
            && (point.time < last.time || point.time == last.time && counts_alike(&point.words, &last.words));
        is_of_last || point.start == before.start && point.time <= before.time
    }

    /// Whether the run had been silent for so long, when a later point of another run came, that it has ended.
    fn has_ended_at(&self, time: u64) -> bool {
        self.interval > 0 && (time - self.last.time) / SILENT_INTERVALS >= self.interval
    }
}

/// Compares the words of two points; of histograms without the sum, which a run may have lost.
fn counts_alike(one: &[u64], other: &[u64]) -> bool {
    match (one, other) {
        ([count, _, _, buckets @ ..], [other_count, _, _, others @ ..]) => {
            count == other_count && buckets == others
        }
        _ => one == other,
    }
}

/// What a sound point adds to a series with this run; none if it is counted already. An error says why it is not taken.
pub fn entry(
    options: Options,
    since: Since,
    kind: Kind,
    known: Option<&Run>,
    point: &Point,
) -> Result<Option<Entry>, Reason> {
    let Some(known) = known else {
        return first(options, since, point).map(Some);
    };
    let last = &known.last;
    if known.has_counted(point) {
        return Ok(None);
    }
    if point.time <= last.time {
        return Err(Reason::EarlierRun);
    }
    if point.start == last.start {
        return of_run(options, kind, last, point).map(Some);
    }
    if point.start >= last.time {
        return Ok(Some(if is_instant(point) { noted(point) } else { counted(point, point.start) }));
    }
    // The runs overlap, like those of a process and of its successor.
    match known.has_ended_at(point.time) {
        true => Ok(Some(noted(point))),
        false => Err(Reason::EarlierRun),
    }
}

/// The first point of a series.
fn first(options: Options, since: Since, point: &Point) -> Result<Entry, Reason> {
    if point.time <= since.forgotten {
        // It is from before the series was forgotten, so it may have been counted.
        return Err(Reason::Forgotten);
    }
    Ok(match since.counts(options.initial_value, point.start) && !is_instant(point) {
        true => counted(point, point.start),
        false => noted(point),
    })
}

/// A point whose start equals its time is the first of a run that began at an unknown earlier time (OTLP's data model,
/// "unknown start time"). It says where the run is, and adds nothing.
fn is_instant(point: &Point) -> bool {
    point.start == point.time
}

fn counted(point: &Point, from: u64) -> Entry {
    let (of_run, words) = (OfRun::Began(point.start), point.words.clone());
    Entry { of_run, from, time: point.time, words }
}

/// The book gets a zero, which makes the series its sender's.
fn noted(point: &Point) -> Entry {
    let mut zeros = vec![0; point.words.len()];
    if let [_, has_sum, _, ..] = &mut zeros[..] {
        *has_sum = point.words[1];
    }
    let of_run = OfRun::Noted { start: point.start, words: point.words.clone() };
    let from = point.time - 1; // a sound point ends after 1
    Entry { of_run, from, time: point.time, words: zeros }
}

/// A later point of the same start.
fn of_run(options: Options, kind: Kind, last: &Point, point: &Point) -> Result<Entry, Reason> {
    if kind != Kind::Sum && goes_down(&last.words, &point.words) {
        // Without a start, nothing else could say that a run began anew.
        return match options.reset == Reset::Count || point.start == 0 {
            true => Ok(counted(point, last.time)),
            false => Err(Reason::WentDown),
        };
    }
    let words = difference(kind, &last.words, &point.words).ok_or(Reason::Leap)?;
    Ok(Entry { of_run: OfRun::More, from: last.time, time: point.time, words })
}

/// Whether a word that only goes up went down. The sums of histograms are compared if both have one.
fn goes_down(before: &[u64], now: &[u64]) -> bool {
    match (before, now) {
        ([count, has, sum, buckets @ ..], [now_count, now_has, now_sum, now_buckets @ ..]) => {
            let sum_falls = *has != 0 && *now_has != 0 && now_sum < sum;
            now_count < count
                || sum_falls
                || buckets.iter().zip(now_buckets).any(|(before, now)| now < before)
        }
        (before, now) => before.iter().zip(now).any(|(before, now)| (*now as i64) < (*before as i64)),
    }
}

/// The difference word by word; of histograms with a sum if both have one. None if the difference of a sum exceeds 63
/// bits.
fn difference(kind: Kind, before: &[u64], now: &[u64]) -> Option<Vec<u64>> {
    match (kind, before, now) {
        (
            Kind::Histogram,
            [count, has, sum, buckets @ ..],
            [now_count, now_has, now_sum, now_buckets @ ..],
        ) => {
            let has = u64::from(*has != 0 && *now_has != 0);
            let head = [now_count - count, has, if has != 0 { now_sum - sum } else { 0 }];
            let buckets = now_buckets.iter().zip(buckets).map(|(now, before)| now - before);
            Some(head.into_iter().chain(buckets).collect())
        }
        (_, [before], [now]) => {
            let by = (*now as i64).checked_sub(*before as i64)?;
            (by != i64::MIN).then(|| vec![by as u64])
        }
        _ => None,
    }
}

/// Adds to a run what came to it.
fn sum(kind: Kind, before: &[u64], added: &[u64]) -> Vec<u64> {
    let mut words: Vec<u64> = before.iter().zip(added).map(|(one, other)| one.wrapping_add(*other)).collect();
    if let (Kind::Histogram, [_, has, sum, ..]) = (kind, &mut words[..]) {
        // If one of them has no sum, the result has none: what came before is unknown.
        *has = u64::from(before[1] != 0 && added[1] != 0);
        *sum *= *has;
    }
    words
}

impl Entry {
    /// The run after this entry. An entry that the run contains already changes nothing, since a start may find both.
    pub fn after(&self, kind: Kind, known: Option<&Run>) -> Option<Run> {
        if known.is_some_and(|known| known.last.time >= self.time) {
            return known.cloned();
        }
        let (start, words) = match &self.of_run {
            OfRun::Noted { start, words } => (*start, words.clone()),
            OfRun::Began(start) => (*start, self.words.clone()),
            OfRun::More => (known?.last.start, sum(kind, &known?.last.words, &self.words)),
        };
        let mut run = known.cloned().unwrap_or_default();
        self.note_times(start, &mut run);
        run.last = Point { start, time: self.time, words };
        Some(run)
    }

    /// Updates the run in place with the point that this entry was made of, which saves adding up.
    pub fn put_after(&self, kind: Kind, point: Point, run: &mut Run) {
        self.note_times(point.start, run);
        run.last = point;
        if let (Kind::Histogram, OfRun::More, [_, has, sum, ..]) =
            (kind, &self.of_run, &mut run.last.words[..])
        {
            *has = self.words[1];
            *sum *= *has;
        }
    }

    /// Updates what the run knows of times, before its last point is replaced.
    fn note_times(&self, start: u64, run: &mut Run) {
        let span = self.time - self.from;
        run.interval = match self.of_run {
            OfRun::More => span.max(run.interval / 2),
            OfRun::Began(_) => span,
            OfRun::Noted { start: 0, .. } => 0,
            OfRun::Noted { start, .. } => self.time - start,
        };
        if run.last.start != start {
            run.before = EndedRun { start: run.last.start, time: run.last.time };
        }
    }
}
