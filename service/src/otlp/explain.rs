//! What becomes of each point of a request in the book's form, in words, and what the request is answered.

use super::clock::Window;
use super::json::Value;
use super::outside::is_passed;
use super::series::{said, visit_body, Profile, Seen, SeriesKey, Temporality, What, LOOKED_AT};
use super::{Causes, OffClock, Outcome, Reason, RejectedPoint, Rejection};
use crate::log::cut;
use serde::Serialize;
use std::collections::HashMap;
use std::sync::Arc;

/// How much of an attribute's value is shown.
const SHOWN: usize = 60;

/// What is said of a sum that may go down: no preference makes it delta.
const UP_DOWN: &str = "it is cumulative, as an UpDownCounter is also with the temporality preference delta: use two Counters, one of \
                       what comes and one of what goes, or leave it out by a view";

/// One point.
#[derive(Clone, Debug, PartialEq, Eq, Serialize)]
pub struct Explained {
    pub metric: String,
    /// The field of the metric's data: `sum`, `gauge`.
    pub kind: &'static str,
    /// The point's attributes, for people.
    pub attributes: String,
    /// Why it is not taken; nothing where it is.
    #[serde(rename = "rejected")]
    pub foreign: Option<String>,
    /// The same as it is counted.
    #[serde(rename = "reason")]
    pub cause: Option<Reason>,
    /// Its start and its end, where it is of the profile.
    #[serde(skip)]
    pub interval: (u64, u64),
}

impl Explained {
    /// Whether it is handed on where there is somebody who takes it.
    pub fn is_passed(&self) -> bool {
        is_passed(self.kind, self.cause)
    }
}

/// The points of a body, in order, where it is posted within the window; `None` where the book refuses it whole.
pub fn explained(body: &[u8], profile: Profile, window: Window) -> Option<Vec<Explained>> {
    let mut all = Vec::new();
    visit_body(body, profile, |seen| {
        let mut point = of(&seen);
        // One that would be taken may be off by its clock.
        if let Some(off) = seen.found.ok().and_then(|_| window.off(seen.end())) {
            (point.foreign, point.cause) = (Some(off.to_string()), Some(Reason::of_clock(off)));
        }
        all.push(point);
    })?;
    Some(all)
}

/// Of a series whose points are looked at: where those end that are taken, its last point, and whether that is refused.
struct OfSeries {
    end: u64,
    last: Vec<u64>,
    is_refused: bool,
}

/// What a body is answered that is posted within the window to a book that has nothing of its series; `None` if the book refuses
/// its shape. A delta point that begins before one of its series ends that is ahead of it in the body is left out: as a duplicate, which
/// counts as taken, if both are equal, else it is refused: which of all points are, too.
pub fn answered(body: &[u8], profile: Profile, window: Window) -> Option<(Outcome, Vec<usize>)> {
    let (mut causes, mut off) = (Causes::default(), OffClock::default());
    let (mut series, mut place) = (HashMap::<Arc<str>, OfSeries>::new(), 0);
    let (mut late, mut first, mut points) = (Vec::new(), None, 0);
    visit_body(body, profile, |seen| {
        points += 1;
        let Ok(temporality) = seen.found else {
            causes.add(Reason::of_seen(&seen).unwrap_or(Reason::Other), 1);
            return;
        };
        match (window.off(seen.end()), series.get_mut(seen.key)) {
            (Some(found), _) => off.count(found),
            (None, _) if temporality != Temporality::Delta => {}
            (None, Some(of)) if seen.words[0] < of.end => {
                of.is_refused |= of.last != seen.words;
                of.last = seen.words.to_vec();
                if of.is_refused {
                    late.push(points - 1);
                    first.get_or_insert(RejectedPoint { place, frontier: Some(of.end) });
                }
            }
            (None, _) => {
                let of = OfSeries { end: seen.end(), last: seen.words.to_vec(), is_refused: false };
                series.insert(seen.key.into(), of);
            }
        }
        place += 1;
    })?;
    let refused = first.map(|first| (late.len() as u64, Rejection::of_point(Reason::OutOfOrder, first)));
    Some((Outcome::taken_but(0, off, causes).without(refused.into_iter().collect()), late))
}

/// The first of its points that are foreign, until `is_enough` says so.
pub fn foreign_points(body: &[u8], profile: Profile, mut is_enough: impl FnMut(Explained) -> bool) {
    let mut goes_on = true;
    let _ = visit_body(body, profile, |seen| {
        if goes_on && seen.found.is_err() {
            goes_on = !is_enough(of(&seen));
        }
    });
}

/// Shows each point that the book takes: its series' key, its metric's name, and its start, its end and what it says.
pub fn taken_points(body: &[u8], mut each: impl FnMut(&str, &str, &[u64])) {
    let _ = visit_body(body, Profile::Deltas, |seen| {
        if seen.found.is_ok() {
            let name = seen.metric.name.and_then(Value::text).unwrap_or_default();
            each(seen.key, &name, seen.words);
        }
    });
}

/// A point that would be taken, counted from 0 among these alone, and its series.
pub fn point_at(body: &[u8], profile: Profile, place: u64) -> Option<(Explained, SeriesKey)> {
    let (mut taken, mut series) = (0, None);
    visit_body(body, profile, |seen| {
        if seen.found.is_ok() {
            if taken == place {
                series = Some((of(&seen), SeriesKey(Arc::from(seen.key))));
            }
            taken += 1;
        }
    })?;
    series
}

/// The same of a point whose series has another one ahead of it in the body, which ends then.
pub fn second_at(body: &[u8], profile: Profile, place: u64, end: u64) -> Option<Explained> {
    let (second, series) = point_at(body, profile, place)?;
    let (mut taken, mut has_first) = (0, false);
    visit_body(body, profile, |seen| {
        if seen.found.is_ok() {
            has_first |= taken < place && seen.end() == end && *seen.key == *series.0;
            taken += 1;
        }
    })?;
    has_first.then_some(second)
}

fn of(seen: &Seen<'_, '_>) -> Explained {
    let name = seen.metric.name.and_then(|name| name.text_up_to(LOOKED_AT));
    Explained {
        metric: name.unwrap_or_default().into_owned(),
        kind: seen.kind,
        attributes: attributes(seen.point),
        foreign: seen.found.err().map(|why| match why.what {
            What::Cumulative if seen.kind == "sum" && !seen.metric.is_monotonic => UP_DOWN.to_string(),
            _ => why.to_string(),
        }),
        cause: Reason::of_seen(seen),
        interval: match (&seen.found, seen.words) {
            (Ok(_), [start, end, ..]) => (*start, *end),
            _ => (0, 0),
        },
    }
}

/// `key=value, ..`, also of what can't be read whole.
fn attributes(point: Value<'_>) -> String {
    let pairs = point.list("attributes").filter_map(|pair| {
        let [key, value] = pair.named(["key", "value"])?;
        let key = key.and_then(Value::text).unwrap_or_default();
        Some(format!("{key}={}", cut(&value.map(said).unwrap_or_default(), SHOWN)))
    });
    pairs.collect::<Vec<String>>().join(", ")
}
