//! What was rounded in a request: by rule, and by point with its series.
//!
//! While a request is rewritten, each value that is rounded leaves a mark at its place in the new text. Where there are
//! marks, the new text is read once more as the service reads it: that says which series a marked point is of, and
//! whether it can be taken.

use super::{Decided, Rule};
use crate::otlp::json::{Document, NotJson, Value};
use crate::otlp::series::{said, short, visit, Profile, Seen};
use serde::{Deserialize, Serialize};
use std::collections::hash_map::DefaultHasher;
use std::collections::BTreeMap;
use std::hash::Hasher;
use std::sync::Arc;

/// Of a longer key both ends count, so that the time for a point is bounded whatever its resource has.
const HASHED: usize = 8 << 10;

/// How much is shown of a name or a value, in characters, and of all attributes of a point or a resource, in bytes.
const SHOWN: usize = 100;
const SHOWN_OF_POINT: usize = 300;
const SHOWN_OF_RESOURCE: usize = 1000;

/// What was done to the values of a request.
#[derive(Debug, Default, PartialEq)]
pub struct Rounded {
    /// By the rule, as it is written with its factor.
    pub by_rule: BTreeMap<String, Rounding>,
    /// Points that can be taken, in the order of the request, each with a value of these.
    pub points: Vec<RoundedPoint>,
    /// The first point that stays foreign though its unit has a rule, in words.
    pub unfit: Option<String>,
    /// In which units its metrics are taken from now on, if it is taken.
    pub decided: Decided,
}

impl Rounded {
    /// Of memory, more or less.
    pub fn bytes(&self) -> usize {
        let of = |point: &RoundedPoint| {
            let shown = point.of.metric.len() + point.of.attributes.len();
            size_of::<RoundedPoint>() + size_of::<ShownSeries>() + shown
        };
        self.points.iter().map(of).sum::<usize>() + self.decided.bytes()
    }

    /// Of points that are all taken.
    pub(crate) fn of_points(points: Vec<RoundedPoint>) -> Rounded {
        let by_rule = by_rule(points.iter().map(|point| (&*point.of.rule, point.by)));
        Rounded { by_rule, points, ..Rounded::default() }
    }
}

/// Each value that was rounded has a rule, of which there are few, and what it was rounded by.
fn by_rule<'r>(values: impl Iterator<Item = (&'r str, f64)>) -> BTreeMap<String, Rounding> {
    let mut all: BTreeMap<String, Rounding> = BTreeMap::new();
    for (rule, by) in values {
        match all.get_mut(rule) {
            Some(rounding) => rounding.add(by),
            None => all.entry(rule.to_string()).or_default().add(by),
        }
    }
    all
}

/// Values that were not whole, and what they were rounded by together, in the finer unit.
#[derive(Clone, Copy, Debug, Default, PartialEq, Serialize, Deserialize)]
pub struct Rounding {
    pub values: u64,
    pub together: f64,
}

impl Rounding {
    pub fn add(&mut self, by: f64) {
        self.values += 1;
        self.together += by;
    }
}

/// A point that can be taken, and whose value or sum was rounded.
#[derive(Clone, Debug, PartialEq)]
pub struct RoundedPoint {
    pub of: Arc<ShownSeries>,
    /// In the finer unit: over 0, at most a half.
    pub by: f64,
}

/// The series of such a point.
#[derive(Debug, PartialEq)]
pub struct ShownSeries {
    pub rule: Arc<str>,
    /// A hash of its key. Series of one hash are taken for one: what they were rounded by is added up.
    pub series: u64,
    /// How people know its series again: the metric's name, and attributes as `key=value, ..`, in the order in which
    /// they came. What is long is cut.
    pub metric: String,
    pub attributes: String,
    pub resource: Arc<str>,
}

/// A value that was rounded.
pub(super) struct Mark<'r> {
    /// Within its point, in the new text.
    pub at: usize,
    pub by: f64,
    pub rule: &'r Rule,
    /// The attributes of its resource, as they are shown.
    pub resource: Arc<str>,
}

/// What was rounded. The marks are in the order of the text, which is the new one.
pub(super) fn rounded(text: &str, marks: Vec<Mark<'_>>, profile: Profile) -> Result<Rounded, NotJson> {
    if marks.is_empty() {
        return Ok(Rounded::default());
    }
    let document = Document::parse(text.as_bytes())?;
    let by_rule = by_rule(marks.iter().map(|mark| (&*mark.rule.text, mark.by)));
    let mut points = Vec::new();
    let mut marks = marks.into_iter().peekable();
    let whole = visit(&document, profile, |seen| {
        let place = seen.point.range();
        while let Some(mark) = marks.next_if(|mark| mark.at < place.end) {
            if place.contains(&mark.at) && seen.found.is_ok() {
                let Mark { by, rule, resource, .. } = mark;
                let of = Arc::new(series_shown(&seen, rule.text.clone(), resource));
                points.push(RoundedPoint { of, by });
            }
        }
    });
    if whole.is_none() {
        points.clear(); // the book refuses it whole
    }
    Ok(Rounded { by_rule, points, ..Rounded::default() })
}

fn series_shown(seen: &Seen<'_, '_>, rule: Arc<str>, resource: Arc<str>) -> ShownSeries {
    let name = seen.metric.name.and_then(Value::text);
    ShownSeries {
        rule,
        series: hash(seen.key),
        metric: short(&name.unwrap_or_default(), SHOWN),
        attributes: attributes(seen.point, SHOWN_OF_POINT),
        resource,
    }
}

/// The series of a request of one point, in the book's form.
pub fn shown_of(request: &[u8], rule: Arc<str>) -> Option<ShownSeries> {
    let document = Document::parse(request).ok()?;
    let resource = document.root().list("resourceMetrics").next()?;
    let resource = resource.member("resource").map(resource_shown).unwrap_or_default();
    let mut series = None;
    visit(&document, Profile::Deltas, |seen| {
        if seen.found.is_ok() {
            series = Some(series_shown(&seen, rule.clone(), resource.clone()));
        }
    })?;
    series
}

fn hash(key: &str) -> u64 {
    let mut hasher = DefaultHasher::new();
    let key = key.as_bytes();
    match key.len() {
        0..=HASHED => hasher.write(key),
        length => {
            hasher.write(&key[..HASHED / 2]);
            hasher.write(&key[length - HASHED / 2..]);
        }
    }
    hasher.write_usize(key.len());
    hasher.finish()
}

/// The attributes of a resource.
pub(super) fn resource_shown(resource: Value<'_>) -> Arc<str> {
    attributes(resource, SHOWN_OF_RESOURCE).into()
}

/// The attributes of a point or a resource: behind so many bytes no other one begins.
fn attributes(of: Value<'_>, most: usize) -> String {
    let mut text = String::new();
    for pair in of.list("attributes") {
        if !text.is_empty() {
            text.push_str(", ");
        }
        if text.len() > most {
            text.push_str("..");
            break;
        }
        let [key, value] = pair.named(["key", "value"]).unwrap_or_default();
        text.push_str(&short(&key.and_then(Value::text).unwrap_or_default(), SHOWN));
        text.push('=');
        text.push_str(&value.map(shown).unwrap_or_default());
    }
    text
}

/// What it says; `{"arrayValue":{"values":[..]}}` is [..].
fn shown(value: Value<'_>) -> String {
    let single = |value| short(&said(value), SHOWN);
    match value.member("arrayValue") {
        Some(array) => {
            let values: Vec<String> = array.list("values").map(single).collect();
            short(&format!("[{}]", values.join(", ")), SHOWN)
        }
        None => single(value),
    }
}
