//! A body read as the book reads it: which series it has points of, and which points are foreign.

use super::identity::{text, write_attributes};
use super::point::{histogram_point, sum_kind, sum_point, Put, Temporality};
use super::why::{What, Why};
use super::SeriesKey;
use crate::otlp::exponential::why_not;
use crate::otlp::json::{write_text, Document, Value};
use ahash::RandomState;
use std::collections::HashSet;
use std::hash::BuildHasher;

/// A point where it is in its body.
pub struct Seen<'s, 'd> {
    pub metric: &'s SeenMetric<'d>,
    /// The field of the metric's data.
    pub kind: &'static str,
    pub point: Value<'d>,
    /// Where it is of the profile the series' key, and its start, its end and what it says.
    pub key: &'s str,
    pub words: &'s [u64],
    pub found: Result<Temporality, Why<'d>>,
}

/// What is looked for in a metric, once: it may have as many members as points.
pub struct SeenMetric<'d> {
    pub name: Option<Value<'d>>,
    pub unit: Option<Value<'d>>,
    /// Whether its sum only goes up.
    pub is_monotonic: bool,
}

/// Which points are of the profile. As an option it is what becomes of cumulative ones.
#[derive(Clone, Copy, Debug, Default, PartialEq, Eq, clap::ValueEnum)]
pub enum Profile {
    /// Also what deltas can be made of.
    #[value(name = "on", help = "Deltas are made of them")]
    AlsoCumulative,
    /// Those that the book takes.
    #[default]
    #[value(name = "off", help = "They are not taken")]
    Deltas,
}

impl Seen<'_, '_> {
    /// Where a point of the profile ends.
    pub fn end(&self) -> u64 {
        self.words[1]
    }
}

/// Shows the key of each point of a body that the book took, and counts the others; none where the book refuses the body whole.
/// No key is kept: together they may be a thousand times as long as the body.
pub fn posted(body: &[u8], mut each: impl FnMut(&str)) -> Option<u64> {
    let mut foreign = 0;
    visit_body(body, Profile::Deltas, |seen| match seen.found {
        Err(_) => foreign += 1,
        Ok(_) => each(seen.key),
    })?;
    Some(foreign)
}

/// How many series that a body has points of are not such, looked at until they are one more than `most`. No key is kept:
/// together they may be a thousand times as long as the body.
pub fn others(body: &[u8], profile: Profile, most: u64, mut is_such: impl FnMut(&SeriesKey) -> bool) -> u64 {
    let (mut looked_at, mut others) = (HashSet::new(), 0);
    let hasher = RandomState::new();
    let _ = visit_body(body, profile, |seen| {
        if others <= most && seen.found.is_ok() && looked_at.insert(hasher.hash_one(seen.key)) {
            others += u64::from(!is_such(&SeriesKey(seen.key.into())));
        }
    });
    others
}

/// The series of a request of one point, by which a number has its name.
pub fn only(text: &[u8]) -> Option<SeriesKey> {
    let (mut first, mut is_one) = (None, true);
    posted(text, |key| is_one &= *first.get_or_insert_with(|| SeriesKey(key.into())).0 == *key)?;
    first.filter(|_| is_one)
}

/// How many words say a point of the series of such a request, with its number.
pub fn words_of(text: &[u8]) -> Option<usize> {
    let mut words = None;
    visit_body(text, Profile::Deltas, |seen| words = Some(1 + seen.words.len()))?;
    words
}

/// The first resource of a body as the keys of its series have it; none where no series may have it.
pub fn first_resource(document: &Document<'_>) -> Option<String> {
    let [resource] = resources(document)?.next()?.named(["resource"])?;
    let [attributes] = members(resource, ["attributes"])?;
    let mut text = String::new();
    write_attributes(&mut text, "resource attribute", attributes).ok()?;
    Some(text)
}

/// Of each resource of a body how many points of the profile it has; none where the book refuses the body whole.
pub fn points_by_resource(document: &Document<'_>, profile: Profile) -> Option<Vec<u64>> {
    let points = resources(document)?.map(|resource| {
        let mut points = 0;
        let mut walk = Walk {
            each: |seen: Seen<'_, '_>| points += u64::from(seen.found.is_ok()),
            profile,
            put: Put::default(),
        };
        walk.resource(resource)?;
        Some(points)
    });
    points.collect()
}

/// Shows each point of a body, in order; `None` where the book refuses the body whole.
pub fn visit_body(body: &[u8], profile: Profile, each: impl FnMut(Seen<'_, '_>)) -> Option<()> {
    visit(&Document::parse(body).ok()?, profile, each)
}

/// The same of a body that is parsed.
pub fn visit<'d>(document: &'d Document<'_>, profile: Profile, each: impl FnMut(Seen<'_, 'd>)) -> Option<()> {
    let mut walk = Walk { each, profile, put: Put::default() };
    resources(document)?.try_for_each(|resource| walk.resource(resource))
}

fn resources<'d>(document: &'d Document<'_>) -> Option<impl Iterator<Item = Value<'d>>> {
    let [resources] = document.root().named(["resourceMetrics"])?;
    objects(resources)
}

/// The elements of an array of objects; `None` where the whole request is refused for them.
fn objects(found: Option<Value<'_>>) -> Option<impl Iterator<Item = Value<'_>>> {
    let elements = match found {
        None => None,
        Some(list) => Some(list.elements()?),
    };
    let elements = elements.into_iter().flatten();
    elements.clone().all(|element| element.members().is_some()).then_some(elements)
}

/// The members of an object that may be absent; `None` where the whole request is refused for it.
fn members<'d, const N: usize>(found: Option<Value<'d>>, names: [&str; N]) -> Option<[Option<Value<'d>>; N]> {
    match found {
        None => Some([None; N]),
        Some(object) => object.named(names),
    }
}

/// A metric's data field and its points.
struct Part<'d> {
    kind: &'static str,
    whole: Value<'d>,
    points: Option<Value<'d>>,
}

/// What is known of the points below: nothing that makes them foreign, or the first that does.
type ForeignCheck<'d> = Result<(), Why<'d>>;

struct Walk<F> {
    each: F,
    profile: Profile,
    /// Where a point is put together: what is above it stays in the key while its siblings are read.
    put: Put,
}

impl<'d, F: FnMut(Seen<'_, 'd>)> Walk<F> {
    fn resource(&mut self, value: Value<'d>) -> Option<()> {
        let [resource, scopes] = value.named(["resource", "scopeMetrics"])?;
        let [attributes] = members(resource, ["attributes"])?;
        self.put.key.clear();
        self.put.key.push('[');
        let known = write_attributes(&mut self.put.key, "resource attribute", attributes);
        let above = self.put.key.len();
        for scope in objects(scopes)? {
            self.put.key.truncate(above);
            self.scope(scope, known)?;
        }
        Some(())
    }

    fn scope(&mut self, value: Value<'d>, known: ForeignCheck<'d>) -> Option<()> {
        let [scope, metrics] = value.named(["scope", "metrics"])?;
        let [name, version, attributes] = members(scope, ["name", "version", "attributes"])?;
        let known = known.and_then(|()| {
            write_part(&mut self.put.key, &text("scope name", name)?);
            write_part(&mut self.put.key, &text("scope version", version)?);
            self.put.key.push(',');
            write_attributes(&mut self.put.key, "scope attribute", attributes)
        });
        let above = self.put.key.len();
        for metric in objects(metrics)? {
            self.put.key.truncate(above);
            self.metric(metric, known)?;
        }
        Some(())
    }

    fn metric(&mut self, value: Value<'d>, known: ForeignCheck<'d>) -> Option<()> {
        let [name, unit, gauge, sum, histogram, exponential, summary] =
            value.named(["name", "unit", "gauge", "sum", "histogram", "exponentialHistogram", "summary"])?;
        let others =
            [part("gauge", gauge)?, part("exponentialHistogram", exponential)?, part("summary", summary)?];
        let (sum, histogram) = (part("sum", sum)?, part("histogram", histogram)?);
        let is_monotonic = sum.as_ref().is_some_and(|sum| is_monotonic(sum.whole));
        let value = &SeenMetric { name, unit, is_monotonic };
        let there = others.iter().chain([&sum, &histogram]).flatten().count();
        let known = match there {
            0 | 1 => known,
            _ => known.and(Err(Why::new(What::SeveralKinds, "data", None))),
        };
        for other in others.into_iter().flatten() {
            let why = known.err().unwrap_or(Why::new(What::OtherKind, in_words(other.kind), None));
            for point in objects(other.points)? {
                self.show(value, other.kind, point, Err(why));
            }
        }
        let known = known.and_then(|()| {
            write_part(&mut self.put.key, &text("metric name", name)?);
            write_part(&mut self.put.key, &text("unit", unit)?);
            Ok(())
        });
        if let Some(sum) = sum {
            self.points(value, sum, known, sum_kind, sum_point)?;
        }
        if let Some(histogram) = histogram {
            self.points(value, histogram, known, |_, _| Ok(()), histogram_point)?;
        }
        Some(())
    }

    /// The points of a sum or a histogram; `kind` writes what all of them share, `point` what each has.
    fn points(
        &mut self,
        metric: &SeenMetric<'d>,
        part: Part<'d>,
        known: ForeignCheck<'d>,
        kind: fn(&mut Put, Value<'d>) -> ForeignCheck<'d>,
        point: fn(&mut Put, Value<'d>, Temporality) -> ForeignCheck<'d>,
    ) -> Option<()> {
        let known = known
            .and_then(|()| temporality(part.whole, self.profile))
            .and_then(|temporality| kind(&mut self.put, part.whole).map(|()| temporality));
        let above = self.put.key.len();
        for value in objects(part.points)? {
            self.put.key.truncate(above);
            self.put.words.clear();
            let found =
                known.and_then(|temporality| point(&mut self.put, value, temporality).map(|()| temporality));
            let found = found.map_err(|why| match why_not(value) {
                Some(not) if part.kind == "histogram" => Why::new(What::NoView, "view", Some(not)),
                _ => why,
            });
            self.show(metric, part.kind, value, found);
        }
        Some(())
    }

    fn show(
        &mut self,
        metric: &SeenMetric<'d>,
        kind: &'static str,
        point: Value<'d>,
        found: Result<Temporality, Why<'d>>,
    ) {
        (self.each)(Seen { metric, kind, point, key: &self.put.key, words: &self.put.words, found });
    }
}

fn write_part(key: &mut String, text: &str) {
    key.push(',');
    write_text(key, text);
}

fn part<'d>(kind: &'static str, found: Option<Value<'d>>) -> Option<Option<Part<'d>>> {
    let Some(whole) = found else { return Some(None) };
    let [points] = whole.named(["dataPoints"])?;
    drop(objects(points)?);
    Some(Some(Part { kind, whole, points }))
}

pub fn is_monotonic(sum: Value<'_>) -> bool {
    sum.member("isMonotonic").and_then(Value::truth) == Some(true)
}

fn in_words(kind: &'static str) -> &'static str {
    match kind {
        "gauge" => "gauges",
        "summary" => "summaries",
        _ => "exponential histograms",
    }
}

fn temporality(data: Value<'_>, profile: Profile) -> Result<Temporality, Why<'_>> {
    let found = data.member("aggregationTemporality");
    match found.and_then(Value::number) {
        Some("1") => Ok(Temporality::Delta),
        Some("2") if profile == Profile::AlsoCumulative => Ok(Temporality::Cumulative),
        Some("2") => Err(Why::new(What::Cumulative, "aggregationTemporality", found)),
        _ => Err(Why::new(What::NotDelta, "aggregationTemporality", found)),
    }
}
