//! `GET /late`: lists the points that their series refused, by series, sender, reason and time.
//!
//! Each instance keeps the points that it refused itself (`crate::late`), so each lists its own.

use super::named::Named;
use super::query::Query;
use super::reach::Answer;
use super::AdminApi;
use crate::late::{LateData, LatePoint, LateValue};
use crate::log::{of_nanoseconds, utc};
use crate::otlp::Reason;
use crate::sink::periods::seconds_of;
use crate::sink::sql::totals::SeriesTotal;
use crate::work::blocking;
use serde_json::{json, Value};
use std::collections::{BTreeMap, HashMap};
use std::io;

const SECOND: u64 = 1_000_000_000;

/// How many points are listed by default, and at most.
const LISTED: usize = 1000;
const MAX_LISTED: usize = 100_000;

/// Which points to list.
#[derive(Debug, Default)]
struct Wanted {
    key: Option<String>,
    series: Option<Named>,
    sender: Option<String>,
    reason: Option<Reason>,
    /// In nanoseconds since 1970.
    since: Option<u64>,
    until: Option<u64>,
    limit: usize,
}

/// The last `limit` of the points, in the order in which they were refused.
#[derive(Debug, Default)]
struct Found {
    points: BTreeMap<u64, LatePoint>,
    /// The position of each key. A repeat has the key of the first, and is left out.
    keys: HashMap<String, u64>,
    count: u64,
}

impl Wanted {
    fn read(query: Query<'_>) -> Result<Wanted, String> {
        let given = |key: &str| query.value(key).map(|value| Some(value).filter(|value| !value.is_empty()));
        let time = |key: &str| {
            let of = |text: String| {
                let nanoseconds = seconds_of(&text).and_then(|seconds| seconds.checked_mul(SECOND));
                nanoseconds.ok_or_else(|| format!("`{text}` is no time: write 2026-11-05T13:30:15, of UTC"))
            };
            given(key)?.map(of).transpose()
        };
        let reason = |text: String| {
            Reason::labelled(&text)
                .ok_or_else(|| format!("`{text}` is no reason: duplicate_or_late or other_writer"))
        };
        let limit = |text: String| {
            let limit = text.parse().ok().filter(|limit| (1..=MAX_LISTED).contains(limit));
            limit.ok_or_else(|| format!("`{text}` is no limit: write a number from 1 to {MAX_LISTED}"))
        };
        Ok(Wanted {
            key: given("key")?,
            series: given("series")?.map(|written| written.parse()).transpose()?,
            sender: given("sender")?,
            reason: given("reason")?.map(reason).transpose()?,
            since: time("since")?,
            until: time("until")?,
            limit: given("limit")?.map(limit).transpose()?.unwrap_or(LISTED),
        })
    }

    fn has(&self, point: &LatePoint) -> bool {
        let is = |wanted: &Option<String>, found: &str| wanted.as_ref().is_none_or(|wanted| wanted == found);
        is(&self.key, &point.key)
            && is(&self.sender, &point.sender)
            && self.reason.is_none_or(|reason| reason == point.reason)
            && self.since.is_none_or(|since| point.end_ns > since)
            && self.until.is_none_or(|until| point.start_ns < until)
            && self.series.as_ref().is_none_or(|series| series.has(&point.series()))
    }

    /// Whether a line may have a wanted point. Most lines don't have the wanted key, so they are not parsed.
    fn may_be(&self, line: &[u8]) -> bool {
        let key = self.key.as_deref().unwrap_or_default().as_bytes();
        key.is_empty() || line.windows(key.len()).any(|part| part == key)
    }

    fn find(&self, late: &LateData) -> io::Result<Found> {
        let mut found = Found::default();
        late.read(
            |line| self.may_be(line),
            |point| {
                if self.has(&point) {
                    found.add(point, self.limit);
                }
            },
        )?;
        Ok(found)
    }
}

impl Found {
    fn add(&mut self, point: LatePoint, limit: usize) {
        if self.keys.contains_key(&point.key) {
            return;
        }
        self.keys.insert(point.key.clone(), self.count);
        self.points.insert(self.count, point);
        self.count += 1;
        if self.points.len() > limit {
            let first = self.points.pop_first();
            first.map(|(_, point)| self.keys.remove(&point.key));
        }
    }
}

/// A point as a program reads it: with the names of its series, and whole numbers as decimal texts, which no reader rounds.
fn listed(point: &LatePoint) -> Value {
    let mut shown = json!({
        "key": point.key,
        "refused_at": utc(point.at).replace(' ', "T") + "Z",
        "sender": point.sender,
        "reason": point.reason,
        "series": point.series().0.to_string(),
        "start": of_nanoseconds(point.start_ns),
        "end": of_nanoseconds(point.end_ns),
        "start_ns": point.start_ns.to_string(),
        "end_ns": point.end_ns.to_string(),
        "temporality": if point.cumulative { "cumulative" } else { "delta" },
        "series_end": point.series_end_ns.map(of_nanoseconds),
        "series_sender": point.series_sender,
    });
    match &point.value {
        LateValue::Sum(value) => shown["value"] = json!(value.to_string()),
        LateValue::Histogram { count, sum, buckets } => {
            shown["count"] = json!(count.to_string());
            shown["sum"] = json!(sum.map(|sum| sum.to_string()));
            shown["buckets"] = texts(buckets);
        }
    }
    if let Ok(of) = SeriesTotal::of_none(&point.series()) {
        if let Some(histogram) = &of.histogram {
            shown["bounds"] = texts(&histogram.bounds);
        }
        let (kind, mut of) = (of.kind, json!(of));
        for name in ["name", "unit", "attributes", "resource"] {
            shown[name] = of[name].take();
        }
        (shown["kind"], shown["is_monotonic"]) = (json!(kind.name()), json!(kind.is_monotonic()));
        for name in ["scope_name", "scope_version", "scope_attributes"] {
            shown[name] = of[name].take();
        }
    }
    shown
}

fn texts<T: ToString>(numbers: &[T]) -> Value {
    numbers.iter().map(ToString::to_string).collect()
}

impl AdminApi {
    /// The point of this key, if this instance keeps it.
    pub(super) async fn late_point(&self, key: &str) -> io::Result<Option<LatePoint>> {
        let wanted = Wanted { key: Some(key.to_string()), limit: 1, ..Wanted::default() };
        let late = self.late.clone();
        let found = blocking(move || wanted.find(&late)).await?;
        Ok(found.points.into_values().next())
    }

    pub(super) async fn late(&self, query: Query<'_>) -> Answer {
        let wanted = match Wanted::read(query) {
            Ok(wanted) => wanted,
            Err(why) => return Answer::told(400, &why),
        };
        let late = self.late.clone();
        let found = blocking(move || {
            let found = wanted.find(&late)?;
            let more = found.count - found.points.len() as u64;
            let points: Vec<Value> = found.points.values().map(listed).collect();
            Ok::<_, io::Error>(json!({ "more": more, "points": points }).to_string())
        });
        match found.await {
            Ok(found) => Answer::new(200, found),
            Err(why) => Answer::told(500, &format!("late data can't be read: {why}")),
        }
    }
}

#[cfg(test)]
mod tests {
    use super::*;
    use serde_json::value::RawValue;
    use std::collections::BTreeSet;

    fn late(kind: &str, value: LateValue) -> LatePoint {
        LatePoint {
            key: "1".into(),
            at: 5,
            sender: "shop".into(),
            reason: Reason::OutOfOrder,
            series: RawValue::from_string(format!(r#"[[],"","",[],"m","1",{kind},[]]"#)).unwrap(),
            start_ns: 1,
            end_ns: 2,
            cumulative: false,
            value,
            series_end_ns: Some(3),
            series_sender: None,
        }
    }

    /// Whoever reads it with a program finds them there.
    #[test]
    fn the_fields_of_a_point_are_those_of_the_document_of_formats() {
        let formats = include_str!("../../../docs/FORMATS.md");
        let (_, section) = formats.split_once("**A point of `/late`**").expect("its table");
        let rows = section.lines().skip_while(|line| !line.starts_with("| `"));
        let first_cells =
            rows.take_while(|line| line.starts_with('|')).filter_map(|line| line.split(" | ").next());
        let documented: BTreeSet<&str> =
            first_cells.flat_map(|cell| cell.split('`').skip(1).step_by(2)).collect();
        let histogram = LateValue::Histogram { count: 3, sum: Some(7), buckets: vec![1, 2] };
        let both = [late("\"monotonic\"", LateValue::Sum(7)), late("[5]", histogram)].map(|it| listed(&it));
        let fields = both.iter().flat_map(|point| point.as_object().unwrap().keys());
        let fields: BTreeSet<&str> = fields.map(String::as_str).collect();
        assert_eq!(documented, fields);
        assert_eq!((&both[0]["value"], &both[1]["buckets"]), (&json!("7"), &json!(["1", "2"])));
        assert_eq!((both[0].get("bounds"), both[1].get("bounds")), (None, Some(&json!(["5"]))));
    }
}
