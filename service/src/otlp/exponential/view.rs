//! A request in the book's form, with the view in the place of exponential histograms.

use super::edge::{COARSEST, FINEST};
use super::{Bound, Bounds};
use crate::otlp::json::{write_text, Document, Edited, NotJson, Value};
use crate::otlp::number::{book_whole, mapped_double};
use crate::otlp::series::{metrics, name_shown};
use std::cmp::Ordering;
use std::fmt;

const KIND: &str = "exponentialHistogram";
const KINDS: [&str; 5] = ["gauge", "sum", "histogram", KIND, "summary"];
/// What the view keeps of a point.
const KEPT: [&str; 6] = ["startTimeUnixNano", "timeUnixNano", "count", "sum", "flags", "attributes"];
/// A point that is not taken has nothing but its attributes, and why in this member.
const WHY_NOT: &str = "exponential";

/// How many bytes the view of a text may have more. A count has up to 20 digits.
pub fn most_more(text: &[u8], bounds: &Bounds) -> Result<usize, NotJson> {
    let document = Document::parse(text)?;
    let points = exponential(&document).flat_map(|(_, data)| data.list("dataPoints")).count();
    Ok(points * (bounds.written().len() + 21 * (bounds.0.len() + 1)))
}

/// A request with the view, and why the first point that stays foreign does. The text is one that `otlp` has written.
pub fn viewed(text: &[u8], bounds: &Bounds) -> Result<(String, Option<String>), NotJson> {
    let document = Document::parse(text)?;
    let mut viewing =
        Viewing { edited: Edited::of(document.text()), bounds, explicit: bounds.written(), unfit: None };
    for (metric, data) in exponential(&document) {
        viewing.metric(metric, data);
    }
    Ok((viewing.edited.finished(), viewing.unfit))
}

/// Of a histogram's point that is foreign, why its view is not taken.
pub fn why_not(point: Value<'_>) -> Option<Value<'_>> {
    point.member(WHY_NOT)
}

/// The metrics with an exponential histogram, and no other data.
fn exponential<'d>(document: &'d Document<'_>) -> impl Iterator<Item = (Value<'d>, Value<'d>)> {
    metrics(document).filter_map(|metric| {
        let there = metric.named(KINDS)?;
        let is_one = there.iter().flatten().count() == 1;
        Some((metric, there[3].filter(|_| is_one)?))
    })
}

struct Viewing<'d, 'b> {
    edited: Edited<'d>,
    bounds: &'b Bounds,
    /// The bounds as they are written.
    explicit: String,
    unfit: Option<String>,
}

impl Viewing<'_, '_> {
    fn metric(&mut self, metric: Value<'_>, data: Value<'_>) {
        // In the book's form the name is right before its value, with quotes and a colon.
        let name = data.range().start - KIND.len() - 2;
        self.edited.at(name..data.range().start).push_str("histogram\":");
        for point in data.list("dataPoints") {
            match self.bounds.counts(point) {
                Ok(counts) => self.taken(point, &counts),
                Err(why) => self.foreign(metric, point, &why),
            }
        }
    }

    /// Puts members of a point as they are, and `more`.
    fn point(&mut self, point: Value<'_>, names: &[&str], more: &str) {
        let out = self.edited.at(point.range());
        out.push('{');
        for (name, value) in point.members().into_iter().flatten() {
            if names.contains(&&*name) {
                write_text(out, &name);
                out.push(':');
                out.push_str(value.raw());
                out.push(',');
            }
        }
        out.push_str(more);
        out.push('}');
    }

    fn taken(&mut self, point: Value<'_>, counts: &[u64]) {
        let counts: Vec<String> = counts.iter().map(u64::to_string).collect();
        let more = format!("\"bucketCounts\":[{}],\"explicitBounds\":[{}]", counts.join(","), self.explicit);
        self.point(point, &KEPT, &more);
    }

    fn foreign(&mut self, metric: Value<'_>, point: Value<'_>, why: &WhyNot) {
        let mut more = format!("\"{WHY_NOT}\":");
        write_text(&mut more, &why.to_string());
        self.point(point, &["attributes"], &more);
        if self.unfit.is_none() {
            self.unfit = Some(format!("of the exponential histogram `{}` {why}", name_shown(metric)));
        }
    }
}

/// Why a point has no view.
#[derive(Debug, PartialEq, thiserror::Error)]
pub enum WhyNot {
    #[error("{0} can't be read")]
    Unreadable(&'static str),
    #[error("the scale is none from {COARSEST} to {FINEST}")]
    Scale,
    /// Of a bucket that has values.
    #[error("the {bucket} has the bound {bound} within")]
    Within { bucket: Bucket, bound: f64 },
    #[error("the counts are together over 2^64")]
    TooMany,
}

/// A bucket of a point.
#[derive(Clone, Copy, Debug, PartialEq)]
pub enum Bucket {
    /// From minus the threshold to it.
    Zero { threshold: f64 },
    /// Over base^index, up to base^(index + 1).
    Positive { scale: i32, index: i64 },
    /// The same with the other sign: so its lower end is in it.
    Negative { scale: i32, index: i64 },
}

impl fmt::Display for Bucket {
    fn fmt(&self, out: &mut fmt::Formatter<'_>) -> fmt::Result {
        match self {
            Bucket::Zero { .. } => write!(out, "zero bucket"),
            Bucket::Positive { scale, index } => write!(out, "bucket {index} of scale {scale}"),
            Bucket::Negative { scale, index } => write!(out, "negative bucket {index} of scale {scale}"),
        }
    }
}

impl Bounds {
    /// The counts of the view of a point.
    pub(super) fn counts(&self, point: Value<'_>) -> Result<Vec<u64>, WhyNot> {
        let [scale, zeros, threshold, positive, negative] =
            point.named(["scale", "zeroCount", "zeroThreshold", "positive", "negative"]).unwrap_or_default();
        let scale = i32::try_from(whole("scale", scale)?).map_err(|_| WhyNot::Scale)?;
        if !(COARSEST..=FINEST as i32).contains(&scale) {
            return Err(WhyNot::Scale);
        }
        let mut counts = vec![0; self.0.len() + 1];
        let zeros = natural("zeroCount", zeros)?;
        let threshold = match threshold {
            None => 0.0,
            Some(value) => mapped_double(value)
                .filter(|threshold| *threshold >= 0.0)
                .ok_or(WhyNot::Unreadable("zeroThreshold"))?,
        };
        self.add(&mut counts, Bucket::Zero { threshold }, zeros)?;
        for (index, count) in buckets("positive", positive)? {
            self.add(&mut counts, Bucket::Positive { scale, index }, count?)?;
        }
        for (index, count) in buckets("negative", negative)? {
            self.add(&mut counts, Bucket::Negative { scale, index }, count?)?;
        }
        Ok(counts)
    }

    fn add(&self, counts: &mut [u64], bucket: Bucket, count: u64) -> Result<(), WhyNot> {
        if count == 0 {
            return Ok(());
        }
        let place = self.place(bucket)?;
        counts[place] = counts[place].checked_add(count).ok_or(WhyNot::TooMany)?;
        Ok(())
    }

    /// Into which bucket of the view one falls whole.
    pub(super) fn place(&self, bucket: Bucket) -> Result<usize, WhyNot> {
        let place = self.0.partition_point(|bound| bucket.is_over(bound));
        match self.0.get(place) {
            Some(bound) if !bucket.is_up_to(bound) => {
                let bound = bound.double;
                Err(WhyNot::Within { bucket, bound })
            }
            _ => Ok(place),
        }
    }
}

impl Bucket {
    /// Whether all of it is over a bound.
    fn is_over(self, bound: &Bound) -> bool {
        match self {
            // Of a bound that is no double the nearest one says the same of every other.
            Bucket::Zero { threshold } => bound.double < -threshold,
            Bucket::Positive { scale, index } => bound.positive(scale, index) != Ordering::Less,
            Bucket::Negative { scale, index } => bound.negative(scale, index + 1) == Ordering::Greater,
        }
    }

    /// Whether nothing of it is over a bound.
    fn is_up_to(self, bound: &Bound) -> bool {
        match self {
            Bucket::Zero { threshold } => {
                threshold < bound.double || threshold == bound.double && bound.is_double
            }
            Bucket::Positive { scale, index } => bound.positive(scale, index + 1) != Ordering::Greater,
            Bucket::Negative { scale, index } => bound.negative(scale, index) != Ordering::Greater,
        }
    }
}

impl Bound {
    /// How base^index compares with it.
    fn positive(&self, scale: i32, index: i64) -> Ordering {
        match self.edge {
            Some(edge) if self.double > 0.0 => edge.compared(scale, index),
            _ => Ordering::Greater,
        }
    }

    /// How minus base^index compares with it.
    fn negative(&self, scale: i32, index: i64) -> Ordering {
        match self.edge {
            Some(edge) if self.double < 0.0 => edge.compared(scale, index).reverse(),
            _ => Ordering::Less,
        }
    }
}

/// The index and the count of each bucket on one side.
fn buckets<'d>(
    side: &'static str,
    found: Option<Value<'d>>,
) -> Result<impl Iterator<Item = (i64, Result<u64, WhyNot>)> + use<'d>, WhyNot> {
    let [offset, counts] =
        found.map_or(Some([None; 2]), |side| side.named(["offset", "bucketCounts"])).unwrap_or_default();
    let offset = i64::from(i32::try_from(whole(side, offset)?).map_err(|_| WhyNot::Unreadable(side))?);
    let counts = match counts {
        None => None,
        Some(list) => Some(list.elements().ok_or(WhyNot::Unreadable(side))?),
    };
    let counts = counts.into_iter().flatten();
    Ok((offset..).zip(counts.map(move |count| natural(side, Some(count)))))
}

fn whole(field: &'static str, found: Option<Value<'_>>) -> Result<i128, WhyNot> {
    found.map_or(Some(0), book_whole).ok_or(WhyNot::Unreadable(field))
}

fn natural(field: &'static str, found: Option<Value<'_>>) -> Result<u64, WhyNot> {
    u64::try_from(whole(field, found)?).map_err(|_| WhyNot::Unreadable(field))
}
