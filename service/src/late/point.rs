//! The form of a late point: a line of JSON.

use crate::book::{Names, PointRefusal};
use crate::journal::{Names as _, Points};
use crate::log::seconds;
use crate::otlp::series::{only, SeriesKey};
use crate::otlp::Reason;
use crate::outbox::Outbox;
use serde::{Deserialize, Serialize};
use serde_json::value::RawValue;
use sha2::{Digest, Sha256};
use std::sync::{Arc, Weak};

/// How many bytes of the digest a key has: two of a million points have the same key in one of about 10^7 folders.
const KEY: usize = 8;

/// The refused points of a post.
pub struct Refusals {
    sender: String,
    names: Arc<Names>,
    points: Points,
    /// For each point why it was refused, and whether it is cumulative.
    why: Vec<(PointRefusal, bool)>,
    /// Knows the owners of series.
    outbox: Weak<Outbox>,
}

/// A late point.
#[derive(Clone, Debug, Serialize, Deserialize)]
pub struct LatePoint {
    /// The same point of the same sender always has the same key, so a repeat is recognised.
    pub key: String,
    /// When it was refused, in seconds since 1970.
    pub at: u64,
    pub sender: String,
    pub reason: Reason,
    /// The key of its series, as in a snapshot (docs/FORMATS.md).
    pub series: Box<RawValue>,
    /// The point's interval, in nanoseconds since 1970.
    pub start_ns: u64,
    pub end_ns: u64,
    /// Whether its value is the total since its start, rather than what it adds.
    #[serde(default, skip_serializing_if = "std::ops::Not::not")]
    pub cumulative: bool,
    pub value: LateValue,
    /// The end of its series when it was refused as out of order.
    #[serde(default, skip_serializing_if = "Option::is_none")]
    pub series_end_ns: Option<u64>,
    /// The owner of its series, if that is another sender and the series was flushed.
    #[serde(default, skip_serializing_if = "Option::is_none")]
    pub series_sender: Option<String>,
}

#[derive(Clone, Debug, PartialEq, Eq, Serialize, Deserialize)]
#[serde(untagged)]
pub enum LateValue {
    Sum(i64),
    Histogram { count: u64, sum: Option<u64>, buckets: Vec<u64> },
}

impl Refusals {
    pub fn new(
        sender: &str,
        names: &Arc<Names>,
        points: Points,
        why: Vec<(PointRefusal, bool)>,
        outbox: &Arc<Outbox>,
    ) -> Refusals {
        let (names, outbox) = (names.clone(), Arc::downgrade(outbox));
        Refusals { sender: sender.to_string(), names, points, why, outbox }
    }

    pub fn count(&self) -> u64 {
        self.points.count() as u64
    }

    pub(super) fn words(&self) -> usize {
        self.points.words().len()
    }

    /// A line for each point, in their order.
    pub(super) fn lines(&self) -> impl Iterator<Item = Vec<u8>> + '_ {
        let (at, mut last) = (seconds(), None);
        self.points.each().zip(&self.why).filter_map(move |(point, why)| {
            // Consecutive points mostly belong to one series.
            let series = match last.take() {
                Some((number, series)) if number == point[0] => series,
                _ => only(&self.names.text(point[0]))?,
            };
            let line = self.late(&series, point, *why, at).and_then(|late| late.line());
            last = Some((point[0], series));
            line
        })
    }

    fn late(
        &self,
        series: &SeriesKey,
        point: &[u64],
        why: (PointRefusal, bool),
        at: u64,
    ) -> Option<LatePoint> {
        let (refusal, cumulative) = why;
        let (reason, series_end_ns, series_sender) = match refusal {
            PointRefusal::OutOfOrder { frontier, .. } => (Reason::OutOfOrder, Some(frontier), None),
            PointRefusal::OtherWriter => {
                let outbox = self.outbox.upgrade();
                (Reason::OtherWriter, None, outbox.and_then(|outbox| outbox.owner(&series.digest())))
            }
        };
        Some(LatePoint {
            key: key(&self.sender, series, &point[1..], cumulative),
            at,
            sender: self.sender.clone(),
            reason,
            series: RawValue::from_string(series.0.to_string()).ok()?,
            start_ns: point[1],
            end_ns: point[2],
            cumulative,
            value: LateValue::of(&point[3..])?,
            series_end_ns,
            series_sender,
        })
    }
}

impl LateValue {
    /// The value in the words after a point's interval: a sum's value; or a histogram's count, whether it has a sum,
    /// the sum, and the buckets.
    fn of(words: &[u64]) -> Option<LateValue> {
        match words {
            [value] => Some(LateValue::Sum(value.cast_signed())),
            [count, has_sum, sum, buckets @ ..] => {
                let sum = (*has_sum != 0).then_some(*sum);
                Some(LateValue::Histogram { count: *count, sum, buckets: buckets.to_vec() })
            }
            _ => None,
        }
    }
}

impl LatePoint {
    fn line(&self) -> Option<Vec<u8>> {
        let mut line = serde_json::to_vec(self).ok()?;
        line.push(b'\n');
        Some(line)
    }

    /// The key of its series.
    pub fn series(&self) -> SeriesKey {
        SeriesKey(self.series.get().into())
    }
}

pub(super) fn key(sender: &str, series: &SeriesKey, words: &[u64], cumulative: bool) -> String {
    let mut digest = Sha256::new();
    for text in [sender, &*series.0] {
        digest.update((text.len() as u64).to_le_bytes());
        digest.update(text);
    }
    digest.update([u8::from(cumulative)]);
    words.iter().for_each(|word| digest.update(word.to_le_bytes()));
    let digest = digest.finalize();
    digest.iter().take(KEY).map(|byte| format!("{byte:02x}")).collect()
}
