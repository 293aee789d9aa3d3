//! What requests have for each of their series, worked out without a database.

use super::fault::BadContent;
use super::{Ends, Stored, Sums};
use crate::otlp::series::{self, Digest, Digests, ForwardedPoint, SeriesKey, Value};
use crate::sink::left_out::shown;
use crate::sink::periods::Closed;
use crate::sink::{utc, Forwarded};
use sha2::{Digest as _, Sha256};
use std::collections::btree_map::Entry;
use std::collections::BTreeMap;

/// A request, as it is to be written.
#[derive(Debug)]
pub(in crate::sink) struct Request<'r> {
    pub(in crate::sink) of: &'r Forwarded,
    pub(super) sent: Sent,
    /// SHA-256 of its body: a repeat has the same.
    pub(in crate::sink) digest: Vec<u8>,
    /// In the order of their digests, so that all writers make and lock rows in one order.
    pub(super) series: Vec<OfSeries>,
}

/// How a request is sent.
#[derive(Clone, Copy, Debug, PartialEq, Eq)]
pub(in crate::sink) enum Sent {
    InOrder,
    /// As a dead letter.
    ByHand,
}

/// A series of a request with its points, by time.
#[derive(Debug)]
pub(in crate::sink) struct OfSeries {
    pub(in crate::sink) key: SeriesKey,
    pub(in crate::sink) digest: Digest,
    pub(in crate::sink) points: Vec<ForwardedPoint>,
}

/// Points of a series that end in one hour (`of`), and the hour in which they count, which is later if theirs is
/// closed.
#[derive(Debug)]
pub(in crate::sink) struct InHour<'a> {
    pub(in crate::sink) of: i64,
    pub(in crate::sink) hour: i64,
    pub(in crate::sink) points: &'a [ForwardedPoint],
}

/// What a request adds to a series.
#[derive(Debug)]
pub(in crate::sink) struct Adding<'a, Row> {
    pub(in crate::sink) of: &'a OfSeries,
    pub(in crate::sink) stored: &'a Stored<Row>,
    /// The ends of the series afterwards.
    pub(in crate::sink) ends: Ends,
    /// Its points by the hours in which they count, in order.
    pub(in crate::sink) hours: Vec<InHour<'a>>,
}

impl<'r> Request<'r> {
    /// A request with the content of its body.
    pub(in crate::sink) fn with(of: &'r Forwarded, sent: Sent, content: Content) -> Request<'r> {
        Request { of, sent, digest: content.digest, series: content.series }
    }

    pub(in crate::sink) fn points(&self) -> usize {
        self.series.iter().map(|of| of.points.len()).sum()
    }
}

/// The content of a request's body.
#[derive(Debug)]
pub(in crate::sink) struct Content {
    digest: Vec<u8>,
    series: Vec<OfSeries>,
}

impl Content {
    pub(in crate::sink) fn read(body: &[u8]) -> Result<Content, BadContent> {
        let mut all: BTreeMap<SeriesKey, Vec<ForwardedPoint>> = BTreeMap::new();
        for point in series::forwarded(body)? {
            all.entry(point.series.clone()).or_default().push(point);
        }
        let mut digests = Digests::default();
        let of_series = |(key, points)| OfSeries { digest: digests.of(&key), key, points };
        let mut series: Vec<OfSeries> = all.into_iter().map(of_series).collect();
        series.sort_unstable_by_key(|of| of.digest);
        series.iter_mut().try_for_each(OfSeries::put_in_order)?;
        Ok(Content { digest: Sha256::digest(body).to_vec(), series })
    }
}

/// Puts together what several requests have for their series. The index of a point is then that among the points of
/// all.
pub(super) fn together(requests: Vec<Request>) -> Result<Vec<OfSeries>, BadContent> {
    let mut all: BTreeMap<Digest, OfSeries> = BTreeMap::new();
    let mut first = 0;
    for request in requests {
        let count = request.points();
        for mut of in request.series {
            of.points.iter_mut().for_each(|point| point.place += first);
            match all.entry(of.digest) {
                Entry::Vacant(place) => drop(place.insert(of)),
                Entry::Occupied(mut found) => found.get_mut().points.extend(of.points),
            }
        }
        first += count;
    }
    let mut all: Vec<OfSeries> = all.into_values().collect();
    all.iter_mut().try_for_each(OfSeries::put_in_order)?;
    Ok(all)
}

impl OfSeries {
    fn put_in_order(&mut self) -> Result<(), BadContent> {
        self.points.sort_unstable_by_key(|point| point.start);
        if let Some(empty) = self.points.iter().find(|point| point.start >= point.end) {
            return Err(BadContent(format!("the interval {} is empty", shown(empty))));
        }
        match self.points.windows(2).find(|two| two[1].start < two[0].end) {
            Some(two) => {
                let (start, end) = (two[0].start, two[0].end);
                Err(BadContent(format!("the interval {} overlaps ({start}, {end}]", shown(&two[1]))))
            }
            None => Ok(()),
        }
    }

    /// The end of its last point.
    pub(super) fn end(&self) -> u64 {
        self.points.last().map_or(0, |point| point.end)
    }

    /// How many buckets its first point has. None for a sum.
    pub(in crate::sink) fn buckets(&self) -> Option<usize> {
        self.points.first().and_then(|point| buckets_of(&point.value))
    }

    /// Checks that each value has this many buckets; a sum has none.
    pub(in crate::sink) fn fits(&self, buckets: Option<usize>) -> Result<(), BadContent> {
        let odd = self.points.iter().find(|point| buckets_of(&point.value) != buckets);
        match odd {
            Some(point) => Err(BadContent(format!("its value is not of the series' kind: {}", shown(point)))),
            None => Ok(()),
        }
    }

    /// The points by the hours in which they count, in order.
    pub(super) fn by_hours(&self, closed: &Closed) -> Vec<InHour<'_>> {
        let hour_of = |point: &ForwardedPoint| utc::hour_of(point.end);
        let chunks = self.points.chunk_by(|one, next| hour_of(one) == hour_of(next));
        let in_hour = |points: &'_ [ForwardedPoint]| hour_of(&points[0]);
        let mut hours: Vec<InHour> = chunks
            .map(|points| InHour { of: in_hour(points), hour: closed.counted_in(in_hour(points)), points })
            .collect();
        hours.sort_by_key(|in_hour| in_hour.hour);
        hours
    }
}

fn buckets_of(value: &Value) -> Option<usize> {
    match value {
        Value::Sum(_) => None,
        Value::Histogram { buckets, .. } => Some(buckets.len()),
    }
}

impl InHour<'_> {
    pub(in crate::sink) fn is_late(&self) -> bool {
        self.hour != self.of
    }

    pub(in crate::sink) fn sums(&self) -> Sums {
        Sums::of(self.points.iter().map(|point| &point.value))
    }
}

/// The sums of the points of some hours.
pub(in crate::sink) fn sums_of(hours: &[InHour]) -> Sums {
    let mut all = Sums::default();
    hours.iter().for_each(|hour| all.merge(&hour.sums()));
    all
}

impl<Row> Adding<'_, Row> {
    pub(in crate::sink) fn sums(&self) -> Sums {
        sums_of(&self.hours)
    }

    /// The points that belong to closed hours.
    pub(in crate::sink) fn late(&self) -> impl Iterator<Item = &InHour<'_>> {
        self.hours.iter().filter(|hour| hour.is_late())
    }
}

/// What is added to the hours of metrics, that is, of all series of one name, kind and unit. They are in the order of
/// metrics and hours, in which all writers lock them. There are no buckets, since series of a metric may differ in
/// their bounds.
pub(in crate::sink) fn by_metric<'a, Row, Metric: Ord>(
    all: &'a [Adding<'a, Row>],
    metric_of: impl Fn(&'a Row) -> Metric,
) -> BTreeMap<(Metric, i64), Sums> {
    let mut rows: BTreeMap<(Metric, i64), Sums> = BTreeMap::new();
    for adding in all {
        for hour in &adding.hours {
            let bare = Sums { buckets: None, ..hour.sums() };
            rows.entry((metric_of(&adding.stored.row), hour.hour)).or_default().merge(&bare);
        }
    }
    rows
}
