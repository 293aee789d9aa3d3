//! The rows of intervals, and of the sums that they add to.

use super::series::Known;
use super::values::{row, NewRow, Numeric};
use crate::otlp::series::{ForwardedPoint, Value};
use crate::sink::sql::{by_metric, sums_of, Adding, InHour, Sums};

/// A row of `interval_rows`. Times from 2^63 on, in the year 2262, are stored less 2^64.
pub(super) fn interval_row(series: i64, point: &ForwardedPoint) -> NewRow<'_> {
    row(move |write| {
        let (value, count, sum, counts) = match &point.value {
            Value::Sum(value) => (Some(*value), None, None, None),
            Value::Histogram { count, sum, buckets } => {
                (None, beside(*count, buckets), *sum, Some(packed(buckets)))
            }
        };
        let (start, end) = (point.start as i64, point.end as i64);
        write(&[&series, &start, &end, &value, &count.map(Numeric::from), &sum.map(Numeric::from), &counts])
    })
}

/// The count, if it is not the sum of the buckets.
fn beside(count: u64, buckets: &[u64]) -> Option<u64> {
    let all: u128 = buckets.iter().map(|bucket| u128::from(*bucket)).sum();
    (all != u128::from(count)).then_some(count)
}

/// The form that `totxegun.bucket_counts` reads: seven bits in a byte, the lowest first; a byte from 128 on is not the
/// last of its number. So a small count takes one byte.
fn packed(buckets: &[u64]) -> Vec<u8> {
    let mut bytes = Vec::with_capacity(buckets.len());
    for bucket in buckets {
        let mut rest = *bucket;
        while rest > 127 {
            bytes.push(rest as u8 | 128);
            rest >>= 7;
        }
        bytes.push(rest as u8);
    }
    bytes
}

/// The last hour of the series with these points.
pub(super) fn last_hour(adding: &Adding<'_, Known>) -> i32 {
    let last = adding.hours.last().map(|last| last.hour as i32);
    last.max(adding.stored.row.last_hour).unwrap_or(0)
}

/// The points that count before the last hour of the series.
fn earlier<'a>(adding: &'a Adding<'_, Known>) -> &'a [InHour<'a>] {
    let last = i64::from(last_hour(adding));
    &adding.hours[..adding.hours.partition_point(|hour| hour.hour < last)]
}

/// A row of `series_total` with what is to be added to that row.
pub(super) fn total_row<'a>(adding: &'a Adding<'a, Known>) -> NewRow<'a> {
    row(move |write| {
        let (points, all, before) = (&adding.of.points, adding.sums(), sums_of(earlier(adding)));
        write(&[
            &adding.stored.row.id,
            &all.points,
            &points.first().map(|point| Numeric::from(point.start)),
            &Numeric::from(adding.ends.last),
            &Numeric(all.total),
            &Numeric(all.count),
            &all.without_sum,
            &numerics(all.buckets),
            &last_hour(adding),
            &before.points,
            &Numeric(before.total),
            &Numeric(before.count),
            &before.without_sum,
            &numerics(before.buckets),
            &None::<Numeric>,
            &adding.ends.life,
            &Numeric::from(adding.ends.floor),
        ])
    })
}

/// Rows of `past_hours`, for points that count before the last hour.
pub(super) fn hour_rows<'a>(adding: &'a Adding<'a, Known>) -> impl Iterator<Item = NewRow<'a>> {
    let hours = earlier(adding).chunk_by(|one, next| one.hour == next.hour);
    hours.map(move |hours| {
        row(move |write| {
            let (hour, all) = (hours.first().map(|hour| hour.hour as i32), sums_of(hours));
            write(&[
                &adding.stored.row.id,
                &all.points,
                &all.without_sum,
                &hour,
                &Numeric(all.total),
                &Numeric(all.count),
                &numerics(all.buckets),
                &Numeric(0),
            ])
        })
    })
}

/// Rows of `late_hours`, for points that belong to closed hours.
pub(super) fn late_rows<'a>(adding: &'a Adding<'a, Known>) -> impl Iterator<Item = NewRow<'a>> {
    adding.late().map(move |late| {
        row(move |write| {
            let all = late.sums();
            write(&[
                &adding.stored.row.id,
                &all.points,
                &all.without_sum,
                &(late.of as i32),
                &(late.hour as i32),
                &Numeric(all.total),
                &Numeric(all.count),
                &numerics(all.buckets),
            ])
        })
    })
}

/// Rows of `long_intervals`.
pub(super) fn long_rows<'a>(adding: &'a Adding<'a, Known>) -> impl Iterator<Item = NewRow<'a>> {
    adding.long().map(move |(hour, point)| {
        row(move |write| {
            let value = match &point.value {
                Value::Sum(value) => Some(i128::from(*value)),
                Value::Histogram { sum, .. } => sum.map(i128::from),
            };
            let (start, end) = (Numeric::from(point.start), Numeric::from(point.end));
            write(&[&adding.stored.row.id, &(hour as i32), &start, &end, &value.map(Numeric)])
        })
    })
}

/// Rows of `metric_hour`.
pub(super) fn metric_rows<'a>(all: &'a [Adding<'a, Known>]) -> Vec<NewRow<'a>> {
    let of_row = |((metric, hour), sums): ((&'a [u8], i64), Sums)| {
        row(move |write| {
            let (total, count) = (Numeric(sums.total), Numeric(sums.count));
            write(&[&metric, &(hour as i32), &sums.points, &total, &count, &None::<Numeric>])
        })
    };
    by_metric(all, |known: &'a Known| &known.metric[..]).into_iter().map(of_row).collect()
}

fn numerics(numbers: Option<Vec<i128>>) -> Option<Vec<Numeric>> {
    numbers.map(|numbers| numbers.into_iter().map(Numeric).collect())
}
