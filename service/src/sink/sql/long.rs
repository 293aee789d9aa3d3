//! Intervals of over an hour: a sender was cut off, or posts seldom. All that one counted is in the hour in which it ends, so a part
//! of it may belong to a period that was billed before.

use super::reading::Row;
use super::Adding;
use crate::otlp::series::{ForwardedPoint, SeriesKey};
use crate::sink::periods::Period;
use crate::sink::utc::HOUR_NS;
use anyhow::Result;

/// An interval that counts in a period, and began before it.
#[derive(Clone, Debug, PartialEq, Eq)]
pub struct BegunBefore {
    pub series: SeriesKey,
    /// Who posts the series, if the sink knows it.
    pub sender: Option<String>,
    /// In nanoseconds since 1970.
    pub start_ns: u64,
    pub end_ns: u64,
    /// What it counted; of a histogram its sum, if it had one.
    pub value: Option<i128>,
}

impl BegunBefore {
    /// Those of a period, the earliest first.
    pub(super) fn query(period: &Period) -> String {
        let Period { from, to, .. } = period;
        let from_ns = i128::from(*from) * i128::from(HOUR_NS);
        format!(
            "select identity, sender, start_ns, end_ns, value
            from long_intervals join series on series.id = long_intervals.series
            where hour >= {from} and hour < {to} and start_ns < {from_ns} order by start_ns, series.id, end_ns"
        )
    }

    pub(super) fn of(row: &Row) -> Result<BegunBefore> {
        Ok(BegunBefore {
            series: SeriesKey(row.text(0)?.into()),
            sender: row.some(1).map(String::from),
            start_ns: row.number(2)?,
            end_ns: row.number(3)?,
            value: row.some(4).map(|_| row.number(4)).transpose()?,
        })
    }
}

impl<Row> Adding<'_, Row> {
    /// Its points of over an hour, each with the hour in which it counts.
    pub(in crate::sink) fn long(&self) -> impl Iterator<Item = (i64, &ForwardedPoint)> {
        let points = self.hours.iter().flat_map(|of| of.points.iter().map(move |point| (of.hour, point)));
        points.filter(|(_, point)| point.end - point.start > HOUR_NS)
    }
}
