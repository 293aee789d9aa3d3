//! The row of a series' total.

use super::cached;
use super::wide_integers::{list, numbers, of_parts, parts_of, Unsigned};
use crate::otlp::series::ForwardedPoint;
use crate::sink::sql::{Ends, Sums};
use rusqlite::{params, Row, Transaction};

#[derive(Debug)]
pub(super) struct Total {
    first_start: u64,
    ends: Ends,
    sums: Sums,
}

impl Total {
    pub(super) fn read(transaction: &Transaction, series: i64) -> rusqlite::Result<Option<Total>> {
        let query =
            "select points, first_start_ns, last_end_ns, total_high, total_low, count_high, count_low, without_sum,
                 buckets, life, floor_ns from series_totals where series = ?1";
        cached::find(transaction, query, [series], Total::of_row)
    }

    fn of_row(row: &Row) -> rusqlite::Result<Total> {
        let time = |column| row.get(column).map(|time: Unsigned| time.0);
        Ok(Total {
            first_start: time(1)?,
            ends: Ends { life: row.get(9)?, floor: time(10)?, last: time(2)? },
            sums: Sums {
                points: row.get(0)?,
                total: of_parts(row.get(3)?, row.get(4)?),
                count: of_parts(row.get(5)?, row.get(6)?),
                without_sum: row.get(7)?,
                buckets: numbers(row, 8)?,
            },
        })
    }

    pub(super) fn ends(&self) -> Ends {
        self.ends
    }

    pub(super) fn buckets(&self) -> Option<usize> {
        self.sums.buckets.as_ref().map(Vec::len)
    }

    /// The total after points were added. They are in the order of time, and these are their sums.
    pub(super) fn with(before: Option<&Total>, ends: Ends, points: &[ForwardedPoint], sums: &Sums) -> Total {
        let start = points.first().map_or(0, |point| point.start);
        let Some(before) = before else {
            return Total { first_start: start, ends, sums: sums.clone() };
        };
        let mut all = before.sums.clone();
        all.merge(sums);
        Total { first_start: before.first_start.min(start), ends, sums: all }
    }

    pub(super) fn rewound(self, life: i64, to: u64) -> Total {
        let last = self.ends.last.min(to);
        Total { ends: Ends { life, floor: last, last }, ..self }
    }

    /// Whether two integers can't hold it.
    pub(super) fn is_too_great(&self) -> bool {
        parts_of(&self.sums).is_none()
    }

    pub(super) fn write(&self, transaction: &Transaction, series: i64) -> rusqlite::Result<()> {
        let [total, count] = parts_of(&self.sums).unwrap_or_default();
        let buckets = self.sums.buckets.as_ref().map(|buckets| list(buckets));
        let replace =
            "insert or replace into series_totals (series, points, first_start_ns, last_end_ns, total_high, total_low,
                 count_high, count_low, without_sum, buckets, life, floor_ns)
                 values (?1, ?2, ?3, ?4, ?5, ?6, ?7, ?8, ?9, ?10, ?11, ?12)";
        let row = params![
            series,
            self.sums.points,
            Unsigned(self.first_start),
            Unsigned(self.ends.last),
            total.0,
            total.1,
            count.0,
            count.1,
            self.sums.without_sum,
            buckets,
            self.ends.life,
            Unsigned(self.ends.floor)
        ];
        cached::run(transaction, replace, row).map(drop)
    }
}
