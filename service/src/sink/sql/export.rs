//! What a database has in all, or of a month or a day: a line for each series, in one order, so that the same rows give
//! the same bytes.

use super::totals::Kind;
use crate::sink::periods::Period;
use anyhow::Result;
use serde::Serialize;
use serde_json::value::RawValue;

/// A row of the view `by_month` or `by_day`, or of `totals`. What may be past 64 bits is a decimal text.
#[derive(Debug)]
pub struct Line {
    pub series: i64,
    pub name: String,
    pub kind: Kind,
    pub unit: String,
    pub attributes: Box<RawValue>,
    pub resource: Box<RawValue>,
    pub scope_name: String,
    pub scope_version: String,
    pub scope_attributes: Box<RawValue>,
    /// Whose series it is, if the service knows.
    pub sender: Option<String>,
    pub points: i64,
    pub total: String,
    pub adjustments: String,
    pub total_adjusted: String,
    /// Only for histograms, as the next two.
    pub count: Option<String>,
    pub bounds: Option<Box<RawValue>>,
    pub buckets: Option<Box<RawValue>>,
    /// Only of `totals`.
    pub times: Option<Times>,
}

/// When the first of its points began and the last one ended: `2026-11-05T13:30:15Z`.
#[derive(Debug, PartialEq, Eq, Serialize)]
pub struct Times {
    pub first_start: String,
    pub last_end: String,
}

/// What to read.
#[derive(Clone, Debug)]
pub enum What {
    Totals,
    Of(Period),
}

/// Gets each line, in order.
pub type Each<'a> = &'a mut dyn FnMut(Line) -> Result<()>;
