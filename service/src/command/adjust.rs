//! `totxegun adjust`: adjusts by hand what a series counted in an hour, or books late data.

use super::ask::Address;
use super::{amend, ask, client};
use crate::admin::{AskedAdjustment, ADJUSTMENTS};
use crate::sink::periods::Period;
use anyhow::{Context, Result};
use clap::Args;
use hyper::Method;

#[derive(Args)]
pub struct Options {
    /// The series as `totals` shows it: NAME, NAME{key=value,..} or NAME{"key":"value",..}, by attributes of its points or its resource; or its number, the column `series` of the views
    #[arg(value_name = "SERIES", value_parser = series, required_unless_present = "late")]
    series: Option<String>,
    /// The hour to adjust, in UTC: 2026-11-05T13
    #[arg(required_unless_present = "late")]
    hour: Option<Period>,
    /// The whole number to add; for a histogram it is added to the sum
    #[arg(allow_negative_numbers = true, value_parser = value, required_unless_present = "late")]
    value: Option<i64>,
    /// Books late data instead, once, in the hour in which it ended: its key, as `totxegun late` shows it
    #[arg(long, value_name = "KEY", conflicts_with_all = ["series", "hour", "value"])]
    late: Option<String>,
    /// Why [default with --late: the sender and the times of the late data]
    #[arg(long, value_name = "TEXT", required_unless_present = "late")]
    reason: Option<String>,
    /// Says what would be done, and does nothing
    #[arg(long)]
    dry_run: bool,
    #[command(flatten)]
    at: Address,
}

fn series(text: &str) -> Result<String, String> {
    match text.parse::<i64>() {
        Ok(_) => Ok(text.to_string()),
        Err(_) => amend::series(text),
    }
}

fn value(text: &str) -> Result<i64, String> {
    let why = "write a whole number, in the unit that the sink has the series in: -25";
    text.parse().map_err(|_| why.to_string())
}

impl Options {
    pub fn run(self) -> Result<Vec<u8>> {
        let Options { series, hour, value, late, reason, dry_run, at } = self;
        let hour = hour.map(|hour| hour.to_string().replace(' ', "T"));
        let asked = AskedAdjustment { late, series, hour, value, reason, dry_run };
        let body = serde_json::to_vec(&asked).context("the adjustment can't be written")?;
        ask::told(&at, &client::ask_with(&at, Method::POST, ADJUSTMENTS, &body)?)
    }
}
