//! `totxegun export`: prints what a sink has of a month or a day, for bills.
//!
//! The rows come from the sink, as of one moment. The service is asked only for the sink's address and for late data,
//! which is in no row.

use super::ask::Address as AdminAddress;
use super::time_zone::{self, TimeZone};
use super::{client, series, values};
use crate::admin::{begun, LateSum};
use crate::sink::periods::{Closed, Period};
use crate::sink::sql::export::{Line, What};
use crate::sink::sql::reading;
use crate::sink::sql::BegunBefore;
use crate::sink::Address;
use anyhow::{bail, Context, Result};
use clap::Args;
use hyper::Method;
use sha2::{Digest, Sha256};
use std::borrow::Cow;
use std::io::{BufWriter, Write};

const COLUMNS: &str =
    "series,name,kind,is_monotonic,unit,attributes,resource,scope_name,scope_version,scope_attributes,points,total,\
    adjustments,total_adjusted,count,bounds,buckets,sender";

#[derive(Args)]
pub struct Options {
    /// A month: 2026-11
    #[arg(long, value_name = "MONTH", required_unless_present = "day", value_parser = period(Period::is_month, "month: write 2026-11"))]
    month: Option<Period>,
    /// A day: 2026-11-05
    #[arg(long, value_name = "DAY", conflicts_with = "month", value_parser = period(Period::is_day, "day: write 2026-11-05"))]
    day: Option<Period>,
    #[command(flatten)]
    zone: TimeZone,
    /// Prints a head and a row for each series, with commas between cells
    #[arg(long, required_unless_present = "json")]
    csv: bool,
    /// Prints a line with a JSON object for each series
    #[arg(long, conflicts_with = "csv")]
    json: bool,
    /// The sink; without it, the running service is asked where it is
    #[arg(long, env = "TOTXEGUN_SINK", value_name = "ADDRESS", hide_env_values = true)]
    sink: Option<Address>,
    #[command(flatten)]
    at: AdminAddress,
}

fn period(is_so: fn(&Period) -> bool, what: &'static str) -> impl Fn(&str) -> Result<Period, String> + Clone {
    move |text| match text.parse()? {
        period if is_so(&period) => Ok(period),
        other => Err(format!("{other} is no {what}")),
    }
}

impl Options {
    /// Prints the rows. Their number and SHA-256 go to standard error.
    pub fn run(self) -> Result<()> {
        let Some(period) = self.month.as_ref().or(self.day.as_ref()) else {
            bail!("give --month or --day");
        };
        let period = &self.zone.of(period)?;
        let mut out = Out {
            to: BufWriter::new(std::io::stdout().lock()),
            head: self.csv.then(|| format!("{COLUMNS}\n")),
            digest: Sha256::new(),
            rows: 0,
        };
        let mut each = |line: Line| match self.csv {
            true => out.row(csv(&line).as_bytes()),
            false => out.row(&series::object(&line)?),
        };
        let sink = sink(self.sink.as_ref(), &self.at)?;
        let closed = reading::read(&sink, &What::Of(period.clone()), &mut each)?;
        out.end(period, &closed)?;
        tell_of_begun(period, reading::begun_before(&sink, period)?);
        tell_of_late(period, &self.at);
        Ok(())
    }
}

/// On standard error, what counts in the period, and began before it.
fn tell_of_begun(period: &Period, all: Vec<BegunBefore>) {
    for one in &all {
        crate::complain(format_args!("{period}: counted in it, though it began before: {}", begun(one)));
    }
}

/// On standard error, what of the period was refused and is in no row: the service knows it.
fn tell_of_late(period: &Period, at: &AdminAddress) {
    let path = time_zone::path("late", period, None);
    match client::read::<Vec<LateSum>>(at, Method::GET, &path) {
        Ok(sums) if sums.is_empty() => {
            crate::complain(format_args!("{period}: nothing of it was refused as late or another sender's"));
        }
        Ok(sums) => {
            for sum in sums {
                crate::complain(format_args!("{period}: refused, and not counted in it: {sum}"));
            }
        }
        Err(why) => crate::complain(format_args!("{period}: what was refused of it is not known: {why:#}")),
    }
}

/// The sink to read: the one that was given, or the service's.
pub(super) fn sink(given: Option<&Address>, at: &AdminAddress) -> Result<Address> {
    if let Some(sink) = given {
        return Ok(sink.clone());
    }
    let status = client::status(at).context(
        "give the sink by --sink sqlite:PATH or --sink postgres://USER@HOST:PORT/DB: without it the running service is \
         asked where it is",
    )?;
    if let Some(path) = status.sink.strip_prefix("sqlite ") {
        return Ok(Address::Sqlite(path.into()));
    }
    match status.sink.strip_prefix("postgres ") {
        Some(place) => bail!(
            "the service delivers to PostgreSQL, {place}: give --sink postgres://USER@HOST:PORT/DB and PGPASSWORD, \
             of any role that may read it"
        ),
        None => bail!("the service delivers to {}, which can't be read here: ask it", status.sink),
    }
}

/// Standard output, with a count and a digest of what is printed.
struct Out<To: Write> {
    to: BufWriter<To>,
    /// The head, until the first row or the end: what fails before prints nothing.
    head: Option<String>,
    digest: Sha256,
    rows: u64,
}

impl<To: Write> Out<To> {
    fn row(&mut self, row: &[u8]) -> Result<()> {
        self.put_head()?;
        self.rows += 1;
        self.put(row)
    }

    fn put_head(&mut self) -> Result<()> {
        let head = self.head.take();
        head.map_or(Ok(()), |head| self.put(head.as_bytes()))
    }

    fn put(&mut self, bytes: &[u8]) -> Result<()> {
        self.digest.update(bytes);
        self.to.write_all(bytes).context(UNWRITTEN)
    }

    fn end(mut self, period: &Period, closed: &Closed) -> Result<()> {
        self.put_head()?;
        self.to.flush().context(UNWRITTEN)?;
        let digest = self.digest.finalize();
        let digest: String = digest.iter().map(|byte| format!("{byte:02x}")).collect();
        let state = match closed.of(period) {
            Some(row) => row,
            None => "not closed: a later export may differ".into(),
        };
        let rows = values::counted(self.rows, "row");
        crate::complain(format_args!("{period}: {rows}, sha256 {digest}, {state}"));
        Ok(())
    }
}

const UNWRITTEN: &str = "standard output can't be written: what is there is not whole";

fn csv(line: &Line) -> String {
    let [bounds, buckets] =
        [&line.bounds, &line.buckets].map(|list| list.as_ref().map_or("", |list| list.get()));
    let cells: [Cow<str>; 18] = [
        line.series.to_string().into(),
        cell(&line.name),
        line.kind.name().into(),
        line.kind.is_monotonic().to_string().into(),
        cell(&line.unit),
        cell(line.attributes.get()),
        cell(line.resource.get()),
        cell(&line.scope_name),
        cell(&line.scope_version),
        cell(line.scope_attributes.get()),
        line.points.to_string().into(),
        line.total.as_str().into(),
        line.adjustments.as_str().into(),
        line.total_adjusted.as_str().into(),
        line.count.as_deref().unwrap_or_default().into(),
        cell(bounds),
        cell(buckets),
        cell(line.sender.as_deref().unwrap_or_default()),
    ];
    cells.join(",") + "\n"
}

/// A sender's text as a cell. By RFC 4180, a text with a comma, a quote or a line break is quoted.
fn cell(text: &str) -> Cow<'_, str> {
    let text = match is_formula(text) {
        true => format!("'{text}").into(),
        false => Cow::from(text),
    };
    match text.contains([',', '"', '\n', '\r']) {
        true => format!("\"{}\"", text.replace('"', "\"\"")).into(),
        false => text,
    }
}

/// Whether a spreadsheet would take the text for a formula, by OWASP's list. Such a text gets a single quote in front
/// of it; a number does not.
fn is_formula(text: &str) -> bool {
    text.starts_with(['=', '+', '-', '@', '\t', '\r', '\n', '\u{ff1d}', '\u{ff0b}', '\u{ff0d}', '\u{ff20}'])
        && text.parse::<f64>().is_err()
}

#[cfg(test)]
mod tests {
    use super::*;

    #[test]
    fn cells_are_quoted_where_they_have_to_be_and_are_no_formulas() {
        for (text, written) in [
            ("shop.revenue", "shop.revenue"),
            ("a,b", "\"a,b\""),
            ("{\"shop\":\"s1\"}", "\"{\"\"shop\"\":\"\"s1\"\"}\""),
            ("two\nlines", "\"two\nlines\""),
            ("", ""),
            ("=1+1", "'=1+1"),
            ("=cmd|' /C calc'!A0,\"x\"", "\"'=cmd|' /C calc'!A0,\"\"x\"\"\""),
            ("+a", "'+a"),
            ("@SUM(A1)", "'@SUM(A1)"),
            ("\tx", "'\tx"),
            ("\rx", "\"'\rx\""),
            ("-2+3", "'-2+3"),
            ("\u{ff1d}1", "'\u{ff1d}1"),
            ("-5", "-5"),
            ("-2.5e3", "-2.5e3"),
            ("+5", "+5"),
            ("a=b", "a=b"),
        ] {
            assert_eq!(cell(text), written);
        }
        assert_eq!(COLUMNS.split(',').count(), 18);
    }
}
