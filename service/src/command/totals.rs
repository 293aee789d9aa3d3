//! `totxegun totals`: prints what a SQLite or PostgreSQL sink has, a line for each series.

use super::table::Table;
use super::{ask, export, line, series};
use crate::sink::sql::export::{Line, What};
use crate::sink::sql::reading::read;
use crate::sink::Address;
use anyhow::Result;
use clap::Args;

/// `series` is the number that commands take in place of the name; `total adjusted` is the total with all adjustments.
const COLUMNS: [&str; 12] = [
    "series",
    "name",
    "attributes",
    "kind",
    "unit",
    "points",
    "total",
    "total adjusted",
    "count",
    "first start",
    "last end",
    "resource",
];

#[derive(Args)]
pub struct Options {
    /// The sink, sqlite:PATH or postgres://USER@HOST:PORT/DB; without it, the running service is asked where it is
    #[arg(long, env = "TOTXEGUN_SINK", value_name = "ADDRESS", hide_env_values = true)]
    sink: Option<Address>,
    #[command(flatten)]
    at: ask::Address,
    /// Prints a line with a JSON object for each series
    #[arg(long)]
    json: bool,
}

/// May run while a service writes: it changes nothing, and nobody waits for it.
pub fn run(options: &Options) -> Result<Vec<u8>> {
    let sink = export::sink(options.sink.as_ref(), &options.at)?;
    let mut rows = Vec::new();
    read(&sink, &What::Totals, &mut |line| {
        rows.push(line);
        Ok(())
    })?;
    if options.json {
        let objects: Result<Vec<_>> = rows.iter().map(series::object).collect();
        return Ok(objects?.concat());
    }
    if rows.is_empty() {
        return Ok(line("no point has come to the sink yet: `totxegun flush` sends what was taken"));
    }
    let mut table = Table::new(&COLUMNS);
    for row in &rows {
        table.row(&shown(row));
    }
    Ok(table.to_string().into())
}

fn shown(line: &Line) -> [String; COLUMNS.len()] {
    let (number, points) = (line.series.to_string(), line.points.to_string());
    let (first_start, last_end) =
        line.times.as_ref().map_or(("", ""), |times| (&times.first_start, &times.last_end));
    let all = [
        &*number,
        &*line.name,
        line.attributes.get(),
        line.kind.shown(),
        &line.unit,
        &points,
        &line.total,
        &line.total_adjusted,
        line.count.as_deref().unwrap_or_default(),
        first_start,
        last_end,
        line.resource.get(),
    ];
    all.map(|text| if text.is_empty() { "-".into() } else { text.into() })
}

#[cfg(test)]
mod tests {
    use super::*;
    use crate::sink::sql::totals::Kind;
    use serde_json::value::RawValue;

    /// Else whoever looks here bills what was counted twice, and has no number for `totxegun adjust`.
    #[test]
    fn the_adjusted_total_is_shown_beside_what_was_counted() {
        let raw = |text: &str| RawValue::from_string(text.into()).unwrap();
        let line = Line {
            series: 7,
            name: "shop.revenue".into(),
            kind: Kind::Monotonic,
            unit: "ct".into(),
            attributes: raw(r#"{"shop":"s2"}"#),
            resource: raw("{}"),
            scope_name: String::new(),
            scope_version: String::new(),
            scope_attributes: raw("{}"),
            sender: None,
            points: 3,
            total: "700".into(),
            adjustments: "-250".into(),
            total_adjusted: "450".into(),
            count: None,
            bounds: None,
            buckets: None,
            times: None,
        };
        let wanted = [
            "7",
            "shop.revenue",
            r#"{"shop":"s2"}"#,
            "monotonic sum",
            "ct",
            "3",
            "700",
            "450",
            "-",
            "-",
            "-",
            "{}",
        ];
        assert_eq!(shown(&line), wanted);
    }
}
