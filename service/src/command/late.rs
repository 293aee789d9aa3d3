//! `totxegun late`: lists the points that their series refused.

use super::ask::{sender, Shown};
use super::{amend, client, table::Table, values::counted};
use crate::admin::Status;
use anyhow::Result;
use clap::Args;
use percent_encoding::{utf8_percent_encode, NON_ALPHANUMERIC};
use serde_json::{Map, Value};

#[derive(Args)]
pub struct Options {
    /// Only points of series of this name: NAME, NAME{key=value,..} or NAME{"key":"value",..}
    #[arg(long, value_name = "SERIES", value_parser = amend::series)]
    series: Option<String>,
    /// Only points of this sender
    #[arg(long, value_name = "NAME", value_parser = sender)]
    sender: Option<String>,
    /// Only points refused for this reason: duplicate_or_late (the point begins before its series ends) or other_writer (the series is another sender's)
    #[arg(long, value_name = "REASON")]
    reason: Option<String>,
    /// Only points that ended after this time, in UTC: 2026-11-05T13:30:15
    #[arg(long, value_name = "TIME", value_parser = amend::time)]
    since: Option<String>,
    /// Only points that began before this time
    #[arg(long, value_name = "TIME", value_parser = amend::time)]
    until: Option<String>,
    /// At most the last N points
    #[arg(long, value_name = "N", default_value_t = 1000, value_parser = clap::value_parser!(u32).range(1..=100_000))]
    limit: u32,
    #[command(flatten)]
    shown: Shown,
}

impl Options {
    pub fn run(self) -> Result<Vec<u8>> {
        let mut path = format!("/late?limit={}", self.limit);
        let Options { series, sender, reason, since, until, .. } = &self;
        let mut asked = Vec::new();
        for (name, value) in
            [("series", series), ("sender", sender), ("reason", reason), ("since", since), ("until", until)]
        {
            if let Some(value) = value {
                asked.push(format!("--{name} {value}"));
                path += &format!("&{name}={}", utf8_percent_encode(value, NON_ALPHANUMERIC));
            }
        }
        let late = client::shown(&self.shown, &path, |late: Value| table(&late, &asked))?;
        if let Ok(status) = client::status(&self.shown.at) {
            tell_of_others(&status);
        }
        Ok(late)
    }
}

/// Each instance keeps the points that it refused itself.
fn tell_of_others(status: &Status) {
    let cluster = status.cluster.iter();
    let others = cluster.flat_map(|of| of.instances.iter().filter(|one| one.name != of.instance));
    let others: Vec<&str> = others.map(|one| one.name.as_str()).collect();
    if !others.is_empty() {
        crate::complain(format_args!(
            "these are what this instance refused: ask {} too, by --admin",
            others.join(", ")
        ));
    }
}

/// `asked` is what chooses points.
fn table(late: &Value, asked: &[String]) -> String {
    let points = late["points"].as_array().map(Vec::as_slice).unwrap_or_default();
    if points.is_empty() {
        return match asked {
            [] => "no point that a series refused is kept\n".into(),
            asked => {
                let asked = asked.join(" ");
                format!("no point that a series refused is kept for {asked}: without that all are listed\n")
            }
        };
    }
    let mut table = Table::new(&[
        "key",
        "refused",
        "sender",
        "reason",
        "series",
        "from",
        "to",
        "value",
        "the series has",
    ]);
    for point in points {
        let text = |name: &str| point[name].as_str().unwrap_or_default().to_string();
        table.row(&[
            text("key"),
            text("refused_at"),
            text("sender"),
            text("reason"),
            named(point),
            text("start"),
            text("end"),
            value(point),
            what_the_series_has(point),
        ]);
    }
    let more = late["more"].as_u64().filter(|more| *more > 0);
    let more = more.map_or_else(String::new, |more| {
        format!("and {} before these: --limit, --since and --until have them\n", counted(more, "point"))
    });
    format!("{table}{more}")
}

fn named(point: &Value) -> String {
    let parts = ["resource", "attributes"].into_iter().filter_map(|part| point[part].as_object());
    let both: Map<String, Value> = parts.flatten().map(|(key, value)| (key.clone(), value.clone())).collect();
    let name = point["name"].as_str().unwrap_or_default();
    match both.is_empty() {
        true => name.to_string(),
        false => format!("{name}{}", Value::Object(both)),
    }
}

fn value(point: &Value) -> String {
    let text = |name: &str| point[name].as_str();
    let count = text("count").unwrap_or_default();
    let value = match (text("value"), text("sum")) {
        (Some(value), _) => value.to_string(),
        (None, Some(sum)) => format!("{sum} in {count} values"),
        (None, None) => format!("{count} values"),
    };
    match point["temporality"].as_str() {
        Some("cumulative") => format!("{value} since its start"),
        _ => value,
    }
}

fn what_the_series_has(point: &Value) -> String {
    match (point["series_end"].as_str(), point["series_sender"].as_str()) {
        (Some(end), _) => format!("all until {end}"),
        (None, Some(sender)) => format!("is {sender}'s"),
        (None, None) => "is another's".into(),
    }
}

#[cfg(test)]
mod tests {
    use super::*;

    /// Else whoever has a name wrong believes that nothing was refused.
    #[test]
    fn what_was_asked_for_is_named_if_nothing_is_of_it() {
        let none = serde_json::json!({"more": 0, "points": []});
        assert_eq!(table(&none, &[]), "no point that a series refused is kept\n");
        let asked = ["--sender nobody".to_string(), "--reason other_writer".to_string()];
        let wanted = "no point that a series refused is kept for --sender nobody --reason other_writer: without that all are listed\n";
        assert_eq!(table(&none, &asked), wanted);
    }
}
