//! Options of how long a database keeps its rows.

use super::values::{time_or, MayBeNone};
use crate::sink::{Address, Retention};
use anyhow::{bail, Result};
use clap::Args;
use std::time::Duration;

/// The default for intervals, which only plots use.
const INTERVALS: MayBeNone = MayBeNone(Some(Duration::from_secs(2 * 86_400)));

#[derive(Args)]
#[command(next_help_heading = "Options of a SQLite or PostgreSQL sink")]
pub(super) struct RetentionOptions {
    /// How long the sink keeps intervals (a row for each flush and series), or `forever` [default: 2d]
    #[arg(long, env = "TOTXEGUN_KEEP_INTERVALS", value_name = "TIME", value_parser = time_or("forever"))]
    keep_intervals: Option<MayBeNone>,
    /// How long the sink keeps hours (a row for each hour and series), or `forever` [default: forever]
    #[arg(long, env = "TOTXEGUN_KEEP_HOURS", value_name = "TIME", value_parser = time_or("forever"))]
    keep_hours: Option<MayBeNone>,
}

impl RetentionOptions {
    /// An OTLP sink decides itself what it keeps, so for it these options are a mistake.
    pub fn retention(self, sink: &Address) -> Result<Retention> {
        let all = [self.keep_intervals, self.keep_hours];
        if matches!(sink, Address::Otlp { .. }) && all.iter().any(Option::is_some) {
            bail!("--keep-intervals and --keep-hours are for a sink of SQLite or PostgreSQL: leave them out");
        }
        let [intervals, hours] = all;
        Ok(Retention { intervals: intervals.unwrap_or(INTERVALS).0, hours: hours.and_then(|hours| hours.0) })
    }
}

#[cfg(test)]
mod tests {
    use super::*;
    use crate::command::Line;
    use clap::{CommandFactory, FromArgMatches};

    fn keep(sink: &str, options: &[&str]) -> Result<Retention> {
        let line = [&["totxegun", "serve", "--data", "d"], options].concat();
        let found = Line::command().try_get_matches_from(line)?;
        let (_, serve) = found.subcommand().unwrap();
        RetentionOptions::from_arg_matches(serve)?.retention(&sink.parse()?)
    }

    const DAY: u64 = 86_400;

    #[test]
    fn intervals_go_after_two_days_and_the_rest_stays() {
        let days = |days| Some(Duration::from_secs(days * DAY));
        let found = keep("sqlite:a", &[]).unwrap();
        let wanted = Retention { intervals: days(2), ..Retention::default() };
        assert_eq!(found, wanted);
        let options = ["--keep-intervals", "forever", "--keep-hours", "730d"];
        let found = keep("postgres://u@h/d", &options).unwrap();
        let wanted = Retention { intervals: None, hours: days(730) };
        assert_eq!(found, wanted);
    }

    #[test]
    fn what_is_no_time_or_for_another_sink_is_refused() {
        let said = |sink, options: &[&str]| keep(sink, options).unwrap_err().to_string();
        assert!(said("sqlite:a", &["--keep-hours", "never"]).contains("or forever"));
        let other = said("http://h:1", &["--keep-hours", "forever"]);
        assert!(other.contains("leave them out"), "{other}");
        assert_eq!(keep("http://h:1", &[]).unwrap().hours, None);
    }
}
