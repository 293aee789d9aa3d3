//! `totxegun rewind` and `forget`: change what the service knows of series.

use crate::admin::Named;
use crate::sink::periods::seconds_of;
use clap::Args;

#[derive(Args)]
pub struct OfSeries {
    /// The series as `totals` or `explain` shows it: NAME, NAME{key=value,..} or NAME{"key":"value",..}, by attributes of its points or its resource
    #[arg(value_name = "SERIES", value_parser = series)]
    series: String,
    /// Means all series of this name if there are several
    #[arg(long)]
    all: bool,
    /// Goes on even if the sink can't tell what it has, so that repeated points count twice
    #[arg(long)]
    force: bool,
}

pub fn time(text: &str) -> Result<String, String> {
    match seconds_of(text) {
        Some(_) => Ok(text.replace(' ', "T")),
        None => Err("write a time of UTC, as 2026-11-05T13:30:15".into()),
    }
}

pub fn series(text: &str) -> Result<String, String> {
    text.parse::<Named>().map(|_| text.to_string())
}

impl OfSeries {
    pub fn path(&self, of: &str) -> String {
        let series = percent_encoding::utf8_percent_encode(&self.series, percent_encoding::NON_ALPHANUMERIC);
        let all = if self.all { "&all" } else { "" };
        let force = if self.force { "&force" } else { "" };
        format!("{of}?series={series}{all}{force}")
    }
}
