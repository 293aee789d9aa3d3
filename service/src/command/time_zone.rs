//! `--time-zone`: a month or a day by the clocks of a zone.

use crate::sink::periods::{Period, Zone};
use anyhow::{Error, Result};
use clap::Args;
use percent_encoding::{utf8_percent_encode, NON_ALPHANUMERIC};

#[derive(Args, Clone, Debug)]
pub struct TimeZone {
    /// The zone by whose clocks the month or the day begins and ends, as Europe/Berlin: one of whole hours from UTC. Without it, UTC
    #[arg(long, value_name = "ZONE")]
    time_zone: Option<Zone>,
}

impl TimeZone {
    /// The period by these clocks.
    pub fn of(&self, period: &Period) -> Result<Period> {
        self.time_zone
            .as_ref()
            .map_or_else(|| Ok(period.clone()), |zone| period.in_zone(zone))
            .map_err(Error::msg)
    }
}

/// A period as it is asked for: `/close/2026-11?time-zone=Europe%2FBerlin&flush`.
pub fn path(of: &str, period: &Period, more: Option<&str>) -> String {
    let zone = period.zone().map(|zone| format!("time-zone={}", utf8_percent_encode(zone, NON_ALPHANUMERIC)));
    let query: Vec<String> = zone.into_iter().chain(more.map(String::from)).collect();
    let mark = if query.is_empty() { "" } else { "?" };
    format!("/{of}/{}{mark}{}", period.date().replace(' ', "T"), query.join("&"))
}

#[cfg(test)]
mod tests {
    use super::*;

    #[test]
    fn a_period_is_asked_for_with_its_zone() {
        let zone = |name: &str| TimeZone { time_zone: Some(name.parse().unwrap()) };
        let none = TimeZone { time_zone: None };
        let hour = none.of(&"2026-11-05T13".parse().unwrap()).unwrap();
        assert_eq!(path("close", &hour, Some("flush")), "/close/2026-11-05T13:00?flush");
        let month: Period = "2026-11".parse().unwrap();
        assert_eq!(path("late", &month, None), "/late/2026-11");
        let in_berlin = zone("Europe/Berlin").of(&month).unwrap();
        assert_eq!(path("late", &in_berlin, None), "/late/2026-11?time-zone=Europe%2FBerlin");
        assert_eq!(
            path("close", &in_berlin, Some("force")),
            "/close/2026-11?time-zone=Europe%2FBerlin&force"
        );
        let why = zone("Asia/Kolkata").of(&month).unwrap_err().to_string();
        assert!(why.contains("UTC+05:30"), "{why}");
    }
}
