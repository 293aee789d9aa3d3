//! How a month, a day and an hour are written and read.

use super::Zone;
use crate::log::{days, utc};
use std::fmt;
use std::ops::RangeInclusive;
use std::str::FromStr;

/// A month, a day or an hour of UTC; or a month or a day of another time zone, which has whole hours of UTC too.
#[derive(Clone, Debug, PartialEq, Eq)]
pub struct Period {
    text: String,
    zone: Option<String>,
    /// From this hour since 1970 to before that one.
    pub from: i64,
    pub to: i64,
}

/// The lengths of `2026-11-05 13:00`, `2026-11-05` and `2026-11`.
const HOUR: usize = 16;
const DAY: usize = 10;
const MONTH: usize = 7;

const WRITTEN: &str = "write a month 2026-11, a day 2026-11-05 or an hour 2026-11-05T13";

impl Period {
    pub fn is_month(&self) -> bool {
        self.text.len() == MONTH
    }

    pub fn is_day(&self) -> bool {
        self.text.len() == DAY
    }

    /// As it is written, without its zone.
    pub fn date(&self) -> &str {
        &self.text
    }

    /// None of a period of UTC.
    pub fn zone(&self) -> Option<&str> {
        self.zone.as_deref()
    }

    /// The same month or day, by the clocks of a zone.
    pub fn in_zone(&self, zone: &Zone) -> Result<Period, String> {
        if !self.is_month() && !self.is_day() {
            return Err(format!("{} is an hour, and hours are of UTC: leave the time zone out", self.text));
        }
        // Nothing is counted before 1970.
        let (from, to) = (zone.begin_of(self.from)?.max(0), zone.begin_of(self.to)?);
        match from < to {
            true => Ok(Period { zone: Some(zone.to_string()), from, to, ..self.clone() }),
            false => Err(format!("there was no {} in {zone}: its clocks left it out", self.text)),
        }
    }
}

impl FromStr for Period {
    type Err = String;

    fn from_str(text: &str) -> Result<Period, String> {
        let faulty = || format!("`{text}` is no period: {WRITTEN}");
        let (from, to) = hours_of(text).ok_or_else(faulty)?;
        let length = match to - from {
            1 => HOUR,
            24 => DAY,
            _ => MONTH,
        };
        Ok(Period { text: hour_shown(from)[..length].into(), zone: None, from, to })
    }
}

fn hours_of(text: &str) -> Option<(i64, i64)> {
    let (date, hour) = match text.split_once(['T', ' ']) {
        Some((date, hour)) => (date, Some(hour.strip_suffix(":00").unwrap_or(hour))),
        None => (text, None),
    };
    let parts: Vec<&str> = date.split('-').collect();
    let (year, month) = (number(parts.first()?, 4, 1970..=9999)?, number(parts.get(1)?, 2, 1..=12)?);
    let (first, end) = (days(year, month), days(year, month + 1));
    match (&parts[2..], hour) {
        ([], None) => Some((first * 24, end * 24)),
        ([day], hour) => {
            let day = (first + number(day, 2, 1..=end - first)? - 1) * 24;
            let hour = hour.map(|hour| number(hour, 2, 0..=23));
            hour.map_or(Some((day, day + 24)), |hour| Some((day + hour?, day + hour? + 1)))
        }
        _ => None,
    }
}

/// Reads a time of UTC, `2026-11-05T13:30:15`, in seconds since 1970. What is left out at its end is zero.
pub fn seconds_of(text: &str) -> Option<u64> {
    let text = text.strip_suffix('Z').unwrap_or(text);
    let (date, time) = text.split_once(['T', ' ']).unwrap_or((text, "00"));
    let mut parts = time.split(':');
    let (hour, _) = hours_of(&format!("{date}T{}", parts.next()?))?;
    let mut next = || parts.next().map_or(Some(0), |part| number(part, 2, 0..=59));
    let (minutes, seconds) = (next()?, next()?);
    let is_whole = parts.next().is_none();
    is_whole.then_some((hour * 3600 + minutes * 60 + seconds).unsigned_abs())
}

impl fmt::Display for Period {
    fn fmt(&self, formatter: &mut fmt::Formatter<'_>) -> fmt::Result {
        formatter.write_str(&self.text)?;
        self.zone.as_ref().map_or(Ok(()), |zone| write!(formatter, " {zone}"))
    }
}

/// An hour since 1970, as `2026-11-05 13:00`.
pub fn hour_shown(hour: i64) -> String {
    utc(hour.unsigned_abs() * 3600)[..16].into()
}

fn number(text: &str, digits: usize, range: RangeInclusive<i64>) -> Option<i64> {
    let is_number = text.len() == digits && text.bytes().all(|byte| byte.is_ascii_digit());
    let number = is_number.then(|| text.parse().ok()).flatten();
    number.filter(|number| range.contains(number))
}

#[cfg(test)]
mod tests {
    use super::*;

    #[test]
    fn periods_are_read_as_they_are_shown() {
        for (text, shown, from, hours) in [
            ("1970-01", "1970-01", 0, 31 * 24),
            ("2026-11", "2026-11", 498_192, 30 * 24),
            ("2024-02", "2024-02", 474_096, 29 * 24),
            ("2026-12-31", "2026-12-31", 499_632, 24),
            ("2026-11-05T13", "2026-11-05 13:00", 498_301, 1),
            ("2026-11-05 13:00", "2026-11-05 13:00", 498_301, 1),
        ] {
            let period: Period = text.parse().expect(text);
            assert_eq!(
                (period.to_string().as_str(), period.from, period.to - period.from),
                (shown, from, hours)
            );
            assert_eq!(shown.parse(), Ok(period));
        }
    }

    fn in_zone(text: &str, zone: &str) -> Result<Period, String> {
        let period: Period = text.parse().expect(text);
        period.in_zone(&zone.parse().expect(zone))
    }

    /// By `date -u -d 'TZ="Europe/Berlin" 2026-11-01' +%FT%T`.
    #[test]
    fn months_and_days_of_a_zone_have_whole_hours_of_utc() {
        for (text, zone, from, hours) in [
            ("2026-11", "UTC", "2026-11-01 00:00", 720),
            ("2026-11", "Europe/Berlin", "2026-10-31 23:00", 720),
            ("2026-10", "Europe/Berlin", "2026-09-30 22:00", 745),
            ("2026-03", "Europe/Berlin", "2026-02-28 23:00", 743),
            ("2026-10-25", "Europe/Berlin", "2026-10-24 22:00", 25),
            ("2026-03-29", "Europe/Berlin", "2026-03-28 23:00", 23),
            ("2026-11", "America/New_York", "2026-11-01 04:00", 721),
            ("2026-12-31", "Pacific/Auckland", "2026-12-30 11:00", 24),
            // Clocks went from midnight to 1, and from midnight back to 23: the day begins once.
            ("2018-11-04", "America/Sao_Paulo", "2018-11-04 03:00", 23),
            ("2018-02-18", "America/Sao_Paulo", "2018-02-18 03:00", 24),
            ("2018-02-17", "America/Sao_Paulo", "2018-02-17 02:00", 25),
        ] {
            let period = in_zone(text, zone).unwrap();
            let shown = (hour_shown(period.from), period.to - period.from);
            assert_eq!(shown, (from.to_string(), hours), "{text} {zone}");
            assert_eq!(period.to_string(), format!("{text} {zone}"));
            assert_eq!((period.is_month(), period.is_day()), (text.len() == 7, text.len() == 10));
        }
        // The months of a year are all of its hours.
        for zone in ["Europe/Berlin", "America/Sao_Paulo", "Pacific/Apia"] {
            let months = (1..=12).map(|month| in_zone(&format!("2011-{month:02}"), zone).unwrap());
            let mut last = None;
            for month in months {
                assert!(last.is_none_or(|last| last == month.from), "{month}");
                last = Some(month.to);
            }
        }
    }

    #[test]
    fn what_has_no_whole_hours_of_a_zone_is_refused() {
        for (text, zone, part) in [
            ("2026-11", "Asia/Kolkata", "Asia/Kolkata has clocks at UTC+05:30 then"),
            ("2026-11", "America/St_Johns", "UTC-02:30 then"), // until clocks go back on that day
            ("2026-11-05T13", "Europe/Berlin", "is an hour, and hours are of UTC"),
            ("2011-12-30", "Pacific/Apia", "there was no 2011-12-30 in Pacific/Apia"),
        ] {
            let why = in_zone(text, zone).unwrap_err();
            assert!(why.contains(part), "{text} {zone}: {why}");
        }
    }

    #[test]
    fn times_are_read() {
        let hour = 498_301 * 3600;
        for (text, seconds) in [
            ("2026-11-05T13:30:15", hour + 1815),
            ("2026-11-05 13:30:15Z", hour + 1815),
            ("2026-11-05T13:59", hour + 3540),
            ("2026-11-05T13", hour),
            ("2026-11-05", hour - 13 * 3600),
        ] {
            assert_eq!(seconds_of(text), Some(seconds), "{text}");
        }
        for text in [
            "",
            "2026-11",
            "2026-11-05T",
            "2026-11-05T13:60",
            "2026-11-05T13:30:15.5",
            "2026-11-05T13:30:15:00",
            "now",
        ] {
            assert_eq!(seconds_of(text), None, "{text}");
        }
    }

    #[test]
    fn what_is_no_period_is_refused() {
        for text in [
            "",
            "2026",
            "2026-13",
            "2026-00",
            "2026-1",
            "2026-02-29",
            "2026-11-31",
            "2026-11-00",
            "2026-11T05",
            "2026-11-05T24",
            "2026-11-05T5",
            "2026-11-05T13:30",
            "1969-12",
            "2026-11-05-06",
            "+026-11",
            "2026-11-05 ",
        ] {
            let error = text.parse::<Period>().expect_err(text);
            assert!(error.contains("2026-11-05T13"), "{error}");
        }
    }
}
