//! Formats times in UTC, and converts dates; for the log and for everything else that shows a time.

use std::time::{Duration, SystemTime};

const DAY: u64 = 86_400;

/// The time since 1970; zero if the clock is set before that.
pub fn since_1970() -> Duration {
    SystemTime::now().duration_since(SystemTime::UNIX_EPOCH).unwrap_or_default()
}

/// The same in seconds.
pub fn seconds() -> u64 {
    since_1970().as_secs()
}

/// The current time by RFC 3339, in UTC with microseconds.
pub fn now() -> String {
    written(since_1970())
}

/// So many seconds after 1970, in UTC: `2026-11-25 14:26:23`.
pub fn utc(seconds: u64) -> String {
    written(Duration::from_secs(seconds))[..19].replace('T', " ")
}

/// So many nanoseconds after 1970 by RFC 3339, truncated to microseconds.
pub fn of_nanoseconds(nanoseconds: u64) -> String {
    written(Duration::from_nanos(nanoseconds))
}

fn written(since_1970: Duration) -> String {
    let (seconds, micros) = (since_1970.as_secs(), since_1970.subsec_micros());
    let (year, month, day) = date(seconds / DAY);
    let (hour, minute, second) = (seconds / 3600 % 24, seconds / 60 % 60, seconds % 60);
    format!("{year:04}-{month:02}-{day:02}T{hour:02}:{minute:02}:{second:02}.{micros:06}Z")
}

/// The date so many days after 1970-01-01. Years are counted from March, so that a leap day is the last day of its
/// year; each 400 years have 146,097 days.
pub fn date(days: u64) -> (u64, u64, u64) {
    let since_0 = days + 719_468;
    let (era, day) = (since_0 / 146_097, since_0 % 146_097);
    let year = (day - day / 1460 + day / 36_524 - day / 146_096) / 365;
    let of_year = day - (365 * year + year / 4 - year / 100);
    let from_march = (5 * of_year + 2) / 153;
    let of_month = of_year - (153 * from_march + 2) / 5 + 1;
    let (month, is_next) = match from_march {
        0..10 => (from_march + 3, 0),
        _ => (from_march - 9, 1),
    };
    (400 * era + year + is_next, month, of_month)
}

/// The days from 1970-01-01 to the first of a month; years are counted from March here too.
pub fn days(year: i64, month: i64) -> i64 {
    let (year, month) = (year + (month - 3).div_euclid(12), (month - 3).rem_euclid(12));
    let of_years = 365 * year + year.div_euclid(4) - year.div_euclid(100) + year.div_euclid(400);
    of_years + (153 * month + 2) / 5 - 719_468
}

#[cfg(test)]
mod tests {
    use super::*;

    /// As another library counts days, over 800 years.
    #[test]
    fn dates_are_those_of_the_calendar() {
        let months = "Jan Feb Mar Apr May Jun Jul Aug Sep Oct Nov Dec";
        for day in 0..800 * 366 {
            let time = Duration::from_secs(day * DAY + 86_399) + Duration::from_micros(42);
            let other = httpdate::fmt_http_date(SystemTime::UNIX_EPOCH + time);
            let parts: Vec<&str> = other.split([' ', ',']).collect();
            let month = months.split(' ').position(|month| month == parts[3]).unwrap() + 1;
            let expected = format!("{}-{month:02}-{}T23:59:59.000042Z", parts[4], parts[2]);
            assert_eq!(written(time), expected);
        }
    }
}
