//! The hours, days and months of UTC since 1970 in which intervals count.

use crate::log::date;

pub(super) const HOUR_NS: u64 = 3_600_000_000_000;

/// The hour in which an interval counts that ends at `end_ns`. If that is a full hour, it is the hour before.
pub(super) fn hour_of(end_ns: u64) -> i64 {
    (end_ns.saturating_sub(1) / HOUR_NS) as i64
}

pub(super) fn day_of(hour: i64) -> i64 {
    hour / 24
}

pub(super) fn month_of(day: i64) -> i64 {
    let (year, month, _) = date(day.unsigned_abs());
    (year * 12 + month - 1) as i64 - 1970 * 12
}

/// The first hour after the month of this hour.
pub(super) fn after_month(hour: i64) -> i64 {
    let month = month_of(day_of(hour));
    let days = (day_of(hour)..).take_while(|day| month_of(*day) == month).count();
    (day_of(hour) + days as i64) * 24
}

#[cfg(test)]
mod tests {
    use super::*;

    #[test]
    fn a_full_hour_ends_the_hour_before() {
        for (end, hour) in [(1, 0), (HOUR_NS, 0), (HOUR_NS + 1, 1), (u64::MAX, 5_124_095)] {
            assert_eq!(hour_of(end), hour, "{end}");
        }
    }

    #[test]
    fn a_month_ends_before_the_next() {
        // In January, in February of a leap year, and in December 1970.
        for (hour, next) in [(0, 744), (474_773, 474_792), (8759, 8760)] {
            assert_eq!(after_month(hour), next, "{hour}");
        }
    }

    #[test]
    fn each_day_has_the_month_that_sqlite_says() {
        let connection = rusqlite::Connection::open_in_memory().expect("memory");
        let mut query = connection
            .prepare("select strftime('%Y', ?1 * 86400, 'unixepoch') * 12 + strftime('%m', ?1 * 86400, 'unixepoch') - 1 - 1970 * 12")
            .expect("a query");
        for day in 0..=day_of(hour_of(u64::MAX)) {
            let month: i64 = query.query_row([day], |row| row.get(0)).expect("a month");
            assert_eq!(month_of(day), month, "{day}");
        }
    }
}
