//! Whole numbers that SQLite's own can't hold: 64 bits without sign, and totals of 128 bits. Also lists of numbers.

use crate::sink::sql::Sums;
use rusqlite::types::{FromSql, FromSqlError, FromSqlResult, ToSql, ToSqlOutput, Type, ValueRef};
use rusqlite::Row;
use serde::Serialize;

/// A number of 64 bits without sign. From 2^63 on it is stored as a text of 20 digits. SQLite sorts texts after
/// integers, so such a column has the order of the numbers.
#[derive(Clone, Copy, Debug, PartialEq, Eq, PartialOrd, Ord)]
pub(super) struct Unsigned(pub u64);

impl ToSql for Unsigned {
    fn to_sql(&self) -> rusqlite::Result<ToSqlOutput<'_>> {
        Ok(match i64::try_from(self.0) {
            Ok(number) => number.into(),
            Err(_) => format!("{:020}", self.0).into(),
        })
    }
}

impl FromSql for Unsigned {
    fn column_result(value: ValueRef<'_>) -> FromSqlResult<Unsigned> {
        match value {
            ValueRef::Integer(number) => {
                u64::try_from(number).map(Unsigned).map_err(|_| FromSqlError::OutOfRange(number))
            }
            ValueRef::Text(_) => value.as_str()?.parse().map(Unsigned).map_err(|_| FromSqlError::InvalidType),
            _ => Err(FromSqlError::InvalidType),
        }
    }
}

const BASE: i128 = 1_000_000_000_000;

/// A total as two integers, high and low: total = high * 10^12 + low, 0 <= low < 10^12. So a query can add up both
/// parts of a million rows and more without a carry. None from about 9 * 10^30 on.
pub(super) fn parts(total: i128) -> Option<(i64, i64)> {
    let high = i64::try_from(total.div_euclid(BASE)).ok()?;
    let low = i64::try_from(total.rem_euclid(BASE)).ok()?;
    Some((high, low))
}

pub(super) fn of_parts(high: i64, low: i64) -> i128 {
    i128::from(high) * BASE + i128::from(low)
}

/// The parts of total and count. None if one of them is too great for two integers.
pub(super) fn parts_of(sums: &Sums) -> Option<[(i64, i64); 2]> {
    Some([parts(sums.total)?, parts(sums.count)?])
}

/// A list of numbers, from a JSON array. None if it is null.
pub(super) fn numbers(row: &Row, column: usize) -> rusqlite::Result<Option<Vec<i128>>> {
    let text: Option<String> = row.get(column)?;
    let odd = |error| rusqlite::Error::FromSqlConversionFailure(column, Type::Text, Box::new(error));
    text.map(|text| serde_json::from_str(&text)).transpose().map_err(odd)
}

/// Numbers as a JSON array.
pub(super) fn list(numbers: &[impl Serialize]) -> String {
    serde_json::to_string(numbers).unwrap_or_default() // serialising numbers does not fail
}

#[cfg(test)]
mod tests {
    use super::*;
    use rusqlite::Connection;

    #[test]
    fn large_numbers_keep_their_order() {
        let connection = Connection::open_in_memory().expect("memory");
        connection.execute_batch("create table t (n)").expect("a table");
        let numbers =
            [0, 1, 1 << 62, (1 << 63) - 1, 1 << 63, (1 << 63) + 1, 9_999_999_999_999_999_999, u64::MAX];
        for number in numbers.iter().rev() {
            connection.execute("insert into t values (?1)", [Unsigned(*number)]).expect("a row");
        }
        let mut query = connection.prepare("select n from t order by n").expect("a query");
        let read: Vec<Unsigned> =
            query.query_map([], |row| row.get(0)).expect("rows").collect::<Result<_, _>>().expect("numbers");
        assert_eq!(read, numbers.map(Unsigned));
        let less: i64 = connection
            .query_row("select count(*) from t where n < ?1", [Unsigned(u64::MAX)], |row| row.get(0))
            .expect("a count");
        assert_eq!(less, 7);
    }

    #[test]
    fn totals_have_two_parts() {
        for (total, both) in [
            (0, (0, 0)),
            (-1, (-1, 999_999_999_999)),
            (5, (0, 5)),
            (1_000_000_000_000, (1, 0)),
            (-1_000_000_000_000, (-1, 0)),
        ] {
            assert_eq!(parts(total), Some(both));
        }
        for total in
            [i128::from(i64::MIN), i128::from(u64::MAX) * 1_000_000, -12_345_678_901_234_567_890_123_456_789]
        {
            let (high, low) = parts(total).expect("it fits");
            assert_eq!(of_parts(high, low), total);
        }
        assert_eq!(parts(i128::MAX), None);
    }
}
