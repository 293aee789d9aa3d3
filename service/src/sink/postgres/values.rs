//! Values in PostgreSQL's binary form, for types that the driver does not know.

use crate::sink::sql::Cell;
use bytes::{BufMut, BytesMut};
use std::error::Error;
use std::fmt;
use tokio_postgres::types::{accepts, to_sql_checked, IsNull, Kind, ToSql, Type};

pub(super) type Written = Result<IsNull, Box<dyn Error + Sync + Send>>;

/// A whole number for `numeric`.
#[derive(Clone, Copy, Debug, PartialEq, Eq)]
pub(super) struct Numeric(pub(super) i128);

/// The base of the digits of `numeric`.
const BASE: u64 = 10_000;
/// How many digits any number of 128 bits fits.
const DIGITS: usize = 10;
const POSITIVE: u16 = 0;
const NEGATIVE: u16 = 0x4000;

impl From<u64> for Numeric {
    fn from(number: u64) -> Numeric {
        Numeric(number.into())
    }
}

impl ToSql for Numeric {
    /// The number of digits, the power of the first one, the sign, the number of digits after the point (none), the
    /// digits.
    fn to_sql(&self, _: &Type, out: &mut BytesMut) -> Written {
        let (mut digits, mut count) = ([0; DIGITS], 0);
        let mut rest = self.0.unsigned_abs();
        while rest > 0 {
            // Most numbers have 64 bits, which are divided much faster.
            let (quotient, digit) = match u64::try_from(rest) {
                Ok(rest) => (u128::from(rest / BASE), rest % BASE),
                Err(_) => (rest / u128::from(BASE), (rest % u128::from(BASE)) as u64),
            };
            digits[count] = digit as u16;
            (rest, count) = (quotient, count + 1);
        }
        out.put_u16(count as u16);
        out.put_u16(count.saturating_sub(1) as u16);
        out.put_u16(if self.0 < 0 { NEGATIVE } else { POSITIVE });
        out.put_u16(0);
        digits[..count].iter().rev().for_each(|digit| out.put_u16(*digit));
        Ok(IsNull::No)
    }

    accepts!(NUMERIC);
    to_sql_checked!();
}

impl ToSql for Cell<'_> {
    fn to_sql(&self, of: &Type, out: &mut BytesMut) -> Written {
        match self {
            Cell::Number(number) if *of == Type::INT4 => i32::try_from(*number)?.to_sql(of, out),
            Cell::Number(number) => number.to_sql(of, out),
            Cell::Text(text) => text.to_sql(of, out),
            Cell::Bytes(bytes) => bytes.to_sql(of, out),
        }
    }

    accepts!(INT4, INT8, TEXT, BYTEA);
    to_sql_checked!();
}

/// JSON for `jsonb`.
#[derive(Clone, Debug)]
pub(super) struct Jsonb(pub(super) String);

impl ToSql for Jsonb {
    /// The version of the form, then the text.
    fn to_sql(&self, _: &Type, out: &mut BytesMut) -> Written {
        out.put_u8(1);
        out.put_slice(self.0.as_bytes());
        Ok(IsNull::No)
    }

    accepts!(JSONB);
    to_sql_checked!();
}

/// Takes the columns of a row, and writes them.
pub(super) type Write<'w> = &'w mut dyn FnMut(&[&dyn ToSql]) -> Written;

/// A row as a value of a composite type: a function that hands its columns on.
pub(super) struct NewRow<'a>(Box<dyn Fn(Write<'_>) -> Written + Send + Sync + 'a>);

pub(super) fn row<'a>(columns: impl Fn(Write<'_>) -> Written + Send + Sync + 'a) -> NewRow<'a> {
    NewRow(Box::new(columns))
}

impl fmt::Debug for NewRow<'_> {
    fn fmt(&self, formatter: &mut fmt::Formatter<'_>) -> fmt::Result {
        formatter.write_str("NewRow(..)")
    }
}

impl ToSql for NewRow<'_> {
    fn to_sql(&self, of: &Type, out: &mut BytesMut) -> Written {
        (self.0)(&mut |values| put_row(values, of, out))
    }

    fn accepts(of: &Type) -> bool {
        matches!(of.kind(), Kind::Composite(_))
    }

    to_sql_checked!();
}

fn put_row(values: &[&dyn ToSql], of: &Type, out: &mut BytesMut) -> Written {
    let columns = match of.kind() {
        Kind::Composite(columns) if columns.len() == values.len() => columns,
        _ => return Err(format!("{of} has not the columns that it was made with").into()),
    };
    out.put_i32(values.len() as i32);
    for (column, value) in columns.iter().zip(values) {
        out.put_u32(column.type_().oid());
        let begin = out.len() + 4;
        out.put_i32(-1);
        if let IsNull::No = value.to_sql_checked(column.type_(), out)? {
            let length = i32::try_from(out.len() - begin)?;
            out[begin - 4..begin].copy_from_slice(&length.to_be_bytes());
        }
    }
    Ok(IsNull::No)
}

#[cfg(test)]
mod tests {
    use super::*;

    /// The form is that of PostgreSQL's source (`numeric_send`).
    #[test]
    fn numbers_are_digits_of_base_10000() {
        for (number, words) in [
            (0, vec![0, 0, 0, 0]),
            (7, vec![1, 0, 0, 0, 7]),
            (-10_000, vec![2, 1, 0x4000, 0, 1, 0]),
            (1_2345_0678, vec![3, 2, 0, 0, 1, 2345, 678]),
            (u64::MAX.into(), vec![5, 4, 0, 0, 1844, 6744, 737, 955, 1615]),
            (i128::MIN, vec![10, 9, 0x4000, 0, 170, 1411, 8346, 469, 2317, 3168, 7303, 7158, 8410, 5728]),
        ] {
            let mut out = BytesMut::new();
            Numeric(number).to_sql(&Type::NUMERIC, &mut out).expect("a number");
            let found: Vec<u16> = out.chunks(2).map(|two| u16::from_be_bytes([two[0], two[1]])).collect();
            assert_eq!(found, words, "{number}");
        }
    }
}
