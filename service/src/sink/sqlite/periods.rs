//! Closed periods and adjustments in a file, by the statements of `sql/apply`.

use super::fault::Fault;
use super::hours;
use super::reading::texts;
use crate::sink::periods::Closed;
use crate::sink::sql::{self, closed_of, Cell, Row, CLOSED};
use rusqlite::types::{ToSqlOutput, ValueRef};
use rusqlite::{params_from_iter, ToSql, Transaction};

pub(super) struct Periods<'a>(pub(super) Transaction<'a>);

/// What is closed, as the transaction sees it.
pub(super) fn closed(transaction: &Transaction) -> Result<Closed, Fault> {
    Ok(closed_of(&rows(transaction, CLOSED, &[])?)?)
}

fn rows(transaction: &Transaction, statement: &str, values: &[Cell]) -> rusqlite::Result<Vec<Row>> {
    let mut statement = transaction.prepare_cached(statement)?;
    let rows = statement.query_map(params_from_iter(values), texts)?;
    rows.collect()
}

impl ToSql for Cell<'_> {
    fn to_sql(&self) -> rusqlite::Result<ToSqlOutput<'_>> {
        Ok(ToSqlOutput::Borrowed(match self {
            Cell::Number(number) => ValueRef::Integer(*number),
            Cell::Text(text) => ValueRef::Text(text.as_bytes()),
            Cell::Bytes(bytes) => ValueRef::Blob(bytes),
        }))
    }
}

impl sql::Periods for Periods<'_> {
    type Fault = Fault;

    async fn rows(&mut self, statement: &str, values: &[Cell<'_>]) -> Result<Vec<Row>, Fault> {
        Ok(rows(&self.0, statement, values)?)
    }

    async fn add(&mut self, series: i64, hour: i64, value: i64) -> Result<(), Fault> {
        Ok(hours::adjust(&self.0, series, hour, value)?)
    }
}
