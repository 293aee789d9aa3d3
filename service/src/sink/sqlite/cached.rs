//! Runs statements that a connection prepares once.

use rusqlite::{Connection, OptionalExtension, Params, Result, Row};

/// Returns how many rows the statement changed.
pub(super) fn run(connection: &Connection, statement: &str, values: impl Params) -> Result<usize> {
    connection.prepare_cached(statement)?.execute(values)
}

/// The first row, if there is one.
pub(super) fn find<T>(
    connection: &Connection,
    query: &str,
    values: impl Params,
    of: impl FnOnce(&Row<'_>) -> Result<T>,
) -> Result<Option<T>> {
    connection.prepare_cached(query)?.query_row(values, of).optional()
}

/// The first row. It is an error if there is none.
pub(super) fn one<T>(
    connection: &Connection,
    query: &str,
    values: impl Params,
    of: impl FnOnce(&Row<'_>) -> Result<T>,
) -> Result<T> {
    connection.prepare_cached(query)?.query_row(values, of)
}
