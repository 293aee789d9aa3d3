//! The row of a series.

use super::cached;
use super::wide_integers::list;
use crate::otlp::series::{Digest, SeriesKey};
use crate::sink::sql::totals::SeriesTotal;
use rusqlite::{params, Connection, Transaction};

/// The numbers of the row of a series and of its metric's row.
#[derive(Clone, Copy, Debug, PartialEq, Eq)]
pub(super) struct SeriesIds {
    pub(super) series: i64,
    pub(super) metric: i64,
}

/// The number of a series' row, if there is one.
pub(super) fn find(connection: &Connection, series: &Digest) -> rusqlite::Result<Option<i64>> {
    cached::find(connection, "select id from series where digest = ?1", [series], |row| row.get(0))
}

/// The row numbers of a series, and whether its row was made now. Its sender is noted once it is known.
pub(super) fn known(
    transaction: &Transaction,
    key: &SeriesKey,
    of: &SeriesTotal,
    sender: Option<&str>,
) -> rusqlite::Result<(SeriesIds, bool)> {
    let (kind, is_monotonic) = (of.kind.name(), of.kind.is_monotonic());
    let bounds = list(of.histogram.as_ref().map_or(&[], |histogram| &histogram.bounds));
    let [attributes, resource, scope_attributes] = [&of.attributes, &of.resource, &of.scope_attributes]
        .map(|object| serde_json::to_string(object).unwrap_or_default()); // serialising a map of JSON does not fail
    let make = "insert into series (digest, identity, name, unit, kind, is_monotonic, bounds, attributes, resource, scope_name,
            scope_version, scope_attributes)
        values (?1, ?2, ?3, ?4, ?5, ?6, ?7, ?8, ?9, ?10, ?11, ?12) on conflict do nothing";
    let row = params![
        of.digest,
        &*key.0,
        of.name,
        of.unit,
        kind,
        is_monotonic,
        bounds,
        attributes,
        resource,
        of.scope_name,
        of.scope_version,
        scope_attributes
    ];
    // Most series that get here are new, since those of earlier requests are cached.
    let is_new = cached::run(transaction, make, row)? == 1;
    if is_new {
        let make = "insert into metrics (name, kind, is_monotonic, unit) values (?1, ?2, ?3, ?4)
            on conflict do nothing";
        cached::run(transaction, make, params![of.name, kind, is_monotonic, of.unit])?;
    }
    if sender.is_some() {
        let name = "update series set sender = ?2 where digest = ?1 and sender is null";
        cached::run(transaction, name, params![of.digest, sender])?;
    }
    let find = "select series.id, metrics.id from series join metrics using (name, kind, is_monotonic, unit)
        where digest = ?1";
    let ids = |row: &rusqlite::Row| Ok(SeriesIds { series: row.get(0)?, metric: row.get(1)? });
    Ok((cached::one(transaction, find, [of.digest], ids)?, is_new))
}
