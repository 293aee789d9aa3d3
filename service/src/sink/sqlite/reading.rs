//! Reads a file, also while the service writes to it.

use super::fault::Fault;
use super::schema;
use crate::sink::periods::Period;
use crate::sink::sql::{self, Row};
use crate::sink::utc::{day_of, month_of};
use percent_encoding::{percent_encode, AsciiSet, NON_ALPHANUMERIC};
use rusqlite::types::ValueRef;
use rusqlite::{Connection, ErrorCode, OpenFlags};
use std::os::unix::ffi::OsStrExt;
use std::path::{Path, PathBuf};
use std::time::Duration;

pub(in crate::sink) struct Reader {
    path: PathBuf,
    connection: Connection,
}

/// None if nothing was written yet.
pub(in crate::sink) fn open(path: &Path) -> anyhow::Result<Option<Reader>> {
    let opened = || {
        let connection = connection(path)?;
        let is_there = schema::check(&connection)?;
        connection.execute_batch("begin")?;
        Ok(is_there.then(|| Reader { path: path.into(), connection }))
    };
    opened().map_err(|fault: Fault| fault.at(path))
}

impl sql::Reader for Reader {
    fn each(&mut self, query: &str, each: &mut dyn FnMut(Row) -> anyhow::Result<()>) -> anyhow::Result<()> {
        let fault = |error: rusqlite::Error| Fault::from(error).at(&self.path);
        let mut query = self.connection.prepare(query).map_err(fault)?;
        let mut rows = query.query([]).map_err(fault)?;
        while let Some(row) = rows.next().map_err(fault)? {
            each(texts(row).map_err(fault)?)?;
        }
        Ok(())
    }

    fn totals(&self) -> String {
        let (total, count) = schema::totals();
        format!(
            "select identity, points, first_start_ns, last_end_ns, {total}, {count}, without_sum, buckets, sender
            from series join series_totals on series_totals.series = series.id order by name, attributes, resource, series.id"
        )
    }

    fn bytes(&self, bytes: &[u8]) -> String {
        let digits: String = bytes.iter().map(|byte| format!("{byte:02x}")).collect();
        format!("x'{digits}'")
    }

    /// A month or a day is deleted as a whole, with its last hour.
    fn has(&self, period: &Period, hours_from: i64) -> bool {
        if period.zone().is_some() {
            return period.from >= hours_from; // it is read by hours
        }
        let (day, first) = (day_of(period.from), day_of(hours_from));
        match period.is_month() {
            true => month_of(day) >= month_of(first),
            false => day >= first,
        }
    }
}

/// Each value of a row as text.
pub(super) fn texts(row: &rusqlite::Row<'_>) -> rusqlite::Result<Row> {
    let columns = 0..row.as_ref().column_count();
    columns.map(|column| row.get_ref(column).map(text)).collect::<Result<_, _>>().map(Row)
}

fn text(value: ValueRef<'_>) -> Option<String> {
    match value {
        ValueRef::Null => None,
        ValueRef::Integer(number) => Some(number.to_string()),
        ValueRef::Real(number) => Some(number.to_string()),
        ValueRef::Text(bytes) | ValueRef::Blob(bytes) => Some(String::from_utf8_lossy(bytes).into()),
    }
}

/// Opens the file for reading. A reader of a write-ahead log has to write to a file beside it. If it may not, and there
/// is no log, it reads the file as one to which nobody writes.
fn connection(path: &Path) -> Result<Connection, Fault> {
    if !path.is_file() {
        return Err(Fault::told("there is no such file: nothing was delivered to it yet"));
    }
    let flags = OpenFlags::SQLITE_OPEN_READ_ONLY | OpenFlags::SQLITE_OPEN_NO_MUTEX;
    let tried = Connection::open_with_flags(path, flags).and_then(|connection| {
        connection.busy_timeout(Duration::from_secs(2))?;
        connection.query_row("select count(*) from sqlite_schema", [], |_| Ok(()))?;
        Ok(connection)
    });
    let code = tried.as_ref().err().and_then(|error| error.sqlite_error_code());
    if matches!(code, Some(ErrorCode::CannotOpen | ErrorCode::ReadOnly)) && !has_log(path) {
        let flags = flags | OpenFlags::SQLITE_OPEN_URI;
        return Ok(Connection::open_with_flags(uri(path), flags)?);
    }
    Ok(tried?)
}

fn has_log(path: &Path) -> bool {
    let mut log = path.as_os_str().to_owned();
    log.push("-wal");
    std::fs::metadata(log).is_ok_and(|log| log.len() > 0)
}

fn uri(path: &Path) -> String {
    const PLAIN: &AsciiSet = &NON_ALPHANUMERIC.remove(b'/').remove(b'.').remove(b'-').remove(b'_');
    format!("file:{}?immutable=1", percent_encode(path.as_os_str().as_bytes(), PLAIN))
}
