//! The schema of the file. There is one version of it.

use super::fault::Fault;
use crate::sink::sql::about;
use rusqlite::{Connection, TransactionBehavior};

/// Says in the file's header that the file is ours: `totx`.
const APPLICATION: i64 = 0x746f_7478;

/// The version that this program reads and writes.
pub(super) const KNOWN: i64 = 1;

const SCHEMA: &str = include_str!("schema.sql");

/// Makes the tables and views of an empty file.
pub(super) fn make(connection: &mut Connection) -> Result<(), Fault> {
    // Another process may have made them meanwhile, so the version is read again under the lock.
    let transaction = connection.transaction_with_behavior(TransactionBehavior::Immediate)?;
    if !check(&transaction)? {
        transaction.execute_batch(&schema())?;
        explain(&transaction)?;
        transaction.pragma_update(None, "application_id", APPLICATION)?;
        transaction.pragma_update(None, "user_version", KNOWN)?;
    }
    Ok(transaction.commit()?)
}

/// Fills the table that says what tables, views and columns are.
fn explain(connection: &Connection) -> rusqlite::Result<()> {
    let all = "select of.name, one.name from sqlite_schema of join pragma_table_info(of.name) one
        where of.type in ('table', 'view')";
    let columns: Vec<(String, String)> = connection
        .prepare(all)?
        .query_map([], |row| Ok((row.get(0)?, row.get(1)?)))?
        .collect::<Result<_, _>>()?;
    let mut insert = connection.prepare("insert into about values (?1, ?2, ?3)")?;
    for one in about(SCHEMA, &columns) {
        insert.execute([one.of, one.column, one.what])?;
    }
    Ok(())
}

/// The expression of a total, which is two integers, `high * 1000000000000 + low`. It is shown as an integer, or as a
/// text if no integer of SQLite holds it.
fn exact(high: &str, low: &str) -> String {
    format!(
        "case when {high} between -9223372 and 9223371 then {high} * 1000000000000 + {low} \
         when {high} >= 0 then {high} || printf('%012d', {low}) \
         when {low} = 0 then {high} || '000000000000' \
         else ({high} + 1) || printf('%012d', 1000000000000 - {low}) end"
    )
}

/// The expressions of the total and the count of a row.
pub(super) fn totals() -> (String, String) {
    (exact("total_high", "total_low"), exact("count_high", "count_low"))
}

/// The statements that make the schema, with the columns that the file only names.
fn schema() -> String {
    let (total, count) = totals();
    let low = "((total_low + adjustments) % 1000000000000 + 1000000000000) % 1000000000000";
    let high = format!("(total_high + (total_low + adjustments - {low}) / 1000000000000)");
    let adjusted = exact(&high, low);
    SCHEMA
        .replace(
            "COUNT_OF(metrics.kind)",
            &format!("case when metrics.kind = 'histogram' then {count} end as count"),
        )
        .replace("COUNT_OF(kind)", &format!("case when kind = 'histogram' then {count} end as count"))
        .replace(
            "TOTAL_ADJUSTED",
            &format!("case adjustments when 0 then {total} else {adjusted} end as total_adjusted"),
        )
        .replace("TOTAL", &format!("{total} as total"))
}

/// The id that distinguishes the file from others.
pub(super) fn id(connection: &Connection) -> rusqlite::Result<String> {
    connection.query_row("select id from sink", [], |row| row.get(0))
}

/// Whether the file is ours, of the known version. False if it is empty.
pub(super) fn check(connection: &Connection) -> Result<bool, Fault> {
    let number = |query: &str| connection.query_row(query, [], |row| row.get::<_, i64>(0));
    let version = number("pragma user_version")?;
    let application = number("pragma application_id")?;
    if application == APPLICATION && version > 0 {
        return match version {
            KNOWN => Ok(true),
            found => Err(Fault::Version { found }),
        };
    }
    if application != 0 || version != 0 || number("select count(*) from sqlite_schema")? != 0 {
        return Err(Fault::Foreign);
    }
    Ok(false)
}

#[cfg(test)]
mod tests {
    use super::*;

    #[test]
    fn a_file_of_another_program_is_not_touched() {
        for foreign in ["create table theirs (x)", "pragma user_version = 3", "pragma application_id = 5"] {
            let mut connection = Connection::open_in_memory().expect("memory");
            connection.execute_batch(foreign).expect("theirs");
            let error = make(&mut connection).expect_err("it is theirs");
            assert!(matches!(error, Fault::Foreign), "{error:?}");
        }
    }

    #[test]
    fn it_is_made_once() {
        let mut connection = Connection::open_in_memory().expect("memory");
        make(&mut connection).expect("a schema");
        let first = id(&connection).expect("its id");
        make(&mut connection).expect("it is there");
        assert_eq!(id(&connection).expect("its id"), first);
    }
}
