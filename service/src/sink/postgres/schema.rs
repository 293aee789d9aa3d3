//! The schema `totxegun` of a database. There is one version of it.

use super::fault::Fault;
use super::upkeep::days;
use super::Server;
use crate::sink::sql::{about, About};
use crate::sink::Memory;
use tokio_postgres::{Client, Error, GenericClient, Transaction};

const SCHEMA: &str = include_str!("schema.sql");

/// The version that this program reads and writes.
pub(super) const KNOWN: i32 = 1;

/// The number of an advisory lock, `totxegun`: one of several services makes the schema, and the others wait.
pub(super) const LOCK: i64 = 0x746f_7478_6567_756e;

/// Makes the schema if there is none. The error says why a schema must not be written, for example because it is not
/// the one that is remembered.
pub(super) async fn make(
    client: &mut Client,
    server: &Server,
    is_there: bool,
    memory: &dyn Memory,
    was_there: bool,
) -> Result<(), Fault> {
    // A schema that disappeared in this run is reported, and made again.
    let is_replaced = !is_there && was_there;
    if !is_there {
        memory.admit(None, is_replaced).map_err(Fault::Another)?;
        make_anew(client, server, was_there).await?;
    }
    let id = client.query_one("select id from totxegun.sink", &[]).await?;
    memory.admit(Some(id.get(0)), is_replaced).map_err(Fault::Another)
}

async fn make_anew(client: &mut Client, server: &Server, was_there: bool) -> Result<(), Fault> {
    let mut transaction = client.transaction().await?;
    transaction.execute("select pg_advisory_xact_lock($1)", &[&LOCK]).await?;
    // Another service may have made it meanwhile, so this is looked for again under the lock.
    if !check(&transaction).await? {
        tell_of_lost(&transaction, server, was_there).await?;
        transaction.batch_execute(SCHEMA).await?;
        explain(&transaction).await?;
        days::make(&mut transaction).await?;
        tracing::info!(%server, version = KNOWN, "the schema totxegun was made");
    }
    Ok(transaction.commit().await?)
}

/// Makes the comments of tables, views and columns.
async fn explain(transaction: &Transaction<'_>) -> Result<(), Error> {
    let all = "select relname::text, attname::text from pg_attribute join pg_class on pg_class.oid = attrelid
        where relnamespace = 'totxegun'::regnamespace and relkind in ('r', 'p', 'v') and attnum > 0";
    let columns: Vec<(String, String)> =
        transaction.query(all, &[]).await?.iter().map(|row| (row.get(0), row.get(1))).collect();
    let comment = |About { is_view, of, column, what }: &About| {
        let of = match (*column, is_view) {
            ("", true) => format!("view totxegun.{of}"),
            ("", false) => format!("table totxegun.{of}"),
            (column, _) => format!("column totxegun.{of}.\"{column}\""),
        };
        format!("comment on {of} is '{}';", what.replace('\'', "''"))
    };
    let comments: String = about(SCHEMA, &columns).iter().map(comment).collect();
    transaction.batch_execute(&comments).await
}

/// Logs it if the tables are made although there were some before: these have another name now, or are gone.
async fn tell_of_lost(client: &impl GenericClient, server: &Server, was_there: bool) -> Result<(), Error> {
    let query = "select nspname::text from pg_namespace where nspname <> 'totxegun' and 5 = (select count(*) from pg_class
        where relnamespace = pg_namespace.oid and relname in ('version', 'requests', 'series', 'series_totals', 'interval_rows'))
        order by nspname limit 1";
    let found = client.query_opt(query, &[]).await?;
    let how = match found.map(|row| row.get::<_, String>(0)) {
        Some(other) => format!("is not there, and {other} has its tables"),
        None if was_there => "is gone".to_string(),
        None => return Ok(()),
    };
    tracing::warn!(
        %server,
        how,
        "the schema totxegun is lost: a fresh one is made, which lacks what was delivered so far"
    );
    Ok(())
}

/// Whether our schema is there, in the known version. False if there is none, or an empty one.
pub(super) async fn check(client: &impl GenericClient) -> Result<bool, Fault> {
    let query = "select
        exists (select from pg_class join pg_namespace on pg_namespace.oid = relnamespace where nspname = 'totxegun'),
        2 = (select count(*) from pg_attribute join pg_class on pg_class.oid = attrelid
            join pg_namespace on pg_namespace.oid = relnamespace where nspname = 'totxegun' and relname = 'version'
            and attname in ('program', 'version')),
        current_setting('server_encoding')";
    let row = client.query_one(query, &[]).await?;
    let encoding: String = row.get(2);
    if encoding != "UTF8" {
        return Err(Fault::Encoding(encoding));
    }
    let (is_used, is_marked): (bool, bool) = (row.get(0), row.get(1));
    if !is_used {
        return Ok(false);
    }
    if !is_marked {
        return Err(Fault::Foreign);
    }
    let query = "select version::text from totxegun.version where program::text = 'totxegun'";
    let rows = client.query(query, &[]).await?;
    let [row] = &rows[..] else { return Err(Fault::Foreign) };
    match row.get::<_, Option<String>>(0).and_then(|text| text.parse().ok()) {
        Some(KNOWN) => Ok(true),
        Some(found) if found > 0 => Err(Fault::Version { found }),
        _ => Err(Fault::Foreign),
    }
}
