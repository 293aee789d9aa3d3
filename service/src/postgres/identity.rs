//! Identifies the database of a connection by its own word: two addresses may lead to one database, and one address to
//! two.

use tokio_postgres::{Client, Error};

const HAS_STORE: &str = "select to_regclass('totxegun_store.delivered') is not null";
/// A server that was made as a copy of another one has the same identity; the terms in the rows of its shards differ.
const IDENTITY: &str = "select concat_ws(' ', (select system_identifier from pg_control_system()),
        (select oid from pg_database where datname = current_database()), id)
    from totxegun_store.cluster";

/// None if it has no store, or this role may not ask for the server's identifier.
pub(crate) async fn identity(client: &Client) -> Result<Option<String>, Error> {
    if !client.query_one(HAS_STORE, &[]).await?.get::<_, bool>(0) {
        return Ok(None);
    }
    match client.query_one(IDENTITY, &[]).await {
        Ok(row) => Ok(Some(row.get(0))),
        Err(error) if error.as_db_error().is_some() => Ok(None),
        Err(error) => Err(error),
    }
}
