//! The role `totxegun_read`, which may read everything.

use crate::sink::postgres::Server;
use std::sync::Once;
use tokio_postgres::error::SqlState;
use tokio_postgres::{Client, Error};

const MAKE: &str = "create role totxegun_read nologin";

/// What the role may read, with tables to come.
const GRANT: &str = "grant usage on schema totxegun to totxegun_read;
    grant select on all tables in schema totxegun to totxegun_read;
    alter default privileges in schema totxegun grant select on tables to totxegun_read";

/// So that a run says only once what to type.
static TOLD: Once = Once::new();

/// Makes the role if there is none and this service may, and grants it what it lacks.
pub(super) async fn let_in(client: &Client, server: &Server) -> Result<(), Error> {
    let query = "select exists (select from pg_roles where rolname = 'totxegun_read'),
            exists (select from pg_roles where rolname = 'totxegun_read' and has_schema_privilege(oid, 'totxegun', 'usage'))";
    let row = client.query_one(query, &[]).await?;
    match (row.get(0), row.get(1)) {
        (_, true) => Ok(()),
        (true, false) => client.batch_execute(GRANT).await,
        (false, false) => make(client, server).await,
    }
}

async fn make(client: &Client, server: &Server) -> Result<(), Error> {
    match client.batch_execute(MAKE).await {
        Ok(()) => client.batch_execute(GRANT).await,
        Err(error) if error.code() == Some(&SqlState::INSUFFICIENT_PRIVILEGE) => {
            TOLD.call_once(|| {
                tracing::info!(
                    %server,
                    "there is no role for reading the sink: run `CREATE ROLE totxegun_read NOLOGIN` as a user who may, and \
                     the service grants it access"
                )
            });
            Ok(())
        }
        // The service of another database made it meanwhile.
        Err(error) if error.code() == Some(&SqlState::DUPLICATE_OBJECT) => Ok(()),
        Err(error) => Err(error),
    }
}
