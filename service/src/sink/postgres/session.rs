//! A connection to a schema of the right version, with its statements.

use super::fault::Fault;
use super::fence::Fence;
use super::statements::Statements;
use super::{schema, Server, PATIENCE};
use crate::postgres::{self, Driver};
use crate::sink::{KnowsOwners, Memory};
use std::future::Future;
use std::sync::Arc;
use std::time::Duration;
use tokio::time::timeout;
use tokio_postgres::Client;

/// Each statement has a timeout, and a transaction whose client is gone does not keep its locks. Texts and times mean
/// the same whatever settings the role has. A commit that is answered must be on the server's disk.
const SETTINGS: &str =
    "set search_path = pg_catalog, totxegun; set statement_timeout = '20s'; set lock_timeout = '10s';
    set idle_in_transaction_session_timeout = '30s'; set default_transaction_isolation = 'read committed';
    set timezone = 'UTC'; set datestyle = 'ISO, YMD'; set client_min_messages = 'warning'; set jit = off;
    select set_config('synchronous_commit', 'on', false) where current_setting('synchronous_commit') = 'off'";

/// A request's statements are planned once, and find each row by an index. If they were planned for a long array, or
/// while tables were small, they would read whole tables.
const PLANS: &str = "set plan_cache_mode = 'force_generic_plan'; set enable_seqscan = off;
    set enable_hashjoin = off; set enable_mergejoin = off";

pub(super) struct Session {
    pub(super) client: Client,
    pub(super) statements: Statements,
    /// Those of the shard whose request is being taken.
    pub(super) owners: Option<Arc<dyn KnowsOwners>>,
    /// Set if the sink is in the store's database.
    pub(super) fence: Option<Fence>,
    pub(super) connection: Driver,
}

impl Session {
    /// `was_there` says that this run has seen the schema before. Making a schema takes as long as it takes; for all
    /// else the server has `patience`.
    pub(super) async fn open(
        server: &Server,
        memory: &dyn Memory,
        was_there: bool,
        patience: Duration,
    ) -> Result<Session, Fault> {
        let connecting = async {
            let (client, connection) = connect(server).await?;
            let is_there = schema::check(&client).await?;
            Ok::<_, Fault>((client, connection, is_there))
        };
        let late = |_| Fault::Away(no_answer(patience));
        let (mut client, connection, is_there) = timeout(patience, connecting).await.map_err(late)??;
        schema::make(&mut client, server, is_there, memory, was_there).await?;
        let preparing = async {
            client.batch_execute(PLANS).await?;
            let statements = Statements::prepare(&client).await?;
            Ok::<_, Fault>((statements, Fence::prepare(&client, memory.store_database()).await?))
        };
        let (statements, fence) = within(patience, preparing).await?;
        Ok(Session { client, statements, owners: None, fence, connection })
    }
}

/// The result, if the server answers in time.
pub(super) async fn within<T, E: From<Fault>>(
    patience: Duration,
    work: impl Future<Output = Result<T, E>>,
) -> Result<T, E> {
    timeout(patience, work).await.unwrap_or_else(|_| Err(Fault::told(no_answer(patience)).into()))
}

fn no_answer(patience: Duration) -> String {
    format!("no answer within {} s", patience.as_secs_f64())
}

/// Connects with our settings, whatever schema is there.
pub(super) async fn connect(server: &Server) -> Result<(Client, Driver), Fault> {
    Ok(postgres::connect(server, &server.config(), SETTINGS, PATIENCE).await?)
}
