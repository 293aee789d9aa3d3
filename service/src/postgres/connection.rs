//! A connection to PostgreSQL with the task that drives it. The sink and the store use it.

use super::tls::Tls;
use super::Server;
use crate::sink::roots::NoRoots;
use crate::work::locked;
use std::future::poll_fn;
use std::sync::{Arc, Mutex};
use std::time::Duration;
use tokio::io::{AsyncRead, AsyncWrite};
use tokio::task::JoinHandle;
use tokio::time::timeout;
use tokio_postgres::error::SqlState;
use tokio_postgres::{AsyncMessage, Client, Config, Connection, Error, NoTls};

/// Why there is no connection.
#[derive(Debug, thiserror::Error)]
pub(crate) enum NotConnected {
    #[error(transparent)]
    Roots(#[from] NoRoots),
    #[error("{}", super::shown(.0))]
    Server(#[from] Error),
    #[error("no answer within {} s", .0.as_secs_f64())]
    Silent(Duration),
}

impl NotConnected {
    /// Whether the server is reachable and rejects us (class 28, invalid authorization).
    pub(crate) fn is_denied(&self) -> bool {
        let NotConnected::Server(error) = self else {
            return false;
        };
        error.code().is_some_and(|code| code.code().starts_with("28"))
    }
}

/// Connects to a server by `config`, which has all of its hosts or one, and applies the settings of the session.
/// `limit` bounds both: a proxy whose server is away accepts connections and is silent.
pub(crate) async fn connect(
    server: &Server,
    config: &Config,
    settings: &str,
    limit: Duration,
) -> Result<(Client, Driver), NotConnected> {
    let connecting = async {
        let (client, driver) = connect_to(server, config).await?;
        client.batch_execute(settings).await?;
        Ok((client, driver))
    };
    timeout(limit, connecting).await.unwrap_or(Err(NotConnected::Silent(limit)))
}

async fn connect_to(server: &Server, config: &Config) -> Result<(Client, Driver), NotConnected> {
    if server.wants_tls() {
        let tls = Tls::new(server.client_config()?);
        let (client, connection) = config.connect(tls).await?;
        Ok((client, Driver::of(connection)))
    } else {
        let (client, connection) = config.connect(NoTls).await?;
        Ok((client, Driver::of(connection)))
    }
}

/// The task that drives a connection. It is aborted when this is dropped, so no statement continues unnoticed.
pub(crate) struct Driver {
    task: JoinHandle<()>,
    pub warnings: Warnings,
}

impl Driver {
    fn of<S, T>(mut connection: Connection<S, T>) -> Driver
    where
        S: AsyncRead + AsyncWrite + Unpin + Send + 'static,
        T: AsyncRead + AsyncWrite + Unpin + Send + 'static,
    {
        let warnings = Warnings::default();
        let heard = warnings.clone();
        let task = tokio::spawn(async move {
            // An error goes to whoever waits for the answer.
            while let Some(Ok(message)) = poll_fn(|context| connection.poll_message(context)).await {
                heard.note(&message);
            }
        });
        Driver { task, warnings }
    }

    /// Waits until the server has been told that the client, which was dropped before, has ended.
    pub(crate) async fn ended(&mut self) {
        let _ = (&mut self.task).await;
    }
}

impl Drop for Driver {
    fn drop(&mut self) {
        self.task.abort();
    }
}

/// Warnings that say nothing about a commit: when transaction numbers run short, each writing transaction gets them and
/// commits anyway. They are recognised by the server's function, since their texts are translated.
const OF_NUMBERS: [&str; 2] = ["GetNewTransactionId", "GetNewMultiXactId"];

fn is_doubt(code: &SqlState, routine: Option<&str>) -> bool {
    *code == SqlState::WARNING && !routine.is_some_and(|routine| OF_NUMBERS.contains(&routine))
}

/// The last warning (01000) of the server on this connection, until it is taken. The server sends it before it ends a
/// statement, so it is here before the caller of the statement continues.
#[derive(Clone, Default)]
pub(crate) struct Warnings(Arc<Mutex<Option<String>>>);

impl Warnings {
    fn note(&self, message: &AsyncMessage) {
        if let AsyncMessage::Notice(notice) = message {
            if is_doubt(notice.code(), notice.routine()) {
                *locked(&self.0) = Some(notice.message().into());
            }
        }
    }

    pub(crate) fn take(&self) -> Option<String> {
        locked(&self.0).take()
    }
}

#[cfg(test)]
mod tests {
    use super::*;

    /// Otherwise periods would no longer be created or deleted, and nobody would notice.
    #[tokio::test]
    async fn a_server_that_is_silent_is_not_waited_for_without_end() {
        let listener = tokio::net::TcpListener::bind("127.0.0.1:0").await.expect("a port");
        let address = format!("//u@{}/d", listener.local_addr().expect("its address"));
        let server = Server::read(&address).expect("an address");
        let config = server.config();
        let connecting = connect(&server, &config, "", Duration::from_millis(50));
        let fault = timeout(Duration::from_secs(20), connecting).await.expect("an end").err();
        assert_eq!(fault.expect("no connection").to_string(), "no answer within 0.05 s");
    }

    /// Otherwise no post would be taken long before the server refuses writes.
    #[test]
    fn a_server_that_is_short_of_numbers_is_believed() {
        for (routine, doubt) in [
            (Some("SyncRepWaitForLSN"), true),
            (Some("exec_stmt_raise"), true),
            (None, true),
            (Some("GetNewTransactionId"), false),
        ] {
            assert_eq!(is_doubt(&SqlState::WARNING, routine), doubt, "{routine:?}");
        }
        assert!(!is_doubt(&SqlState::SUCCESSFUL_COMPLETION, None));
    }
}
