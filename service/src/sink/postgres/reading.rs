//! Reads a database, also while services write to it. It has a connection of its own, so that a delivery that waits
//! holds nothing up here.

use super::fault::Fault;
use super::{schema, session, Server, PATIENCE};
use crate::postgres::Driver;
use crate::sink::periods::Period;
use crate::sink::sql::{self, Row};
use anyhow::Context;
use std::time::Duration;
use tokio::runtime::{Builder, Runtime};
use tokio_postgres::{Client, SimpleQueryMessage};

pub(in crate::sink) struct Reader {
    server: Server,
    /// How long the server may take for an answer.
    patience: Duration,
    /// None at the reader's end.
    client: Option<Client>,
    driver: Driver,
    runtime: Runtime,
}

/// How long the end of a reader may take.
const END: Duration = Duration::from_secs(1);

/// None if no service has written yet.
pub(in crate::sink) fn open(server: &Server, patience: Duration) -> anyhow::Result<Option<Reader>> {
    let runtime = Builder::new_current_thread().enable_all().build()?;
    let connecting = async {
        let (client, driver) = session::connect(server).await?;
        if !schema::check(&client).await? {
            return Ok(None);
        }
        let wait = patience.as_secs();
        // All rows are read, so the cursor is planned for all of them.
        let settings = format!(
            "set statement_timeout = '{wait}s'; set idle_in_transaction_session_timeout = '{wait}s';
            set cursor_tuple_fraction = 1; begin isolation level repeatable read, read only"
        );
        client.batch_execute(&settings).await?;
        Ok(Some((client, driver)))
    };
    let found =
        runtime.block_on(session::within(PATIENCE, connecting)).map_err(|fault: Fault| fault.at(server))?;
    let reader =
        |(client, driver)| Reader { server: server.clone(), patience, client: Some(client), driver, runtime };
    Ok(found.map(reader))
}

impl Reader {
    fn ask(&self, query: &str) -> anyhow::Result<Vec<Row>> {
        let client = self.client.as_ref().context("a reader that has ended is asked")?;
        let asked = async { Ok::<_, Fault>(client.simple_query(query).await?) };
        let answer = self.runtime.block_on(session::within(self.patience, asked));
        let row = |message| match message {
            SimpleQueryMessage::Row(row) => {
                Some(Row((0..row.len()).map(|place| row.get(place).map(String::from)).collect()))
            }
            _ => None,
        };
        Ok(answer.map_err(|fault| fault.at(&self.server))?.into_iter().filter_map(row).collect())
    }
}

impl Drop for Reader {
    /// Ends the transaction: one that a client leaves open is logged by the server like a crash of the client.
    fn drop(&mut self) {
        let (client, driver) = (self.client.take(), &mut self.driver);
        let ending = async {
            if let Some(client) = client {
                client.batch_execute("rollback").await?;
            }
            driver.ended().await;
            Ok::<_, Fault>(())
        };
        let _ = self.runtime.block_on(session::within(END, ending));
    }
}

impl sql::Reader for Reader {
    fn each(&mut self, query: &str, each: &mut dyn FnMut(Row) -> anyhow::Result<()>) -> anyhow::Result<()> {
        self.ask(&format!("declare lines no scroll cursor for {query}"))?;
        loop {
            let rows = self.ask("fetch 1000 from lines")?;
            if rows.is_empty() {
                return self.ask("close lines").map(drop);
            }
            rows.into_iter().try_for_each(&mut *each)?;
        }
    }

    fn totals(&self) -> String {
        "select identity, points, first_start_ns, last_end_ns, total, count, without_sum, buckets, sender
        from series_totals join series on series.id = series_totals.series where points > 0
        order by name, cast(attributes as text), cast(resource as text), series.id"
            .into()
    }

    fn bytes(&self, bytes: &[u8]) -> String {
        let digits: String = bytes.iter().map(|byte| format!("{byte:02x}")).collect();
        format!("decode('{digits}', 'hex')")
    }

    /// The views leave a period out if one of its hours may be gone.
    fn has(&self, period: &Period, hours_from: i64) -> bool {
        period.from >= hours_from
    }
}
