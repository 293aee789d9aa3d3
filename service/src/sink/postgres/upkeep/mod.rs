//! What is done beside deliveries, by a connection of its own and by one service of a database at a time: days are made
//! ahead, and what is not kept any longer is deleted.
//!
//! Each step is a short transaction that waits for locks at most a second, so a delivery that waits for a step waits no
//! longer either. After a kill between two steps, the next round goes on.

pub(super) mod days;
mod hours;
mod intervals;
mod reader;

use super::fault::Fault;
use super::Server;
use super::{schema, session};
use crate::sink::{Memory, Retention};
use std::sync::atomic::{AtomicBool, Ordering::Relaxed};
use std::sync::Arc;
use std::thread::JoinHandle;
use std::time::Duration;
use tokio::sync::oneshot;
use tokio_postgres::{Client, Error};

/// The wait before the first round, since a start delivers first.
const FIRST: Duration = Duration::from_secs(1);
/// From the end of one round to the next.
const PAUSE: Duration = Duration::from_secs(60);

/// A statement may take longer here than in a delivery: nothing waits for it, except for the locks of a step.
const SETTINGS: &str = "set lock_timeout = '1s'; set statement_timeout = '5min'";

/// The number of an advisory lock: `totxegun` plus one.
const LOCK: i64 = schema::LOCK + 1;

/// The rows that a step changes at most.
const STEP: i64 = 10_000;

/// A thread that works until this is dropped.
pub(super) struct Upkeep {
    stop: Option<oneshot::Sender<()>>,
    thread: Option<JoinHandle<()>>,
}

impl Upkeep {
    /// Nothing is changed before `was_there` says that the sink is the one that is remembered.
    pub(super) fn start(
        server: Server,
        retention: Retention,
        memory: Arc<dyn Memory>,
        was_there: Arc<AtomicBool>,
    ) -> std::io::Result<Upkeep> {
        let runtime = tokio::runtime::Builder::new_current_thread().enable_all().build()?;
        let (stop, stopped) = oneshot::channel();
        let rounds = async move {
            tokio::select! {
                _ = stopped => {}
                () = rounds(&server, retention, &*memory, &was_there) => {}
            }
        };
        let thread = std::thread::Builder::new().name("postgres worker".into());
        Ok(Upkeep { stop: Some(stop), thread: Some(thread.spawn(move || runtime.block_on(rounds))?) })
    }
}

impl Drop for Upkeep {
    /// The server undoes a step that is under way, once it sees that its client is gone.
    fn drop(&mut self) {
        drop(self.stop.take());
        let _ = self.thread.take().map(JoinHandle::join);
    }
}

async fn rounds(server: &Server, retention: Retention, memory: &dyn Memory, was_there: &AtomicBool) {
    let (mut wait, mut told) = (FIRST, None);
    loop {
        tokio::time::sleep(wait).await;
        if !was_there.load(Relaxed) {
            continue;
        }
        wait = PAUSE;
        let fault = round(server, retention, memory).await.err();
        let reason = fault.map(|fault| fault.at(server).to_string());
        if let Some(reason) = reason.as_ref().filter(|_| told != reason) {
            tracing::warn!(reason, "the upkeep of the sink failed: retried in a minute");
        }
        told = reason;
    }
}

/// If one fails, the others are still tried: a lock that somebody keeps holds up only one of them.
async fn round(server: &Server, retention: Retention, memory: &dyn Memory) -> Result<(), Fault> {
    let (mut client, _connection) = session::connect(server).await?;
    if !schema::check(&client).await? || !is_ours(&client, memory).await? {
        return Ok(());
    }
    let all = [
        reader::let_in(&client, server).await,
        days::make(&mut client).await,
        intervals::delete(&client, retention.intervals).await,
        hours::delete(&client, retention.hours).await,
        days::summarize(&client).await,
    ];
    Ok(all.into_iter().collect::<Result<(), Error>>()?)
}

/// Whether this is the sink that is remembered, and no other service does this work. The lock ends with the connection.
async fn is_ours(client: &Client, memory: &dyn Memory) -> Result<bool, Error> {
    client.batch_execute(SETTINGS).await?;
    let id = client.query_one("select id from totxegun.sink", &[]).await?;
    if memory.admit(Some(id.get(0)), false).is_err() {
        return Ok(false);
    }
    let row = client.query_one("select pg_try_advisory_lock($1)", &[&LOCK]).await?;
    Ok(row.get(0))
}
