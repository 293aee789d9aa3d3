//! `GET /totals`: the totals of a SQLite file or a PostgreSQL database, as a page for Prometheus. The counters are
//! exact, and unchanged by a restart, since they are read from the sink.
//!
//! At most one reader uses the sink at a time, and at most one page is being sent.

mod labels;
mod names;
mod page;
mod sent;

#[cfg(test)]
pub(super) mod tests;

pub(super) use labels::identity;
pub use page::Times;

use super::query::Query;
use super::{message, reply, AdminApi, PROMETHEUS};
use crate::otlp::series::Digest;
use crate::sink::periods::Period;
use crate::sink::sql::reading;
use crate::sink::sql::totals::{Hour, SeriesTotal};
use crate::sink::sql::BegunBefore;
use crate::sink::Address;
use crate::work::blocking;
use hyper::{Body, Response};
use std::collections::HashSet;
use std::fmt::Display;
use std::sync::Arc;
use std::time::Duration;
use tokio::sync::Semaphore;
use tokio::time::timeout;

/// How long to wait while another reader has the page.
const PATIENCE: Duration = Duration::from_secs(10);

/// Whether each series has a label with its sender.
#[derive(Clone, Copy, PartialEq)]
enum Senders {
    Labels,
    LeftOut,
}

/// Reads the sink.
pub struct Totals {
    source: Address,
    times: Times,
    /// One reads the sink at a time.
    turn: Arc<Semaphore>,
    /// One page is sent at a time.
    page: Arc<Semaphore>,
}

impl Totals {
    /// None if the sink can't be read.
    pub fn of(sink: &Address, times: Times) -> Option<Totals> {
        if let Address::Otlp { .. } = sink {
            return None;
        }
        let source = sink.clone();
        let [turn, page] = [(); 2].map(|()| Arc::new(Semaphore::new(1)));
        Some(Totals { source, times, turn, page })
    }

    /// What a series counted in each hour, from hour `from` since 1970 on. None if the sink has no hours yet.
    pub(super) async fn hours(&self, series: Digest, from: u64) -> Result<Option<Vec<Hour>>, String> {
        self.asked(move |sink| reading::hours(sink, &series, from).map_err(said)).await
    }

    /// The keys of late points that the sink has booked.
    pub(super) async fn booked(&self) -> Result<HashSet<String>, String> {
        self.asked(|sink| reading::booked(sink).map_err(said)).await
    }

    /// The intervals that count in a period, and began before it.
    pub(super) async fn begun_before(&self, period: &Period) -> Result<Vec<BegunBefore>, String> {
        let period = period.clone();
        self.asked(move |sink| reading::begun_before(sink, &period).map_err(said)).await
    }

    /// What is made of all totals.
    pub(super) async fn read<T: Send + 'static>(
        &self,
        make: impl FnOnce(Vec<SeriesTotal>) -> Result<T, String> + Send + 'static,
    ) -> Result<T, String> {
        self.asked(move |sink| make(reading::totals(sink).map_err(said)?)).await
    }

    /// The thread that reads gives the turn back, so the turn is kept even after the caller is dropped.
    async fn asked<T: Send + 'static>(
        &self,
        read: impl FnOnce(&Address) -> Result<T, String> + Send + 'static,
    ) -> Result<T, String> {
        let turn = self.turn.clone().acquire_owned().await;
        let source = self.source.clone();
        let reading = move || {
            let read = read(&source);
            drop(turn);
            read
        };
        blocking(reading).await
    }

    /// A page of all totals.
    async fn page(&self, senders: Senders) -> Result<Body, String> {
        let Ok(Ok(turn)) = timeout(PATIENCE, self.page.clone().acquire_owned()).await else {
            let seconds = PATIENCE.as_secs();
            return Err(format!("another reader has had a page of totals for {seconds} s: ask again"));
        };
        let mut series = self.read(Ok).await?;
        if senders == Senders::LeftOut {
            series.iter_mut().for_each(|one| one.sender = None);
        }
        Ok(sent::sent(series, self.times, turn))
    }
}

fn said(fault: impl Display) -> String {
    fault.to_string()
}

impl AdminApi {
    pub(super) async fn totals(&self, query: Query<'_>) -> Response<Body> {
        let Some(totals) = &self.totals else {
            let name = self.sink.name();
            return message(
                404,
                &format!("only a SQLite or PostgreSQL sink has totals here: this service delivers to {name}, ask it"),
            );
        };
        let senders = if query.has("sender") { Senders::Labels } else { Senders::LeftOut };
        match totals.page(senders).await {
            Ok(page) => reply(200, PROMETHEUS, page),
            Err(what) => message(503, &what),
        }
    }
}
