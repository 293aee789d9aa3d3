//! Closes and reopens periods, and makes adjustments, by a connection of its own, between two requests of any service.

use super::fault::Fault;
use super::schema;
use super::session;
use super::statements;
use super::store::commit;
use super::Server;
use crate::sink::periods::{PeriodAction, PeriodOutcome};
use crate::sink::sql::{self, Cell, Row};
use crate::sink::Memory;
use std::time::Duration;
use tokio_postgres::types::ToSql;
use tokio_postgres::{Error, Row as DatabaseRow, Transaction};

/// The number of an advisory lock: `totxegun` plus two.
pub(super) const LOCK: i64 = schema::LOCK + 2;

/// How long all of it may take, with the wait for requests that are being taken.
const PATIENCE: Duration = Duration::from_secs(30);

const ALONE: &str = "select pg_advisory_xact_lock($1::int8)";

/// If the adjusted hour is later than the last one of the series, the last one is over.
const LAST_HOUR: &str = "select hour from totxegun.series_totals where series = $1::int8 for no key update";
const BEGIN_HOUR: &str = "update totxegun.series_totals set hour = $2::int4, before_points = points,
        before_total = total, before_count = count, before_without_sum = without_sum, before_buckets = buckets,
        hour_adjustments = null
    where series = $1::int8";
const TO_LAST_HOUR: &str = "update totxegun.series_totals
        set hour_adjustments = coalesce(hour_adjustments, 0) + $2::int8 where series = $1::int8";
const TO_PAST_HOUR: &str =
    "insert into totxegun.past_hours as h (series, hour, points, total, count, without_sum, adjustments)
    values ($1::int8, $2::int4, 0, 0, 0, 0, $3::int8)
    on conflict (series, to_timestamp(hour * 3600::double precision)) do update set adjustments = h.adjustments + excluded.adjustments";
const TO_METRIC: &str =
    "insert into totxegun.metric_hours as h (metric, hour, points, total, count, adjustments)
    select metric, $2::int4, 0, 0, 0, $3::int8 from totxegun.series where id = $1::int8
    on conflict (metric, hour) do update set adjustments = coalesce(h.adjustments, 0) + excluded.adjustments";

/// Carries a deed out, or leaves all as it was. If the answer to the commit was lost, the operator may ask again.
pub(super) async fn apply(
    server: &Server,
    memory: &dyn Memory,
    who: &str,
    deed: &PeriodAction,
) -> PeriodOutcome {
    let told = session::within(PATIENCE, settled(server, memory, who, deed)).await;
    told.unwrap_or_else(|fault| PeriodOutcome::Later(fault.at(server).to_string()))
}

async fn settled(
    server: &Server,
    memory: &dyn Memory,
    who: &str,
    deed: &PeriodAction,
) -> Result<PeriodOutcome, Fault> {
    let (mut client, connection) = session::connect(server).await?;
    if !schema::check(&client).await? {
        return Err(Fault::told("there is no schema yet: nothing was delivered"));
    }
    let transaction = client.transaction().await?;
    transaction.query(ALONE, &[&LOCK]).await?;
    // The locked row makes the commit a write, which waits for the standby even if there is nothing left to do.
    let id = transaction.query_one("select id from totxegun.sink for update", &[]).await?;
    memory.admit(Some(id.get(0)), false).map_err(Fault::Another)?;
    let mut periods = Changing(transaction);
    let told = sql::apply(&mut periods, who, deed).await?;
    commit(periods.0, &connection.warnings).await.map(|()| told)
}

struct Changing<'a>(Transaction<'a>);

impl sql::Periods for Changing<'_> {
    type Fault = Fault;

    async fn rows(&mut self, statement: &str, values: &[Cell<'_>]) -> Result<Vec<Row>, Fault> {
        let values: Vec<&(dyn ToSql + Sync)> = values.iter().map(|value| value as _).collect();
        Ok(self.0.query(&statement.replace('?', "$"), &values).await?.iter().map(texts).collect())
    }

    async fn add(&mut self, series: i64, hour: i64, value: i64) -> Result<(), Fault> {
        Ok(add(&self.0, series, hour as i32, value).await?)
    }
}

/// A row, its values as text.
pub(super) fn texts(row: &DatabaseRow) -> Row {
    Row((0..row.len()).map(|column| row.get(column)).collect())
}

/// Adds to an hour of a series and of its metric. The rows are made if nothing was counted there.
async fn add(transaction: &Transaction<'_>, series: i64, hour: i32, value: i64) -> Result<(), Error> {
    let last: Option<i32> = transaction.query_one(LAST_HOUR, &[&series]).await?.get(0);
    if last < Some(hour) {
        transaction.execute(statements::HOURS_OVER, &[&[series].as_slice()]).await?;
        transaction.execute(BEGIN_HOUR, &[&series, &hour]).await?;
    }
    match last <= Some(hour) {
        true => transaction.execute(TO_LAST_HOUR, &[&series, &value]).await?,
        false => transaction.execute(TO_PAST_HOUR, &[&series, &hour, &value]).await?,
    };
    transaction.execute(TO_METRIC, &[&series, &hour, &value]).await.map(drop)
}
