//! Deletes intervals that ended too long ago. Days are dropped as a whole, so an interval is kept up to a day longer.

use super::STEP;
use std::time::Duration;
use tokio_postgres::{Client, Error};

/// The beginning of the first day that is kept, in nanoseconds since 1970.
const FROM: &str = "select (extract(epoch from date_trunc('day', now() at time zone 'UTC'
        - make_interval(secs => $1::float8))) * 1000000000)::int8";

const OLD_DAYS: &str =
    "select relname::text from pg_class join pg_namespace on pg_namespace.oid = relnamespace
    where nspname = 'totxegun' and relkind = 'r' and relname ~ '^interval_[0-9]{8}$'
        and relname < 'interval_' || to_char(to_timestamp($1::int8 / 1000000000) at time zone 'UTC', 'YYYYMMDD')
    order by relname";

const OTHERS: &str = "delete from totxegun.interval_other where ctid = any(array(
        select ctid from totxegun.interval_other where end_ns > 0 and end_ns <= $1::int8 limit $2::int8
    ))";

pub(super) async fn delete(client: &Client, kept: Option<Duration>) -> Result<(), Error> {
    let Some(kept) = kept else {
        return Ok(());
    };
    let from: i64 = client.query_one(FROM, &[&kept.as_secs_f64()]).await?.get(0);
    for row in client.query(OLD_DAYS, &[&from]).await? {
        let day: &str = row.get(0);
        client.batch_execute(&format!("drop table totxegun.{day}")).await?;
        tracing::info!(day = day.trim_start_matches("interval_"), "the intervals of a day were deleted");
    }
    while client.execute(OTHERS, &[&from, &STEP]).await? == STEP as u64 {}
    Ok(())
}
