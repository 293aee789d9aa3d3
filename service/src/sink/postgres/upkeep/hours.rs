//! Deletes hours that ended too long ago.
//!
//! The horizon is written first. What is deleted is never added again, since a point that begins before the end of its
//! series is not added.

use super::STEP;
use std::time::Duration;
use tokio_postgres::{Client, Error};

/// The first hour that is kept. It is at most the hour in which the last interval ends: otherwise, after a clock was
/// ahead once, the views would leave out all that comes until then. Late points and adjustments count in an hour by the
/// clock, so they say nothing of it.
const FROM: &str = "select case when hours_from >= by_clock then by_clock else least(by_clock,
        (select coalesce(max(div(last_end_ns - 1, 3600000000000)), 0)::int4 from totxegun.series_totals)) end
    from totxegun.horizon, (select floor((extract(epoch from now()) - $1::float8) / 3600)::int4 as by_clock) as clock";

const HORIZON: &str = "update totxegun.horizon set hours_from = $1::int4 where hours_from < $1::int4";

/// After a clock was ahead once, the horizon is in the future. It is moved back to the next hour, which was not deleted
/// and is whole.
const NOT_AHEAD: &str = "update totxegun.horizon set hours_from = next_hour
    from (select floor(extract(epoch from now()) / 3600)::int4 + 1 as next_hour) as clock where hours_from > next_hour";

/// Deletes some of the old rows of a table.
fn some_of(table: &str, are_old: &str) -> String {
    format!(
        "delete from totxegun.{table} where ctid = any(array(
            select ctid from totxegun.{table} where {are_old} limit $2::int8
        ))"
    )
}

/// Whether a row's time is before this hour, in the form that the index has.
fn is_before(time: &str) -> String {
    format!("to_timestamp({time}::double precision) < to_timestamp($1::int4 * 3600::double precision)")
}

/// Empties the last hour of series that nobody posts to any more. A row that a request has just locked is left for
/// later.
const LAST: &str = "with old as (
        select series from totxegun.series_totals
        where hour < $1::int4 and (points > before_points or hour_adjustments is not null)
        order by series limit $2::int8 for no key update skip locked
    )
    update totxegun.series_totals as t set before_points = points, before_total = total, before_count = count,
        before_without_sum = without_sum, before_buckets = buckets, hour_adjustments = null
    from old where old.series = t.series";

pub(super) async fn delete(client: &Client, kept: Option<Duration>) -> Result<(), Error> {
    let Some(kept) = kept else {
        return Ok(());
    };
    client.execute(NOT_AHEAD, &[]).await?;
    let from: i32 = client.query_one(FROM, &[&kept.as_secs_f64()]).await?.get(0);
    client.execute(HORIZON, &[&from]).await?;
    let steps = [
        some_of("past_hours", &is_before("hour * 3600")),
        LAST.into(),
        some_of("past_days", &is_before("day * 86400")), // these are in no view any more
        some_of("metric_hours", "hour < $1::int4"),
        some_of("late_hours", "hour < $1::int4"),
        some_of("long_intervals", "hour < $1::int4"),
    ];
    for step in &steps {
        while client.execute(step, &[&from, &STEP]).await? == STEP as u64 {}
    }
    Ok(())
}
