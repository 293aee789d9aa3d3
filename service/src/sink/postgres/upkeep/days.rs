//! The partitions of `interval_rows`: each has the intervals that end in one day of UTC. One that ends at midnight is in
//! the day before.

use tokio_postgres::{Client, Error, GenericClient};

/// The days without a partition: from the day after the last that has one, at most 40 days ago, until three days ahead.
/// Partitions beyond that, which a clock that was ahead has made, do not count.
const MISSING: &str = "with known as (
        select max(to_date(right(relname, 8), 'YYYYMMDD')) as last, (now() at time zone 'UTC')::date as today
        from pg_class join pg_namespace on pg_namespace.oid = relnamespace
        where nspname = 'totxegun' and relkind = 'r' and relname ~ '^interval_[0-9]{8}$'
            and relname <= 'interval_' || to_char((now() at time zone 'UTC')::date + 3, 'YYYYMMDD')
    )
    select to_char(day, 'YYYYMMDD'), extract(epoch from day)::int8 * 1000000000 + 1 from known,
        generate_series(greatest(coalesce(last + 1, today - 1), today - 40)::timestamp, today + 3, '1 day') as day";

/// In nanoseconds.
const DAY: i64 = 86_400_000_000_000;

/// The most intervals that are moved into a partition that is made after them.
const MOVED: i64 = 100_000;

/// Updates the index of the hours and days that were written last: a query by time reads all pages that are not in it.
const SUMMARIZE: &str = "select brin_summarize_new_values(indexrelid) from pg_index
    join pg_class as one on one.oid = indexrelid join pg_am on pg_am.oid = one.relam
    join pg_namespace on pg_namespace.oid = one.relnamespace where nspname = 'totxegun' and amname = 'brin'";

pub(in super::super) async fn make(client: &mut impl GenericClient) -> Result<(), Error> {
    for row in client.query(MISSING, &[]).await? {
        make_one(client, row.get(0), row.get(1)).await?;
    }
    Ok(())
}

/// Makes a partition, and moves the day's intervals into it. If there are too many, they stay among the others, and the
/// day gets no partition.
async fn make_one(client: &mut impl GenericClient, day: &str, from: i64) -> Result<(), Error> {
    let (to, name) = (from + DAY, format!("totxegun.interval_{day}"));
    let of_day = format!("totxegun.interval_other where end_ns >= {from} and end_ns < {to}");
    let transaction = client.transaction().await?;
    let make = format!(
        "lock table totxegun.interval_other in access exclusive mode;
        create table {name} (like totxegun.interval_rows including comments);
        comment on table {name} is 'The intervals that end on this day';
        create index on {name} using brin (end_ns, start_ns) with (pages_per_range = 32, autosummarize = on);
        insert into {name} select * from {of_day} limit {MOVED} + 1"
    );
    transaction.batch_execute(&make).await?;
    let count = format!("select count(*) from {name}");
    if transaction.query_one(&count, &[]).await?.get::<_, i64>(0) > MOVED {
        return transaction.rollback().await;
    }
    let attach = format!(
        "delete from {of_day};
        alter table totxegun.interval_rows attach partition {name} for values from ({from}) to ({to})"
    );
    transaction.batch_execute(&attach).await?;
    transaction.commit().await
}

pub(super) async fn summarize(client: &Client) -> Result<(), Error> {
    client.query(SUMMARIZE, &[]).await.map(drop)
}
