//! The statements of a request. Each carries all of its rows as one array, of values or of rows.
//!
//! None is a COPY: a server waits without end for the rest of a COPY's data, so a client that stalls would keep its
//! locks. With a thousand rows COPY is hardly faster.
//!
//! Locks are taken in one order, so that no two transactions wait for each other: the periods; the key; the life of its
//! shard and epoch, if it is new; the rows of new series, by their digests; those of their metrics; the rows of series
//! whose sender is noted now, by their numbers; the totals of series that were there, by their numbers; the hours of
//! metrics.

use crate::sink::sql::CLOSED;
use tokio_postgres::{Client, Error, Statement};

/// What is added to an hour `h` that is there.
macro_rules! added {
    () => {
        "points = h.points + excluded.points,
        total = h.total + excluded.total,
        count = h.count + excluded.count,
        without_sum = h.without_sum + excluded.without_sum,
        buckets = case when excluded.buckets is null then h.buckets else array(
            select coalesce(a, 0) + b from unnest(h.buckets, excluded.buckets)
                with ordinality as both_of(a, b, place) order by place
        ) end"
    };
}

/// The last hours of these series are over: writes down what they counted.
pub(super) const HOURS_OVER: &str =
    "insert into totxegun.past_hours (series, hour, points, total, count, without_sum, buckets, adjustments)
    select series, hour, points, total, count, without_sum, buckets, coalesce(adjustments, 0)
    from totxegun.last_hours where series = any($1::int8[]) and hour is not null";

macro_rules! statements {
    ($($(#[$doc:meta])* $name:ident: $text:expr,)*) => {
        /// Prepared once for a session.
        pub(super) struct Statements {
            $($(#[$doc])* pub(super) $name: Statement,)*
        }

        impl Statements {
            pub(super) async fn prepare(client: &Client) -> Result<Statements, Error> {
                Ok(Statements { $($name: client.prepare($text).await?,)* })
            }
        }
    };
}

statements! {
    /// All requests share this lock; a change of periods has it alone.
    hold_periods: "select pg_advisory_xact_lock_shared($1::int8)",
    /// Makes the rows of requests of one shard, in order. Fewer are returned if one was there; if another transaction
    /// has the same key, this waits for it. None is returned if the schema has another version. Each has the life of
    /// its shard and epoch.
    make_requests: "with made as (
            insert into totxegun.requests (shard, epoch, number, points, digest)
            select $1::int4, $2::text, new.number, new.points, new.digest
            from unnest($3::numeric[], $4::int8[], $5::bytea[]) as new(number, points, digest)
            join totxegun.version on version = $6::int4 order by new.number
            on conflict (shard, epoch, number) do nothing returning id
        )
        select made.id, (select id from totxegun.lives where shard = $1::int4 and epoch = $2::text)
        from made order by made.id",
    first_life: "insert into totxegun.lives (shard, epoch) values ($1::int4, $2::text)
        on conflict (shard, epoch) do update set epoch = excluded.epoch returning id",
    /// The life of an epoch that was seen before.
    life_of: "select id from totxegun.lives where shard = $1::int4 and epoch = $2::text",
    /// What a life has beyond a request, without those of one epoch: how many, and when the first and the last came.
    beyond: "select count(*),
            coalesce(to_char(min(taken_at), 'YYYY-MM-DD HH24:MI:SS'), ''), coalesce(to_char(max(taken_at), 'YYYY-MM-DD HH24:MI:SS'), '')
        from totxegun.lives join totxegun.requests on requests.shard = lives.shard and requests.epoch = lives.epoch
        where lives.shard = $1::int4 and lives.id = $2::int8 and requests.number > $3::numeric and lives.epoch <> $4::text",
    /// Notes that an epoch continues a life.
    go_on: "insert into totxegun.lives (shard, epoch, id) values ($1::int4, $2::text, $3::int8)",
    begin_life: "insert into totxegun.lives (shard, epoch) values ($1::int4, $2::text)
        on conflict (shard, epoch) do update set id = default",
    /// Whether a later request of the same life was there, and the indexes of series that a later one has rewound. The
    /// series must be locked: otherwise what is added to them meanwhile would not be seen.
    late: "with same as materialized (
            select epoch from totxegun.lives where shard = $1::int4
                and id = (select id from totxegun.lives where shard = $1::int4 and epoch = $2::text)
        )
        select exists (select from totxegun.requests
                where shard = $1::int4 and epoch in (select epoch from same) and number > $3::numeric),
            array(select place from unnest($4::bytea[]) with ordinality as wanted(digest, place)
                join totxegun.rewinds on rewinds.shard = $1::int4 and rewinds.epoch in (select epoch from same)
                    and rewinds.digest = wanted.digest and number > $3::numeric)",
    /// The locked row makes the commit a write, which waits for the standby.
    is_taken: "select digest, left_out from totxegun.requests
        where shard = $1::int4 and epoch = $2::text and number = $3::numeric for update",
    /// For a request of which not all points were added.
    set_left_out: "update totxegun.requests set points = $2::int8, left_out = $3::text where id = $1::int8",
    /// Makes the rows of new series, in the order of the array, which is that of their digests. One that another
    /// transaction has made is left and not returned; if another transaction is making one, this waits for it.
    make: "insert into totxegun.series (digest, identity, is_exact, name, name_json, unit, kind,
            is_monotonic, bounds, attributes, resource, scope_name, scope_version, scope_attributes, sender)
        select digest, identity, is_exact, name, name_json, unit, kind, is_monotonic, bounds, attributes, resource, scope_name,
            scope_version, scope_attributes, sender
        from unnest($1::totxegun.series[])
        on conflict (digest) do nothing returning digest, id, metric",
    /// Makes the rows of the metrics of new series.
    metrics: "insert into totxegun.metrics (id, name, kind, is_monotonic, unit)
        select distinct on (metric) metric, name, kind, is_monotonic, unit from totxegun.series
        where id = any($1::int8[]) order by metric
        on conflict (id) do nothing",
    /// Finds the series that are there. It locks nothing.
    find: "select wanted.place, series.id, series.metric, series.sender is null
        from unnest($1::bytea[]) with ordinality as wanted(digest, place)
        join totxegun.series on series.digest = wanted.digest",
    /// For series that were made before their sender was known.
    set_senders: "with unknown as (
            select series.id, sent.sender from unnest($1::int8[], $2::text[]) as sent(id, sender)
            join totxegun.series on series.id = sent.id where series.sender is null
            order by series.id for no key update of series
        )
        update totxegun.series set sender = unknown.sender from unknown where series.id = unknown.id",
    /// Locks the totals of these series: nobody else adds to them until the transaction ends.
    lock: "select wanted.place, cardinality(t.buckets), t.hour, t.life, t.floor_ns::text, t.last_end_ns::text
        from unnest($1::int8[]) with ordinality as wanted(series, place)
        join totxegun.series_totals as t on t.series = wanted.series
        order by t.series for no key update of t",
    intervals: "insert into totxegun.interval_rows select * from unnest($1::totxegun.interval_rows[])",
    /// For new series.
    first_totals: "insert into totxegun.series_totals select * from unnest($1::totxegun.series_totals[])",
    /// Adds to hours that are not the last ones of their series.
    past_hours: concat!(
        "insert into totxegun.past_hours as h select * from unnest($1::totxegun.past_hours[])
        on conflict (series, to_timestamp(hour * 3600::double precision)) do update set ",
        added!()
    ),
    /// Notes to which closed hours points belong, beside the hours in which they count.
    late_hours: concat!(
        "insert into totxegun.late_hours as h select * from unnest($1::totxegun.late_hours[])
        on conflict (series, of_hour, hour) do update set ",
        added!()
    ),
    long_intervals: "insert into totxegun.long_intervals select * from unnest($1::totxegun.long_intervals[])",
    metric_hours: "insert into totxegun.metric_hours as h select * from unnest($1::totxegun.metric_hours[])
        on conflict (metric, hour) do update set
            points = h.points + excluded.points, total = h.total + excluded.total, count = h.count + excluded.count",
    /// If a later hour begins, all that was counted so far is before it.
    totals: "update totxegun.series_totals as t set
            points = t.points + n.points,
            first_start_ns = least(t.first_start_ns, n.first_start_ns),
            last_end_ns = n.last_end_ns,
            total = t.total + n.total,
            count = t.count + n.count,
            without_sum = t.without_sum + n.without_sum,
            buckets = case when n.buckets is null then t.buckets else array(
                select a + b from unnest(t.buckets, n.buckets) with ordinality as both_of(a, b, place) order by place
            ) end,
            hour = n.hour,
            floor_ns = n.floor_ns,
            life = n.life,
            before_points = case when n.hour = t.hour then t.before_points else t.points end + n.before_points,
            before_total = case when n.hour = t.hour then t.before_total else t.total end + n.before_total,
            before_count = case when n.hour = t.hour then t.before_count else t.count end + n.before_count,
            before_without_sum = case when n.hour = t.hour then t.before_without_sum else t.without_sum end
                + n.before_without_sum,
            before_buckets = case
                when n.before_buckets is not null then array(
                    select coalesce(a, 0) + b
                    from unnest(case when n.hour = t.hour then t.before_buckets else t.buckets end, n.before_buckets)
                        with ordinality as both_of(a, b, place) order by place
                )
                when n.hour = t.hour then t.before_buckets
                else t.buckets
            end,
            hour_adjustments = case when n.hour = t.hour then t.hour_adjustments end
        from unnest($1::totxegun.series_totals[]) as n where t.series = n.series",
    /// Moves the ends of these series back, and notes the number of this request: what requests of lower numbers have
    /// for the series is recognised by it.
    rewind: "with noted as (
            insert into totxegun.rewinds as r (shard, epoch, digest, number)
            select distinct $4::int4, $5::text, digest, $6::numeric from unnest($1::bytea[]) as digest order by digest
            on conflict (shard, epoch, digest) do update set number = greatest(r.number, excluded.number)
        ), known as materialized (
            select t.series, least(t.last_end_ns, $2::numeric) as last_end_ns
            from totxegun.series join totxegun.series_totals as t on t.series = series.id
            where series.digest = any($1::bytea[]) order by t.series for no key update of t
        )
        update totxegun.series_totals as t
        set last_end_ns = known.last_end_ns, floor_ns = known.last_end_ns, life = $3::int8
        from known where t.series = known.series",
    /// Writes down another sender of these series.
    rename_sender: "with known as materialized (
            select id from totxegun.series where digest = any($1::bytea[]) order by id for no key update
        )
        update totxegun.series set sender = $2::text from known where series.id = known.id",
    /// The time that it is, and what is closed.
    closed: CLOSED,
    hours_over: HOURS_OVER,
}
