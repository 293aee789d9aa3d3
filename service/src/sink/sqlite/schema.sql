-- The schema of version 1. A whole number that an integer of SQLite can hold is an integer. A larger one (a time or a
-- count from 2^63 on) is a text of 20 digits, which SQLite sorts after all integers, so such columns have no type.
-- Totals may be larger still: a total is two integers, total = high * 1000000000000 + low, with 0 <= low <
-- 1000000000000.
--
-- TOTAL, COUNT_OF(..) and TOTAL_ADJUSTED of views are columns that `schema.rs` writes out: an integer, or a text if no
-- integer of SQLite holds it.
--
-- A text after `--` on the first line of a table or view, or on the line that begins a column, goes into the table
-- `about`. A column without a text means what the last column of the same name above it means.

create table about ( -- What each table, view and column is
    name text not null, -- The name of the table or view
    column text not null, -- Empty if the row is about the table or view itself
    what text not null, -- What it is
    primary key (name, column)
) without rowid;

create table sink ( -- One row: the identity of this file
    id text not null -- Drawn at random when the file is made
);
insert into sink values (lower(hex(randomblob(16))));

create table requests ( -- A row for each request that was taken. It stays for ever, so that its key is never taken again
    id integer primary key, -- Its number, in the order in which requests were taken
    shard integer not null, -- With epoch and number, the key of the request
    epoch text not null, -- Drawn at random when the folder of the service is made
    number not null, -- The number of the request, in the order in which the service made them
    taken_at integer not null, -- When the file took the request, in seconds since 1970
    points integer not null, -- How many of its points were added
    digest blob not null, -- SHA-256 of the body, which distinguishes a repeat from another request
    left_out text, -- Points that were not added, as a JSON array: for each its index in the request, from 0, and the end that its series had, in nanoseconds since 1970; null if all were added
    first_start_ns, -- The earliest start of its intervals, in nanoseconds since 1970; null if none are kept
    last_end_ns, -- The latest end of its intervals, in nanoseconds since 1970; null if none are kept
    unique (shard, epoch, number)
);
-- The intervals of a request are deleted together.
create index requests_by_end on requests (last_end_ns) where last_end_ns is not null;

create table series ( -- A row for each series
    id integer primary key, -- Its number in this file
    digest blob not null unique, -- SHA-256 of the identity: an index of long texts would be long
    identity text not null, -- All that identifies the series, exactly, as JSON: [resource,scope name,version,attributes,name,unit,kind,attributes]
    name text not null, -- The name of the metric
    unit text not null, -- The unit of the metric
    kind text not null check (kind in ('sum', 'histogram')), -- sum or histogram
    is_monotonic integer not null, -- 1 for a sum that never falls, else 0
    bounds text not null, -- For a histogram: the upper bounds of all buckets but the last, as a JSON array
    attributes text not null, -- The attributes of its points, as a JSON object with keys in order
    resource text not null, -- Attributes of the resource, as a JSON object
    scope_name text not null, -- The name of the library that counted
    scope_version text not null, -- The version of the library that counted
    scope_attributes text not null, -- The attributes of the library that counted, as a JSON object
    sender text -- The sender that posts it: the name that its certificate or token proves; without --client-ca and --tokens, the name that it gives itself, or -. Null if the service does not know it
);
create index series_by_name on series (name);

create table metrics ( -- A row for each name, kind and unit of series
    id integer primary key, -- Its number in this file
    name text not null, kind text not null, is_monotonic integer not null, unit text not null,
    unique (name, kind, is_monotonic, unit)
);

-- A life of a folder: its requests have no two overlapping points of a series, unless the series was rewound between
-- them.
create table lives ( -- A row for each shard and epoch of keys
    id integer primary key, -- The life that their requests belong to: another one after a copy of the folder sent another request under a key
    shard integer not null, -- As in requests
    epoch text not null, -- As in requests
    unique (shard, epoch)
);

create table rewinds ( -- A row for each series that an order has rewound or forgotten
    shard integer not null, epoch text not null,
    digest blob not null, -- As in series
    number not null, -- The number of the last request that did so: points of requests with lower numbers are added only from the end of the series on
    primary key (shard, epoch, digest)
) without rowid;

create table series_totals ( -- The sums of all intervals of a series, with those that were deleted
    series integer primary key references series, -- The series: series.id
    points integer not null, -- How many intervals; they come from flushes, and are not the points that senders posted
    first_start_ns not null, -- The first start, in nanoseconds since 1970
    last_end_ns not null, -- The last end, in nanoseconds since 1970
    total_high integer not null, -- total = total_high * 1000000000000 + total_low, exactly: the sum of the values; for a histogram, of its sums
    total_low integer not null, -- From 0 to 999999999999
    count_high integer not null, -- The same for the count of a histogram
    count_low integer not null, -- From 0 to 999999999999
    without_sum integer not null, -- How many of the points had no sum, so that only the count has them
    buckets text, -- For a histogram: how many values each bucket has, as a JSON array
    life integer not null, -- The life whose request was added last in order
    floor_ns not null -- After this time there is only what that life has sent since the last rewind: a request of it that is sent again later adds what begins there or later
);

-- Times are short, since they are relative to the first start of their request. Rows are appended in the order in which
-- requests come.
create table interval_rows ( -- The rows of intervals, with times relative to those of their requests
    request integer not null references requests, -- The request that brought it
    series integer not null references series,
    after_ns not null, -- Its start, in nanoseconds after the first_start_ns of its request
    length_ns not null, -- The time from its start to its end, in nanoseconds
    value integer, -- For a sum: what was counted
    count, -- For a histogram: how many values
    sum, -- For a histogram: its sum; null if the point had none
    buckets text,
    primary key (request, series, after_ns)
) without rowid;

create view intervals ( -- A row for each point: what was counted from its start to its end; kept for --keep-intervals
    request, series,
    start_ns, -- What was counted after this time, in nanoseconds since 1970
    end_ns, -- What was counted up to this time, in nanoseconds since 1970. From the year 2262 on it is a fraction: interval_rows is exact
    value, count, sum, buckets
) as select request, series, first_start_ns + after_ns, first_start_ns + after_ns + length_ns, value, count, sum, buckets
from requests cross join interval_rows on interval_rows.request = requests.id;

-- Hours, days and months beside the intervals, written in the transaction that takes a request. An interval counts in
-- the hour in which it ends; if it ends at a full hour, in the hour before. Series of one metric lie together, so a
-- query for a metric reads only its rows.
create table hours ( -- What a series counted in an hour of UTC; kept for --keep-hours
    hour integer not null, -- Hours since 1970
    metric integer not null references metrics, -- The metric: metrics.id
    series integer not null references series, points integer not null,
    total_high integer not null, total_low integer not null, count_high integer not null, count_low integer not null,
    without_sum integer not null, buckets text,
    adjustments integer not null default 0, -- The sum of the adjustments that count in it
    primary key (hour, metric, series)
) without rowid;

create table days ( -- What a series counted in a day of UTC; kept for --keep-hours
    day integer not null, -- Days since 1970
    metric integer not null references metrics, series integer not null references series, points integer not null,
    total_high integer not null, total_low integer not null, count_high integer not null, count_low integer not null,
    without_sum integer not null, buckets text, adjustments integer not null default 0,
    primary key (day, metric, series)
) without rowid;

create table months ( -- What a series counted in a month of UTC; kept for --keep-hours
    month integer not null, -- Months since 1970
    metric integer not null references metrics, series integer not null references series, points integer not null,
    total_high integer not null, total_low integer not null, count_high integer not null, count_low integer not null,
    without_sum integer not null, buckets text, adjustments integer not null default 0,
    primary key (month, metric, series)
) without rowid;

create table metric_hours ( -- What all series of a metric counted in an hour of UTC; kept for --keep-hours
    hour integer not null, metric integer not null references metrics, points integer not null,
    total_high integer not null, total_low integer not null, count_high integer not null, count_low integer not null,
    adjustments integer not null default 0,
    primary key (hour, metric)
) without rowid;

-- A view that is queried by these texts reads only the rows of that time. What is to be deleted is removed here first,
-- so no view has a part of it. Views begin with these tables, and `cross join` keeps that order.
create table utc_hours ( -- How an hour is written. An hour that is not here is in no view
    hour integer primary key,
    at text not null unique -- 2026-11-27 13:00Z
);
create table utc_days ( -- How a day is written. A day that is not here is in no view
    day integer primary key,
    at text not null unique -- 2026-11-27
);
create table utc_months ( -- How a month is written. A month that is not here is in no view
    month integer primary key,
    at text not null unique -- Its first day: 2026-11-01
);

create table horizon ( -- One row: how far back the file goes
    hours_from integer not null -- Hours, days and months that ended by this hour were deleted
);
insert into horizon values (0);

create table closed_periods ( -- A row for each closed period: points that come for it later count in another hour
    from_hour integer not null, -- The first hour of the period, in hours since 1970
    to_hour integer not null, -- The hour after the last one of the period
    period text not null, -- The period as it was written: 2026-11
    who text not null, -- Who closed it
    closed_at integer not null default (cast(strftime('%s', 'now') as integer)), -- When it was closed, in seconds since 1970
    primary key (from_hour, to_hour)
) without rowid;

create table late_hours ( -- What came for an hour that was closed. It is also counted in the row of another hour
    series integer not null references series, -- The series: series.id
    of_hour integer not null, -- The hour to which it belongs, in hours since 1970
    hour integer not null, -- The hour in which it is counted
    points integer not null,
    total_high integer not null, total_low integer not null, count_high integer not null, count_low integer not null,
    without_sum integer not null, buckets text,
    primary key (series, of_hour, hour)
) without rowid;
create index late_by_hour on late_hours (hour);

create table long_intervals ( -- A row for each interval of over an hour: all that it counted is in the hour in which it ends; kept for --keep-hours
    id integer primary key, -- Its number, in the order in which they were taken
    series integer not null references series, -- The number of its series
    hour integer not null, -- The hour in which it is counted, in hours since 1970
    start_ns not null, -- Its start, in nanoseconds since 1970
    end_ns not null, -- Its end, in nanoseconds since 1970
    value -- What was counted; for a histogram its sum, null if the point had none
);
create index long_intervals_by_hour on long_intervals (hour);

create table adjustments ( -- A row for each adjustment, by hand or of late data. It changes nothing that was counted
    id integer primary key, -- Its number, in the order in which they were made
    series integer not null references series, of_hour integer not null,
    hour integer not null, -- The hour in which it counts: a later one if its own was closed
    value integer not null, -- What is added, which may be negative
    reason text not null, -- The reason that was given
    late_key text not null, -- The key of the late data that it books; empty if there is none
    who text not null, -- Who made it
    made_at integer not null default (cast(strftime('%s', 'now') as integer)), -- When it was made, in seconds since 1970
    unique (series, of_hour, value, reason, late_key)
);
create unique index adjustment_of_late_data on adjustments (late_key) where late_key <> '';

-- Views with a row for each series and time. The columns of the series itself are looked up only if a query asks for
-- them.
create view by_hour ( -- What each series counted in each hour
    hour, -- Its beginning, as a time of UTC: 2026-11-27 13:00Z
    name, -- The name of the metric
    attributes, -- The attributes of its points, as a JSON object
    kind, -- sum or histogram
    is_monotonic, -- 1 for a sum that never falls, else 0
    unit, -- The unit of the metric
    points,
    total, -- What was counted; for a histogram, its sum. A text if no integer of SQLite holds it
    count, -- For a histogram: how many values. A text if no integer of SQLite holds it
    buckets, resource, scope_name, scope_version, scope_attributes,
    series, -- The number of the series: series.id
    adjustments, -- The sum of the adjustments
    total_adjusted -- total + adjustments. A text if no integer of SQLite holds it
) as select at, metrics.name, attributes, metrics.kind, metrics.is_monotonic, metrics.unit, points, TOTAL, COUNT_OF(metrics.kind), buckets,
    resource, scope_name, scope_version, scope_attributes, of.series, adjustments, TOTAL_ADJUSTED
from utc_hours cross join metrics cross join hours as of on of.hour = utc_hours.hour and of.metric = metrics.id
left join series on series.id = of.series;

create view by_day ( -- What each series counted in each day of UTC
    day, -- 2026-11-27
    name, attributes, kind, is_monotonic, unit, points, total, count, buckets, resource, scope_name, scope_version, scope_attributes, series,
    adjustments, total_adjusted
) as select at, metrics.name, attributes, metrics.kind, metrics.is_monotonic, metrics.unit, points, TOTAL, COUNT_OF(metrics.kind), buckets,
    resource, scope_name, scope_version, scope_attributes, of.series, adjustments, TOTAL_ADJUSTED
from utc_days cross join metrics cross join days as of on of.day = utc_days.day and of.metric = metrics.id
left join series on series.id = of.series;

create view by_month ( -- What each series counted in each month of UTC
    month, -- Its first day: 2026-11-01
    name, attributes, kind, is_monotonic, unit, points, total, count, buckets, resource, scope_name, scope_version, scope_attributes, series,
    adjustments, total_adjusted
) as select at, metrics.name, attributes, metrics.kind, metrics.is_monotonic, metrics.unit, points, TOTAL, COUNT_OF(metrics.kind), buckets,
    resource, scope_name, scope_version, scope_attributes, of.series, adjustments, TOTAL_ADJUSTED
from utc_months cross join metrics cross join months as of on of.month = utc_months.month and of.metric = metrics.id
left join series on series.id = of.series;

create view totals_by_hour as -- What all series of a name, kind and unit counted in each hour
select at as hour, name, kind, is_monotonic, unit, points, TOTAL, COUNT_OF(kind), adjustments, TOTAL_ADJUSTED
from utc_hours cross join metric_hours on metric_hours.hour = utc_hours.hour
cross join metrics on metrics.id = metric_hours.metric;

create view totals ( -- What each series counted, in all
    name, attributes, kind, is_monotonic, unit, points, total, count,
    bounds, -- For a histogram: the upper bounds of all buckets but the last, as a JSON array
    buckets, without_sum,
    first_start, -- The first start, as a time of UTC: 2026-11-27 13:00:15Z
    last_end, -- The last end, as a time of UTC: 2026-11-27 13:00:15Z
    resource, scope_name, scope_version, scope_attributes, series, adjustments, total_adjusted
) as select name, attributes, kind, is_monotonic, unit, points, TOTAL, COUNT_OF(kind), bounds, buckets, without_sum,
    strftime('%Y-%m-%d %H:%M:%SZ', first_start_ns / 1000000000, 'unixepoch'), strftime('%Y-%m-%d %H:%M:%SZ', last_end_ns / 1000000000, 'unixepoch'),
    resource, scope_name, scope_version, scope_attributes, series, adjustments, TOTAL_ADJUSTED
from (
    select series_totals.*, (select coalesce(sum(value), 0) from adjustments where adjustments.series = series_totals.series)
        as adjustments
    from series_totals
) join series on series.id = series;

create view totals_by_name ( -- What all series of a name, kind and unit counted, in all
    name, kind, is_monotonic, unit,
    series, -- How many series
    points, total, count, adjustments, total_adjusted
) as select name, kind, is_monotonic, unit, series, points, TOTAL, COUNT_OF(kind), adjustments, TOTAL_ADJUSTED
from (
    select name, kind, is_monotonic, unit, count(*) as series, sum(points) as points,
        sum(total_high) + sum(total_low) / 1000000000000 as total_high,
        sum(total_low) % 1000000000000 as total_low,
        sum(count_high) + sum(count_low) / 1000000000000 as count_high,
        sum(count_low) % 1000000000000 as count_low,
        sum((select coalesce(sum(value), 0) from adjustments where adjustments.series = series.id)) as adjustments
    from series_totals join series on series.id = series_totals.series group by name, kind, is_monotonic, unit
);

-- A count that no integer of SQLite holds is a text, as it is written in the list.
create view buckets ( -- A row for each bucket of a histogram, with its total count
    series, -- The number of the series: series.id
    name, attributes,
    lower_bound, -- Values in the bucket are greater than this; null in the first bucket
    upper_bound, -- Values in the bucket are not greater than this; null in the last bucket
    count -- How many values
) as select series.id, name, attributes,
    case when key > 0 then json_extract(bounds, '$[' || (key - 1) || ']') end,
    json_extract(bounds, '$[' || key || ']'),
    case typeof(value) when 'integer' then value else buckets -> ('$[' || key || ']') end
from series_totals join series on series.id = series_totals.series join json_each(buckets);

-- Rows of an hour are deleted one after another, after the horizon has moved past them; so an hour is here whole or not
-- at all.
create view late ( -- What came for closed hours, and adjustments of them. The rows of by_hour include it
    hour, -- The hour in which it is counted: 2026-12-03 05:00Z
    belongs_to, -- The hour to which it belongs: 2026-11-30 23:00Z
    name, attributes, kind, is_monotonic, unit, points, total,
    count, -- For a histogram: how many values. A text if no integer of SQLite holds it
    buckets, resource, series,
    adjustments, -- For an adjustment: its value
    total_adjusted
) as select strftime('%Y-%m-%d %H:00Z', hour * 3600, 'unixepoch'), strftime('%Y-%m-%d %H:00Z', of_hour * 3600, 'unixepoch'),
    name, attributes, kind, is_monotonic, unit, points, TOTAL, COUNT_OF(kind), buckets, resource, series, adjustments, TOTAL_ADJUSTED
from (
    select series, of_hour, hour, points, total_high, total_low, count_high, count_low, buckets, 0 as adjustments
    from late_hours
    union all
    select series, of_hour, hour, 0, 0, 0, 0, 0, null, value from adjustments where hour <> of_hour
) join series on series.id = series
where hour >= (select hours_from from horizon);

create view series_seen ( -- When each series was seen, by its intervals; when it was posted is not known here
    series, name, attributes, kind, is_monotonic, unit, resource, first_start,
    last_end -- The last end, as a time of UTC: 2026-11-27 13:00:15Z
) as select series, name, attributes, kind, is_monotonic, unit, resource,
    strftime('%Y-%m-%d %H:%M:%SZ', first_start_ns / 1000000000, 'unixepoch'), strftime('%Y-%m-%d %H:%M:%SZ', last_end_ns / 1000000000, 'unixepoch')
from series_totals join series on series.id = series_totals.series;

create view resources_seen ( -- A row for each resource that was counted. The names by which senders post (x-sender) are not in it
    service, -- Its service.name
    instance, -- Its service.instance.id
    resource, -- Its attributes, as a JSON object
    series, -- How many series
    first_start, last_end
) as select resource ->> '$."service.name"', resource ->> '$."service.instance.id"', resource, count(*),
    strftime('%Y-%m-%d %H:%M:%SZ', min(first_start_ns) / 1000000000, 'unixepoch'), strftime('%Y-%m-%d %H:%M:%SZ', max(last_end_ns) / 1000000000, 'unixepoch')
from series_totals join series on series.id = series_totals.series group by resource;
