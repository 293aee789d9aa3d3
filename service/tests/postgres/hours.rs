//! Tests that hours are the sums of intervals, in whatever order requests come.

use crate::model::both;
use crate::points::{body, lines, value, Point, Random, Value, HOUR};
use crate::server::{sum, Server};
use crate::{open, refused, request, taken};
use totxegun::sink::DeliveryOutcome;

/// 2024-02-29, a leap day, at 20:00; and the end of that month.
const FIRST: u64 = 1_709_236_800_000_000_000;
const MARCH: u64 = 1_709_251_200_000_000_000;

/// Intervals of several services, one after another. They never overlap, and span ten hours; some are longer than an
/// hour, and some end with an hour.
fn spans(random: &mut Random) -> Vec<Point> {
    let mut all = Vec::new();
    for name in ["a", "b", "h", "hh"] {
        let mut start = FIRST + random.below(HOUR);
        while start < FIRST + 10 * HOUR {
            let end = match random.below(8) {
                0 => (start / HOUR + 1) * HOUR,
                1 => start + 1 + random.below(2 * HOUR),
                _ => start + 1 + random.below(HOUR / 10),
            };
            let value = value(name, random);
            all.push(Point { name: name.into(), start, end, value });
            start = end + random.below(3).saturating_sub(1) * random.below(HOUR / 5);
        }
    }
    all
}

const BY_HOUR: &str =
    "select name, hour, hours.points, hours.total, hours.count, hours.without_sum, hours.buckets
    from totxegun.hours join totxegun.series on series.id = hours.series order by 1, 2";

/// The query of a view, which has no `without_sum`, and no count for sums.
fn view(of: &str) -> String {
    format!(
        "select name, to_char({of} at time zone 'UTC', 'YYYY-MM-DD'), points, total, coalesce(count, 0), 0, buckets \
         from totxegun.by_{of} order by 1, 2"
    )
}

fn without_sums(lines: String) -> String {
    let line = |line: &str| {
        let mut parts: Vec<&str> = line.split('|').collect();
        parts[5] = "0";
        parts.join("|")
    };
    lines.lines().map(line).collect::<Vec<String>>().join("\n")
}

#[tokio::test(flavor = "multi_thread")]
async fn hours_days_and_months_are_the_sums_of_spans() {
    let Some(server) = Server::start() else { return };
    for seed in 1..4 {
        let database = format!("seed{seed}");
        server.ask(&format!("create database {database}"));
        let services = [(); 2].map(|()| open(&server.by_socket(&database)));
        let mut random = Random(seed);
        let all = spans(&mut random);
        let mut order: Vec<usize> = (0..all.len()).collect();
        // They are sent as dead letters: most in the order of their times, and some much later.
        taken(&*services[0], 1_000_000, body(&[])).await;
        order.sort_by_cached_key(|place| all[*place].end + random.below(5) / 4 * random.below(4 * HOUR));
        for (number, part) in (0..).zip(order.chunks(7)) {
            let part: Vec<Point> = part.iter().map(|place| all[*place].clone()).collect();
            let sink = &services[random.below(2) as usize];
            for _ in 0..1 + random.below(2) {
                taken(&**sink, number, body(&part)).await;
            }
            refused(&**sink, 2_000_000 + number, body(&part), "is not added").await;
        }
        let ask = |query: &str| server.ask_of(&database, query);
        assert_eq!(ask(BY_HOUR), lines(&all, |ns| (ns / HOUR).to_string()));
        let days = lines(&all, |ns| if ns < MARCH { "2024-02-29" } else { "2024-03-01" }.into());
        assert_eq!(ask(&view("day")), without_sums(days));
        let months = lines(&all, |ns| if ns < MARCH { "2024-02-01" } else { "2024-03-01" }.into());
        assert_eq!(ask(&view("month")), without_sums(months));
        let both = "select name, hour, sum(total), sum(count), sum(points) from totxegun.by_hour group by 1, 2 order by 1, 2";
        assert_eq!(ask(both), ask(&both.replace("by_hour", "totals_by_hour")));
        assert_eq!(ask("select count(*) from totxegun.intervals"), all.len().to_string());
    }
}

#[tokio::test(flavor = "multi_thread")]
async fn a_span_counts_in_the_hour_of_its_last_nanosecond() {
    let Some(server) = Server::start() else { return };
    let sink = open(&server.by_socket("postgres"));
    for (number, (start, end)) in
        [(MARCH - 9, MARCH), (MARCH, MARCH + 1), (MARCH + 1, MARCH + HOUR)].into_iter().enumerate()
    {
        taken(&*sink, number as u64, sum("a", start, end, 1)).await;
    }
    for (view, found) in [
        ("by_hour", "2024-02-29 23:00|1\n2024-03-01 00:00|2"),
        ("totals_by_hour", "2024-02-29 23:00|1\n2024-03-01 00:00|2"),
    ] {
        let query = format!(
            "select to_char(hour at time zone 'UTC', 'YYYY-MM-DD HH24:MI'), total from totxegun.{view} order by 1"
        );
        assert_eq!(server.ask(&query), found, "{view}");
    }
    // There was a leap second at the end of 2016, which times since 1970 don't count.
    const LEAP: u64 = 1_483_228_800_000_000_000;
    for (number, (start, end)) in (20..).zip([(LEAP - 9, LEAP), (LEAP, LEAP + 9)]) {
        taken(&*sink, number, sum("leap", start, end, 1)).await;
    }
    let leap = "select to_char(hour at time zone 'UTC', 'YYYY-MM-DD HH24:MI') from totxegun.by_hour
        where name = 'leap' order by 1";
    assert_eq!(server.ask(leap), "2016-12-31 23:00\n2017-01-01 00:00");
    let buckets = "select lower_bound, upper_bound, count from totxegun.buckets order by upper_bound";
    taken(&*sink, 9, crate::server::histogram("h", 1, 2, Some(3), [7, 0, 2])).await;
    assert_eq!(server.ask(buckets), "|-5|7\n-5|10|0\n10||2");
}

/// In order, a point has to begin at the end of its series or later, wherever that is.
#[tokio::test(flavor = "multi_thread")]
async fn what_begins_before_its_series_ends_is_left() {
    let server = Server::start();
    for database in both(&server) {
        let sink = open(&database.address());
        let mut number = 0;
        for base in [FIRST, 1 << 40, (1 << 63) - HOUR, u64::MAX - 40 * HOUR] {
            let (mut random, mut end, mut taken) = (Random(base), base, 0);
            for _ in 0..60 {
                number += 1;
                let start = end - HOUR / 4 + random.below(12) * (HOUR / 24);
                let next = start + 1 + random.below(4) * (HOUR / 24);
                let fate = sink.deliver(&request(number, sum(&format!("a{base}"), start, next, 1))).await;
                match fate {
                    DeliveryOutcome::Taken if taken == 0 || start >= end => {
                        (end, taken) = (next, taken + 1);
                    }
                    DeliveryOutcome::Refused { reason } if start < end => {
                        assert!(reason.contains(&format!("has points until {end}")), "{reason}")
                    }
                    other => panic!("({start}, {next}] behind {end}: {other:?}"),
                }
            }
            assert!((12..50).contains(&taken), "{taken}");
        }
    }
}

/// No request reads an hour while another one writes it.
#[tokio::test(flavor = "multi_thread")]
async fn services_that_share_series_write_one_hour() {
    let Some(server) = Server::start() else { return };
    let address = server.by_socket("postgres");
    let services = (0..3).map(|service| {
        let sink = open(&address);
        tokio::spawn(async move {
            let mut points = Vec::new();
            for round in 0..40u64 {
                let start = FIRST + (3 * round + service) * HOUR / 10;
                let point = |name: &str| Point {
                    name: name.into(),
                    start,
                    end: start + HOUR / 10,
                    value: value(name, &mut Random(start)),
                };
                let part = [point("a"), point("h")];
                let mut request = request(round, body(&part));
                request.shard = service as u16;
                // Another service may have sent later points first.
                match sink.deliver(&request).await {
                    DeliveryOutcome::Taken => points.extend(part),
                    DeliveryOutcome::Refused { reason } => {
                        assert!(reason.contains("is not added"), "{reason}")
                    }
                    other => panic!("{other:?}"),
                }
            }
            points
        })
    });
    let mut all = Vec::new();
    for service in services.collect::<Vec<_>>() {
        all.extend(service.await.expect("a service"));
    }
    assert_eq!(server.ask(BY_HOUR), lines(&all, |ns| (ns / HOUR).to_string()));
    assert!(matches!(all[0].value, Value::Sum(_)));
}
