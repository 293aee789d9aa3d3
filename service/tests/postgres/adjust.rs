//! Tests adjustments by hand and of late data, in both sinks.

use crate::model::{both, Counted, Database, Model};
use crate::open;
use crate::periods::{done, not_done, now, period};
use crate::points::{Random, HOUR};
use crate::server::{sum, Server};
use crate::taken;
use totxegun::otlp::series::{forwarded, SeriesKey};
use totxegun::sink::periods::{Adjustment, PeriodAction, PeriodOutcome, Which};
use totxegun::sink::sql::totals::SeriesTotal;
use totxegun::sink::Sink;

pub fn by_hand(series: Which, hour: u64, value: i64, reason: &str) -> Adjustment {
    let (hour, reason) = (period(hour, 1), reason.to_string());
    Adjustment { series, hour, value, reason, late_key: String::new(), is_dry: false }
}

/// Adjusts by hand or books late data, in any hour, even if the sink has no row of it; each once, however often it is
/// asked for.
pub async fn adjust(
    model: &mut Model,
    sink: &dyn Sink,
    database: &Database<'_>,
    random: &mut Random,
    now: u64,
) {
    let all: Vec<_> = model.taken.iter().copied().collect();
    let Some((name, _)) = all.get(random.below(60) as usize).copied() else {
        return;
    };
    let series = database.ask(&format!("select id from t.series where name = '{name}'"));
    let (hour, value) = (now - random.below(100), random.below(2001) as i64 - 1000);
    model.corrected += 1;
    let is_late = random.below(2) == 0;
    let adjustment = Adjustment {
        series: Which::Number(series.parse().unwrap()),
        hour: period(hour, 1),
        value: if value == 0 { 1 } else { value },
        // Late points may have the same reason.
        reason: if is_late { "late".into() } else { format!("reason {}", model.corrected) },
        late_key: if is_late { format!("{:016x}", model.corrected) } else { String::new() },
        is_dry: false,
    };
    let counted = Counted { adjustments: adjustment.value, ..Counted::default() };
    model.add(name, hour, now, &counted);
    let dry = PeriodAction::Adjust(Adjustment { is_dry: true, ..adjustment.clone() });
    let told = done(sink, dry).await;
    assert!(told.starts_with("nothing is done"), "{told}");
    for _ in 0..1 + random.below(2) {
        done(sink, PeriodAction::Adjust(adjustment.clone())).await;
    }
    // The same late data with another reason is no other adjustment.
    let again = Adjustment { reason: "again".into(), ..adjustment };
    if is_late {
        let told = done(sink, PeriodAction::Adjust(again)).await;
        assert!(told.contains("is booked already, by alice"), "{told}");
    }
}

/// A series is found by its identity or by its number, and adjusted in an hour that has no row.
#[tokio::test(flavor = "multi_thread")]
async fn a_series_is_adjusted_by_its_identity() {
    let server = Server::start();
    for database in both(&server) {
        let sink = open(&database.address());
        let hour = now() - 30;
        let request = sum("a", hour * HOUR, hour * HOUR + 1, 5);
        let key: SeriesKey = forwarded(request.as_ref()).unwrap()[0].series.clone();
        let other = SeriesKey(key.0.replace("\"a\"", "\"b\"").into());
        taken(&*sink, 1, request).await;
        let identified = |key: &SeriesKey| Which::Identified(Box::new(SeriesTotal::of_none(key).unwrap()));
        let by_identity = |key: &SeriesKey, reason: &str| {
            PeriodAction::Adjust(by_hand(identified(key), hour - 3, -2, reason))
        };
        not_done(&*sink, by_identity(&other, "x"), "the sink has nothing of a series b yet").await;
        let told = done(&*sink, by_identity(&key, "x")).await;
        assert!(told.starts_with("series 1 has -2 in "), "{told}");
        done(&*sink, by_identity(&key, "y")).await;
        let by_number = by_hand(Which::Number(1), hour - 3, -2, "x");
        let told = done(&*sink, PeriodAction::Adjust(by_number)).await;
        assert!(told.contains("is there already"), "{told}");
        let query =
            "select HOUR(hour)/H, points, total, adjustments, total_adjusted from t.by_hour order by 1";
        let wanted = format!("{}|0|0|-4|-4\n{hour}|1|5|0|5", hour - 3);
        assert_eq!(database.ask(query), wanted);
    }
}

/// Otherwise nobody would check whether the hour is deleted, or how much was adjusted so far.
#[tokio::test(flavor = "multi_thread")]
async fn nothing_is_adjusted_where_the_horizon_is_gone() {
    let server = Server::start();
    for database in both(&server) {
        let sink = open(&database.address());
        let hour = now() - 30;
        taken(&*sink, 1, sum("a", hour * HOUR, hour * HOUR + 1, 5)).await;
        database.ask("delete from t.horizon");
        let told = sink.apply("alice", &PeriodAction::Adjust(by_hand(Which::Number(1), hour, -2, "x"))).await;
        let named = "the table `horizon` has no row";
        assert!(matches!(&told, PeriodOutcome::Later(why) if why.contains(named)), "{told:?}");
        assert_eq!(database.ask("select count(*) from t.adjustments"), "0");
    }
}
