//! Tests what begins after `totxegun rewind` has moved the end of a series back, although the sink has points of a
//! clock that was ahead.

use super::model::both;
use super::server::{histogram, sum, Server};
use super::{open, refused, taken};
use totxegun::otlp::series::SeriesKey;
use totxegun::sink::Rewind;

const MINUTE: u64 = 60_000_000_000;
const HOUR: u64 = 60 * MINUTE;
/// A correct interval ends here.
const BEGIN: u64 = 500_000 * HOUR + 55 * MINUTE;

pub fn key(name: &str) -> SeriesKey {
    match name {
        "h" => key_of("h\",\"ms", "[-5,10]", "[]"),
        name => key_of(&format!("{name}\",\"1"), "\"sum\"", r#"[{"key":"k","value":{"stringValue":"v"}}]"#),
    }
}

pub fn rewind(names: &[&str], to: u64) -> String {
    let series: Vec<SeriesKey> = names.iter().map(|name| key(name)).collect();
    let [body] = &Rewind::requests(&series, to)[..] else { panic!("several requests") };
    String::from_utf8(body.clone()).unwrap()
}

fn key_of(name_and_unit: &str, kind: &str, attributes: &str) -> SeriesKey {
    SeriesKey(format!(r#"[[],"s","1",[],"{name_and_unit}",{kind},{attributes}]"#).into())
}

/// Bodies for `a` and a histogram, each of ten minutes.
fn bodies(start: u64) -> [String; 2] {
    let end = start + 10 * MINUTE;
    [sum("a", start, end, 1), histogram("h", start, end, Some(3), [2, 1, 0])]
}

/// Each request comes twice, as after a kill before its acknowledgement, and the sink is opened again in between.
#[tokio::test(flavor = "multi_thread")]
async fn what_begins_behind_a_rewind_counts_once_whatever_was_ahead() {
    let server = Server::start();
    for database in both(&server) {
        let address = database.address();
        let mut number = 0;
        let mut bring = async |body: String| {
            number += 1;
            for _ in 0..2 {
                taken(&*open(&address), number, body.clone()).await;
            }
        };
        let right = bodies(BEGIN - 10 * MINUTE);
        // Two hours ahead, for half an hour.
        let ahead = (0..3).flat_map(|step| bodies(BEGIN + 2 * HOUR + step * 10 * MINUTE));
        let others = [sum("b", BEGIN, BEGIN + 3 * HOUR, 7)];
        for body in right.into_iter().chain(ahead).chain(others) {
            bring(body).await;
        }
        bring(rewind(&["a", "h", "c"], BEGIN)).await;
        for step in 0..24 {
            for body in bodies(BEGIN + step * 10 * MINUTE) {
                bring(body).await;
            }
        }
        let totals = database.ask("select name, points, total, count from t.totals order by name");
        assert_eq!(totals, "a|28|28|\nb|1|7|\nh|28|84|56");
        let hours = database.ask(
            "select name, HOUR(hour)/H - 500000, points, total from t.by_hour where name <> 'b' order by 1, 2",
        );
        let of = |name, value: i64| {
            let points = [1, 6, 6, 9, 6];
            let line =
                move |(hour, points): (usize, i64)| format!("{name}|{hour}|{points}|{}", points * value);
            points.into_iter().enumerate().map(line)
        };
        assert_eq!(hours, of("a", 1).chain(of("h", 3)).collect::<Vec<_>>().join("\n"));
        assert_eq!(
            database.ask("select name, sum(points) from t.by_day group by 1 order by 1"),
            "a|28\nb|1\nh|28"
        );
        // Points that begin before the end of the series are left out as ever.
        let sink = open(&address);
        for body in [
            sum("a", BEGIN - MINUTE, BEGIN + MINUTE, 1),
            sum("a", BEGIN + 15 * MINUTE, BEGIN + 16 * MINUTE, 1),
            sum("b", BEGIN + MINUTE, BEGIN + 2 * MINUTE, 1),
        ] {
            number += 1;
            refused(&*sink, number, body, "is not added").await;
        }
    }
}

/// A sink that was down gets the rewind in order. If it has nothing of the series, the rewind changes nothing.
#[tokio::test(flavor = "multi_thread")]
async fn a_rewind_of_what_is_not_there_changes_nothing() {
    let server = Server::start();
    for database in both(&server) {
        let sink = open(&database.address());
        taken(&*sink, 1, rewind(&["a"], BEGIN)).await;
        taken(&*sink, 2, sum("a", BEGIN - 2 * HOUR, BEGIN - HOUR, 1)).await;
        taken(&*sink, 3, rewind(&["a"], BEGIN)).await;
        refused(&*sink, 4, sum("a", BEGIN - 2 * HOUR, BEGIN, 1), "is not added").await;
        refused(&*sink, 3, rewind(&["a"], BEGIN - 1), "key is that of another").await;
        assert_eq!(database.ask("select points, total from t.totals"), "1|1");
    }
}
