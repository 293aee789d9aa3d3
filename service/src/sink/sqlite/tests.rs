//! Tests what the file has after each request. Trouble around the file is in `trouble`; requests that are taken in part
//! are tested in `service/tests/postgres/main.rs`.

mod hours;
mod periods;
mod trouble;
mod upkeep;

use super::*;
use crate::sink::sql::exact::Exact;
use crate::sink::sql::reading;
use crate::sink::sql::totals::{Filter, SeriesTotal};
use crate::sink::Address;

fn forwarded(number: u64, body: String) -> Forwarded {
    Forwarded { shard: 0, epoch: "e".into(), number, body: body.into_bytes() }
}

fn metrics(metrics: &str) -> String {
    format!(
        r#"{{"resourceMetrics":[{{"resource":{{"attributes":[{{"key":"host","value":{{"stringValue":"h1"}}}}]}},"scopeMetrics":[{{"metrics":[{metrics}],"scope":{{"attributes":[],"name":"s","version":"1"}}}}]}}]}}"#
    )
}

fn sum_point(code: i64, start: u64, end: u64, value: i64) -> String {
    format!(
        r#"{{"asInt":"{value}","attributes":[{{"key":"code","value":{{"intValue":"{code}"}}}}],"startTimeUnixNano":"{start}","timeUnixNano":"{end}"}}"#
    )
}

fn sum_of(name: &str, points: &[String]) -> String {
    let points = points.join(",");
    format!(
        r#"{{"name":"{name}","sum":{{"aggregationTemporality":1,"dataPoints":[{points}],"isMonotonic":false}},"unit":"1"}}"#
    )
}

fn sum(name: &str, start: u64, end: u64, value: i64) -> String {
    metrics(&sum_of(name, &[sum_point(200, start, end, value)]))
}

fn histogram(name: &str, start: u64, end: u64, sum: Option<u64>, buckets: [u64; 3]) -> String {
    let count: u128 = buckets.iter().map(|bucket| u128::from(*bucket)).sum();
    let counts = buckets.map(|bucket| format!("\"{bucket}\"")).join(",");
    let sum = sum.map_or(String::new(), |sum| format!("\"sum\":{sum},"));
    metrics(&format!(
        r#"{{"histogram":{{"aggregationTemporality":1,"dataPoints":[{{"attributes":[],"bucketCounts":[{counts}],"count":"{count}","explicitBounds":[-5,10],"startTimeUnixNano":"{start}",{sum}"timeUnixNano":"{end}"}}]}},"name":"{name}","unit":"ms"}}"#
    ))
}

struct Trial {
    folder: tempfile::TempDir,
    writer: Writer,
}

impl Trial {
    fn new() -> Trial {
        let folder = tempfile::tempdir().expect("a folder");
        let path = folder.path().join("totals.db");
        Trial { folder, writer: writer(&path) }
    }

    fn path(&self) -> PathBuf {
        self.folder.path().join("totals.db")
    }

    fn take(&mut self, number: u64, body: String) -> DeliveryOutcome {
        self.writer.take(&[forwarded(number, body)], Sent::ByHand)
    }

    fn taken(&mut self, number: u64, body: String) {
        assert_eq!(self.take(number, body), DeliveryOutcome::Taken, "{number}");
    }

    fn again(&mut self, number: u64, body: String, part: &str) {
        match self.take(number, body) {
            DeliveryOutcome::Away { reason } => {
                assert!(reason.contains(part) && reason.contains("totals.db"), "{reason}")
            }
            other => panic!("{other:?}"),
        }
    }

    fn refused(&mut self, number: u64, body: String, part: &str) {
        match self.take(number, body) {
            DeliveryOutcome::Refused { reason } => assert!(reason.contains(part), "{reason}"),
            other => panic!("{other:?}"),
        }
    }

    /// Does a step of the upkeep, in the open file.
    fn step_at(&mut self, now: u64) -> rusqlite::Result<bool> {
        let store = self.writer.store.as_mut().expect("it is open");
        self.writer.upkeep.go_on(&mut store.connection, now)
    }

    fn reopen(&mut self) {
        self.writer = writer(&self.path());
    }

    fn totals(&self) -> Vec<(String, i128, u64)> {
        let rows = read(&self.path()).expect("it is read");
        rows.into_iter().map(|row| (row.name, row.total.0, row.points)).collect()
    }

    fn ask(&self, query: &str) -> String {
        let shell =
            std::process::Command::new("sqlite3").arg(self.path()).arg(query).output().expect("sqlite3");
        assert!(shell.status.success(), "{}", String::from_utf8_lossy(&shell.stderr));
        String::from_utf8(shell.stdout).expect("text").trim().into()
    }
}

fn read(path: &Path) -> anyhow::Result<Vec<SeriesTotal>> {
    reading::totals(&Address::Sqlite(path.into()))
}

fn writer(path: &Path) -> Writer {
    Writer {
        path: path.into(),
        store: None,
        memory: Arc::new(()),
        owners: Arc::default(),
        upkeep: Upkeep::new(Retention::default()),
        was_replaced: false,
        is_told: false,
        is_kept: true,
    }
}

fn only(name: &str, total: i128, points: u64) -> Vec<(String, i128, u64)> {
    vec![(name.into(), total, points)]
}

#[test]
fn a_key_is_taken_once() {
    let mut trial = Trial::new();
    for _ in 0..3 {
        trial.taken(1, sum("a", 10, 20, 5));
    }
    trial.taken(2, sum("a", 20, 30, -7));
    trial.reopen();
    trial.taken(1, sum("a", 10, 20, 5));
    trial.taken(2, sum("a", 20, 30, -7));
    for other in [sum("a", 30, 40, 9), sum("b", 20, 30, -7)] {
        trial.refused(2, other, "key is that of another request");
    }
    assert_eq!(trial.totals(), only("a", -2, 2));
}

/// A number that was left out can still be taken after later ones, and another shard or epoch has numbers of its own.
#[test]
fn gaps_between_keys_stay_open() {
    let mut trial = Trial::new();
    trial.taken(1, sum("a", 10, 20, 1));
    trial.taken(7, sum("a", 40, 50, 2));
    trial.taken(9, sum("a", 50, 60, 4));
    trial.taken(3, sum("a", 20, 30, 8));
    trial.taken(3, sum("a", 20, 30, 8));
    let other = [Forwarded { shard: 1, ..forwarded(1, sum("b", 10, 20, 16)) }];
    assert_eq!(trial.writer.take(&other, Sent::ByHand), DeliveryOutcome::Taken);
    let other = [Forwarded { epoch: "f".into(), ..forwarded(1, sum("b", 20, 30, 32)) }];
    assert_eq!(trial.writer.take(&other, Sent::ByHand), DeliveryOutcome::Taken);
    assert_eq!(trial.totals(), [("a".into(), 15, 4), ("b".into(), 48, 2)]);
}

/// In order, a point that begins before its series ends is not added: what it counts may be there.
#[test]
fn what_begins_before_its_series_ends_is_refused() {
    let mut trial = Trial::new();
    trial.taken(1, sum("a", 100, 200, 1));
    trial.taken(4, sum("a", 300, 400, 1));
    for (number, (start, end)) in
        (10..).zip([(100, 200), (150, 160), (50, 101), (199, 300), (200, 300), (1, 1000), (399, 500)])
    {
        let why = "is not added, since its series has points until 400";
        trial.refused(number, sum("a", start, end, 9), why);
        trial.refused(number, sum("a", start, end, 9), why);
    }
    assert_eq!(trial.totals(), only("a", 2, 2));
    // Dead letters that are sent again.
    trial.taken(3, sum("a", 200, 300, 1));
    trial.taken(2, sum("a", 50, 100, 1));
    trial.taken(5, sum("a", 400, 500, 1));
    assert_eq!(trial.totals(), only("a", 5, 5));
    trial.refused(30, metrics(&sum_of("c", &[sum_point(1, 10, 20, 1), sum_point(1, 15, 25, 1)])), "overlaps");
    assert_eq!(trial.totals(), only("a", 5, 5));
}

#[test]
fn what_is_no_forwarded_request_is_refused() {
    let mut trial = Trial::new();
    for body in ["", "{", "[]", r#"{"resourceMetrics":5}"#] {
        assert!(matches!(trial.take(1, body.into()), DeliveryOutcome::Refused { .. }), "{body}");
    }
    trial.refused(1, sum("a", 20, 20, 1), "");
    trial.taken(1, sum("a", 10, 20, 1));
}

#[test]
fn sums_past_64_bits_are_exact() {
    let mut trial = Trial::new();
    let (most, least) = (i64::MAX, -i64::MAX);
    for number in 1..=5 {
        trial.taken(number, sum("up", number * 10, number * 10 + 10, most));
        trial.taken(number + 100, sum("down", number * 10, number * 10 + 10, least));
    }
    let total = 5 * i128::from(most);
    trial.reopen();
    assert_eq!(trial.totals(), [("down".into(), -total, 5), ("up".into(), total, 5)]);
    let rows = format!("down|{}\nup|{total}", -total);
    for view in ["totals", "totals_by_name", "totals_by_hour"] {
        assert_eq!(trial.ask(&format!("select name, total from {view} order by name")), rows, "{view}");
    }
    trial.taken(200, sum("up", 1000, 1010, least));
    assert_eq!(
        trial.ask("select total from totals where name = 'up'"),
        (total - i128::from(most)).to_string()
    );
}

/// A total is shown as an integer as long as SQLite has one of that size, and all views agree.
#[test]
fn views_carry_and_borrow() {
    let mut trial = Trial::new();
    let values =
        [999_999_999_999, 1, -1, -1_000_000_000_000, -5, 3_000_000_000_005, -3_000_000_000_000, 12_345];
    let mut total = 0;
    for (number, value) in (1..).zip(values) {
        trial.taken(number, sum("a", number * 10, number * 10 + 10, value));
        total += value;
        for view in ["totals", "totals_by_name", "totals_by_hour"] {
            let got = trial.ask(&format!("select total, typeof(total), points from {view}"));
            assert_eq!(got, format!("{total}|integer|{number}"), "{view}");
        }
    }
}

#[test]
fn histograms_add_up_by_bucket() {
    let mut trial = Trial::new();
    trial.taken(1, histogram("h", 10, 20, Some(7), [1, 2, 3]));
    trial.taken(2, histogram("h", 20, 30, None, [0, 0, 4]));
    trial.taken(3, histogram("h", 30, 40, Some(1), [u64::MAX, 0, 0]));
    trial.taken(4, histogram("h", 40, 50, Some(0), [1 << 63, 0, 0]));
    let rows = read(&trial.path()).expect("rows");
    let found = rows[0].histogram.as_ref().expect("a histogram");
    let first = 1 + i128::from(u64::MAX) + (1 << 63);
    assert_eq!(found.buckets, [first, 2, 7].map(Exact));
    assert_eq!((found.count, rows[0].total, found.points_without_sum), (Exact(first + 9), Exact(8), 1));
    assert_eq!(found.bounds, [-5, 10]);
    for view in ["totals", "totals_by_name", "totals_by_hour"] {
        assert_eq!(
            trial.ask(&format!("select total, count from {view}")),
            format!("8|{}", first + 9),
            "{view}"
        );
    }
    let told = serde_json::to_value(&rows[0]).expect("JSON");
    assert_eq!(told["kind"], "histogram");
    assert_eq!(told["histogram"]["buckets"][0], first.to_string());
}

/// Times from 2^63 on, in the year 2262 and later, keep their order.
#[test]
fn late_times_are_exact() {
    let mut trial = Trial::new();
    trial.taken(1, sum("a", 10, 1 << 63, 1));
    trial.refused(2, sum("a", (1 << 63) - 1, 1 << 63, 1), "is not added");
    trial.taken(3, sum("a", u64::MAX - 10, u64::MAX, 1));
    trial.refused(4, sum("a", u64::MAX - 1, u64::MAX, 1), "is not added");
    trial.taken(0, sum("a", 1 << 63, u64::MAX - 10, 1));
    let rows = read(&trial.path()).expect("rows");
    assert_eq!((rows[0].start_ns, rows[0].end_ns, rows[0].points), (10, u64::MAX, 3));
}

#[test]
fn series_differ_by_each_part() {
    let mut trial = Trial::new();
    let point = |value: &str| {
        let point = r#"{"asInt":"1","attributes":[{"key":"k","value":VALUE}],"startTimeUnixNano":"1","timeUnixNano":"2"}"#;
        point.replace("VALUE", value)
    };
    let values = [
        r#"{}"#,
        r#"{"stringValue":"5"}"#,
        r#"{"intValue":"5"}"#,
        r#"{"stringValue":""}"#,
        r#"{"boolValue":true}"#,
        r#"{"arrayValue":{"values":[{"intValue":"5"}]}}"#,
    ];
    trial.taken(1, metrics(&sum_of("a", &values.map(point))));
    assert_eq!(trial.totals().len(), values.len());
    trial.taken(2, sum("a", 1, 2, 1).replace("\"h1\"", "\"h2\""));
    trial.taken(3, sum("a", 1, 2, 1));
    trial.taken(4, sum("a", 1, 2, 1).replace("\"unit\":\"1\"", "\"unit\":\"2\""));
    trial.taken(5, sum("a", 1, 2, 1).replace("false", "true"));
    assert_eq!(trial.totals().len(), values.len() + 4);
}

#[tokio::test]
async fn a_sink_has_a_thread_that_ends_with_it() {
    let folder = tempfile::tempdir().expect("a folder");
    let path = folder.path().join("totals.db");
    let sink = SqliteSink::open(&path, Retention::default(), Arc::new(())).expect("a sink");
    assert_eq!(sink.name(), format!("sqlite {}", path.display()));
    let bodies: Vec<Forwarded> =
        (1..=20).map(|number| forwarded(number, sum("a", number, number + 1, 1))).collect();
    for request in &bodies {
        assert_eq!(sink.deliver(request).await, DeliveryOutcome::Taken);
    }
    // A request whose caller went away does not hold up others.
    drop(sink.deliver(&bodies[0]));
    assert_eq!(sink.deliver(&bodies[1]).await, DeliveryOutcome::Taken);
    drop(sink);
    assert!(!folder.path().join("totals.db-wal").exists(), "it is closed whole");
    assert_eq!(read(&path).expect("rows")[0].total, Exact(20));
}

#[test]
fn totals_are_read_by_name_and_attribute() {
    let mut trial = Trial::new();
    let both = format!(
        "{},{}",
        sum_of("a", &[sum_point(200, 1, 2, 3), sum_point(500, 1, 2, 4)]),
        sum_of("b", &[sum_point(200, 1, 2, 5)])
    );
    trial.taken(1, metrics(&both));
    let found = |name: Option<&str>, attributes: &[(&str, &str)]| -> Vec<i128> {
        let attributes = attributes.iter().map(|(key, value)| (key.to_string(), value.to_string())).collect();
        let filter = Filter { name: name.map(String::from), attributes };
        let all = read(&trial.path()).expect("rows");
        all.iter().filter(|row| filter.takes(row)).map(|row| row.total.0).collect()
    };
    assert_eq!(found(None, &[]), [3, 4, 5]);
    assert_eq!(found(Some("a"), &[]), [3, 4]);
    assert_eq!(found(None, &[("code", "200")]), [3, 5]);
    assert_eq!(found(Some("a"), &[("code", "500"), ("host", "h1")]), [4]);
    assert_eq!(found(Some("a"), &[("host", "h2")]), [0; 0]);
    assert_eq!(found(Some("z"), &[]), [0; 0]);
    let error = read(&trial.folder.path().join("none.db")).expect_err("it is not there");
    assert!(error.to_string().contains("no such file"), "{error}");
}
