//! What is reported about foreign points and owners.

use super::logged::*;
use super::texts::*;
use super::*;
use crate::book::Refused;
use crate::log::shown;
use crate::otlp::{Clock, OffClock};
use crate::work::locked;
use bytes::Bytes;
use std::collections::HashSet;
use std::time::Duration;

/// Answers what it was given.
struct Answering(Outcome);

impl PostHandler for Answering {
    async fn post(self: &Arc<Self>, _: &str, _: Request, _: Option<Original>) -> Outcome {
        self.0.clone()
    }
}

fn reported(
    outcome: Outcome,
    owner: Option<&'static str>,
    options: ReportOptions,
) -> Arc<Reported<Answering>> {
    let metrics = Arc::new(Metrics::new().unwrap());
    let reporter = Reporter::new(options, metrics, Arc::default(), None);
    Reported::new(Arc::new(Answering(outcome)), move |_| owner.map(String::from), reporter)
}

fn body(metrics: &str) -> Bytes {
    format!(r#"{{"resourceMetrics":[{{"scopeMetrics":[{{"metrics":[{metrics}]}}]}}]}}"#).into()
}

/// What is reported after these posts of `a`, and how many of its posts were read.
async fn told(
    outcome: Outcome,
    owner: Option<&'static str>,
    log_rejected: usize,
    posts: &[Bytes],
) -> (Vec<String>, usize, usize) {
    let options = ReportOptions { log_rejected, ..ReportOptions::default() };
    let reported = reported(outcome.clone(), owner, options);
    for body in posts {
        assert_eq!(reported.post("a", body.clone().into(), None).await.status(), outcome.status());
        while reported.reporter.is_reading.load(Relaxed) {
            tokio::time::sleep(Duration::from_millis(1)).await;
        }
    }
    let mut told = locked(&reported.reporter.logged);
    let of = told.foreign.get_mut(&"a".to_string());
    let (read, reasons) = of.map_or((0, HashSet::new()), |of| (of.read, of.reasons.clone()));
    let mut reasons = Vec::from_iter(reasons);
    reasons.sort();
    (reasons, read, told.series.count())
}

const GAUGES: &str =
    r#"{"name":"g","gauge":{"dataPoints":[{},{}]}},{"name":"h","gauge":{"dataPoints":[{}]}}"#;

#[tokio::test]
async fn the_first_reasons_of_a_sender_are_told() {
    let foreign = Outcome::taken(3);
    let posts = [body(GAUGES), body(GAUGES)];
    let (reasons, read, _) = told(foreign.clone(), None, 9, &posts).await;
    assert_eq!(read, 2);
    assert!(reasons[0].starts_with("gauge `g`: gauges are not") && reasons.len() == 2, "{reasons:?}");
    let (reasons, read, _) = told(foreign.clone(), None, 1, &posts).await;
    assert_eq!((reasons.len(), read), (1, 1), "no post is read after the last reason");
    assert_eq!(told(foreign.clone(), None, 0, &posts).await, (vec![], 0, 0));
    assert_eq!(told(Outcome::taken(0), None, 9, &posts).await, (vec![], 0, 0));
    let many = vec![body(GAUGES); MOST_READ + 5];
    assert_eq!(told(foreign, None, 9, &many).await.1, MOST_READ);
}

/// Otherwise a sender could fill the memory, and forge lines of the log.
#[tokio::test]
async fn what_is_told_of_a_point_is_one_short_line() {
    let name = "\\n2026-11-26 WARN a line of its own".to_string() + &"x".repeat(1 << 20);
    let long = body(&format!(r#"{{"name":"{name}","gauge":{{"dataPoints":[{{}}]}}}}"#));
    let (reasons, _, _) = told(Outcome::taken(1), None, 9, &[long]).await;
    assert!(reasons[0].len() < 300 && !reasons[0].contains('\n'), "{}", reasons[0]);
}

/// Otherwise a sender could fill the disk, or send control characters to an operator's terminal.
#[test]
fn what_is_told_of_another_s_series_is_one_short_line() {
    let key = SeriesKey(format!("[[],\"\u{7f}\u{9b}2J{}\"]", "x".repeat(60_000)).into());
    let series = shown(&key.0, SERIES_SHOWN);
    assert!(series.len() < 2100 && series.starts_with("[[],\"  2Jxx"), "{series}");
    assert!(!series.contains(char::is_control), "{series}");
}

#[tokio::test]
async fn a_series_of_another_is_told_once_it_is_known() {
    let point = r#"{"startTimeUnixNano":"1","timeUnixNano":"2","asInt":"1"}"#;
    let metric = |name| {
        body(&format!(r#"{{"name":"{name}","sum":{{"aggregationTemporality":1,"dataPoints":[{point}]}}}}"#))
    };
    let posts = [metric("m"), metric("m"), metric("n")];
    let series = async |outcome, owner| told(outcome, owner, 9, &posts).await.2;
    assert_eq!(series(other_writer_at(0), Some("b")).await, 2);
    assert_eq!(series(other_writer_at(0), None).await, 0);
    assert_eq!(series(other_writer_at(1), Some("b")).await, 0);
    assert_eq!(series(late(0, 5), Some("b")).await, 0);
}

fn other_writer_at(point: u64) -> Outcome {
    Refused::OtherWriter { point }.into()
}

fn late(point: u64, frontier: u64) -> Outcome {
    Refused::OutOfOrder { point, frontier }.into()
}

const SPAN: &str = r#""startTimeUnixNano":"1","timeUnixNano":"2""#;

/// The answer to a post whose points are not taken.
async fn answered(reported: &Arc<Reported<Answering>>, metrics: &str) -> String {
    reported.post("a", body(metrics).into(), None).await.message().unwrap_or_default()
}

#[tokio::test]
async fn a_sender_is_told_what_is_not_taken() {
    let counter = |name: &str, more: &str| {
        format!(
            r#"{{"name":"{name}","sum":{{"aggregationTemporality":2,"dataPoints":[{{{SPAN},"asInt":"1"}}]{more}}}}}"#
        )
    };
    let taken = format!(
        r#"{{"name":"t","sum":{{"aggregationTemporality":1,"dataPoints":[{{{SPAN},"asInt":"1"}}]}}}}"#
    );
    let metrics =
        [GAUGES, &counter("c", r#","isMonotonic":true"#), &counter("u", ""), &counter("v", ""), &taken]
            .join(",");
    let options = ReportOptions { expected: vec![Reason::Gauge], ..ReportOptions::default() };
    let all = reported(Outcome::taken(6), None, options);
    assert_eq!(
        answered(&all, &metrics).await,
        "points outside the profile: 3 gauges, 2 UpDownCounters, 1 cumulative sum: see docs/OPERATING.md, \"Senders\""
    );
    let page = String::from_utf8(all.reporter.metrics.page()).unwrap();
    for line in [
        "totxegun_rejected_points_total{reason=\"up_down_counter\",sender=\"a\"} 2",
        "totxegun_rejected_points_total{reason=\"cumulative_sum\",sender=\"a\"} 1",
        "totxegun_expected_rejected_points_total{reason=\"gauge\"} 3",
    ] {
        assert!(page.lines().any(|found| found == line), "{line} in\n{page}");
    }
    assert!(!page.contains("totxegun_rejected_points_total{reason=\"gauge\""), "{page}");
    // A long body is read on another thread, with the same answer; and only the book says how many points it did not
    // take.
    let long = format!(r#"{{"name":"{}"}},{metrics}"#, "x".repeat(Readers::SHORT));
    let answer = answered(&all, &long).await;
    assert!(answer.contains(": 3 gauges, 2 UpDownCounters, 1 cumulative sum: "), "{answer}");
    let more = reported(Outcome::taken(9), None, ReportOptions::default());
    let answer = answered(&more, &metrics).await;
    assert!(answer.contains("3 points of another form"), "{answer}");
    let all_taken = reported(Outcome::taken(0), None, ReportOptions::default());
    assert_eq!(all_taken.post("a", body(&metrics).into(), None).await, Outcome::taken(0));
}

/// How far points are off the clock is neither in the book's answer nor in the body.
#[tokio::test]
async fn a_sender_whose_clock_is_off_is_told_by_how_much() {
    let clock = Clock { max_ahead: Some(Duration::from_secs(600)), max_age: None };
    let (mut off, window) = (OffClock::default(), clock.window());
    off.count(window.off(u64::MAX).unwrap());
    let reported = reported(Outcome::taken_but(3, off, Causes::default()), None, ReportOptions::default());
    let answer = answered(&reported, GAUGES).await;
    let wanted = "points outside the profile: 3 gauges, 1 point ahead of time: its clock is ";
    assert!(answer.starts_with(wanted) && answer.contains("d ahead: see"), "{answer}");
    answered(&reported, GAUGES).await;
    assert_eq!(locked(&reported.reporter.logged).rejected.count(), 2, "each reason is in the log once");
    let page = String::from_utf8(reported.reporter.metrics.page()).unwrap();
    let line = "totxegun_rejected_points_total{reason=\"clock_ahead\",sender=\"a\"} 2";
    assert!(page.lines().any(|found| found == line), "{page}");
}

#[tokio::test]
async fn who_posts_to_another_s_series_is_told_which_it_is() {
    let point = |more: &str| format!(r#"{{{SPAN},"asInt":"1"{more}}}"#);
    let route = r#","attributes":[{"key":"route","value":{"stringValue":"/"}}]"#;
    let metric = format!(
        r#"{{"name":"m","sum":{{"aggregationTemporality":1,"dataPoints":[{},{{}},{}]}}}}"#,
        point(""),
        point(route)
    );
    let second = reported(other_writer_at(1), None, ReportOptions::default());
    assert_eq!(
        answered(&second, &metric).await,
        "other writer: point 1: `m` {route=/} is another sender's, so 1970-01-01T00:00:00.000000Z to 1970-01-01T00:00:00.000000Z is \
         not counted: give each process its own service.instance.id, or, if only this sender's name has changed, have it renamed"
    );
    let none = reported(other_writer_at(2), None, ReportOptions::default());
    assert_eq!(answered(&none, &metric).await, "other writer: point 2");
    let hostile = metric.replace(r#""m""#, &format!(r#""\u001b[2J{}""#, "x".repeat(9000)));
    let answer = answered(&second, &hostile).await;
    assert!(answer.len() < 700 && !answer.contains(char::is_control), "{answer}");
}

/// Otherwise the sender would be told that points were taken before which nobody has.
#[tokio::test]
async fn a_post_with_a_series_twice_over_one_time_is_told_so() {
    let point = |more: &str| format!(r#"{{{SPAN},"asInt":"1"{more}}}"#);
    let route = r#","attributes":[{"key":"route","value":{"stringValue":"/"}}]"#;
    let points = [point(""), "{}".into(), point(route), point(route)].join(",");
    let metric = format!(r#"{{"name":"m","sum":{{"aggregationTemporality":1,"dataPoints":[{points}]}}}}"#);
    let twice = "duplicate or late: point 2, frontier 2";
    let said = answered(&reported(late(2, 2), None, ReportOptions::default()), &metric).await;
    assert_eq!(
        said,
        format!(
            "{twice}: the post has `m` {{route=/}} twice over one time, so 1970-01-01T00:00:00.000000Z to \
             1970-01-01T00:00:00.000000Z is not counted: give each process its own service.instance.id, each instrument its own name"
        )
    );
    // The refused point is the first one, or another post has come further.
    for outcome in [late(1, 2), late(2, 3)] {
        let begin = format!(
            "{}: `m` {{route=/}} begins before what its series has (until 1970-01-01T",
            outcome.message().unwrap()
        );
        let said = answered(&reported(outcome, None, ReportOptions::default()), &metric).await;
        assert!(said.starts_with(&begin), "{said}");
    }
}

/// Nobody reads nanoseconds.
#[tokio::test]
async fn a_late_sender_is_told_the_time() {
    let refused = |outcome| reported(outcome, None, ReportOptions::default());
    let said = answered(&refused(late(2, 1795808400500000000)), GAUGES).await;
    let begin = "duplicate or late: point 2, frontier 1795808400500000000: the point begins before what its series has (until 2026-11-27T19:40:00.500000Z), ";
    assert!(said.starts_with(begin) && said.contains("set the sender's clock"), "{said}");
    assert_eq!(answered(&refused(Reason::NotJson.into()), GAUGES).await, "not JSON");
}

/// Expected reasons are not logged, and a refusal is logged once.
#[tokio::test]
async fn refusals_are_noted() {
    let options =
        ReportOptions { log_rejected: 9, expected: vec![Reason::Gauge], ..ReportOptions::default() };
    let expected = reported(Outcome::taken(3), None, options);
    answered(&expected, GAUGES).await;
    while expected.reporter.is_reading.load(Relaxed) {
        tokio::time::sleep(Duration::from_millis(1)).await;
    }
    let mut logged = locked(&expected.reporter.logged);
    assert!(logged.foreign.get_mut(&"a".to_string()).unwrap().reasons.is_empty());
    drop(logged);
    let late = late(0, 5);
    let busy = Reason::TooManyBytes.into();
    let refused = reported(late.clone(), None, ReportOptions::default()).reporter.clone();
    refused.answered("a", &late);
    refused.part_refused("a", &late);
    refused.answered("b", &busy);
    assert_eq!(locked(&refused.logged).refusals.count(), 1, "503 is not the sender's");
    let of_a = &refused.activity.last(9).into_iter().find(|(name, _)| name == "a").unwrap().1;
    assert_eq!((of_a.taken, of_a.refused[&Reason::OutOfOrder].posts), (0, 2));
}

/// The lines of the log, as its reader sees them.
#[derive(Clone, Default)]
struct Lines(Arc<Mutex<Vec<String>>>);

impl tracing::field::Visit for Lines {
    fn record_debug(&mut self, field: &tracing::field::Field, value: &dyn std::fmt::Debug) {
        if let Some(line) = locked(&self.0).last_mut() {
            *line += &format!("{}={value:?} ", field.name());
        }
    }
}

impl<S: tracing::Subscriber> tracing_subscriber::Layer<S> for Lines {
    fn on_event(&self, event: &tracing::Event<'_>, _: tracing_subscriber::layer::Context<'_, S>) {
        locked(&self.0).push(String::new());
        event.record(&mut self.clone());
    }
}

/// Otherwise a client that makes up names could silence the log for all others.
#[test]
fn who_is_refused_behind_a_thousand_others_is_told_of() {
    use tracing_subscriber::prelude::*;
    let lines = Lines::default();
    let _here = tracing_subscriber::registry().with(lines.clone()).set_default();
    let reporter = reported(Outcome::taken(0), None, ReportOptions::default()).reporter.clone();
    let late = late(0, 5);
    let off = {
        let clock = Clock { max_ahead: Some(Duration::from_secs(600)), max_age: None };
        let mut off = OffClock::default();
        off.count(clock.window().off(u64::MAX).unwrap());
        off
    };
    let (runtime, source) = (runtime(), Source::Text(body("")));
    let tell = |sender: &str| {
        reporter.answered(sender, &late);
        runtime.block_on(reporter.tell_rejected(sender, &source, &Causes::of_clocks(off), off));
    };
    for number in 0..3 * REMEMBERED {
        tell(&format!("made-up-{number}"));
    }
    let flood = locked(&lines.0).len();
    let some = 2 * REMEMBERED..2 * REMEMBERED + 100;
    assert!(some.contains(&flood), "{flood}: nor may they fill the disk");
    std::thread::sleep(Duration::from_millis(1100));
    tell("shop-1");
    tell("shop-1");
    let told = locked(&lines.0)[flood..].to_vec();
    let parts = [["message=a post is refused", "status=400"], ["message=points are not taken", "points=1"]];
    assert_eq!(told.len(), parts.len(), "{told:?}");
    for (parts, line) in parts.iter().zip(&told) {
        assert!(parts.iter().all(|part| line.contains(part)) && line.contains("sender=\"shop-1\""), "{line}");
    }
    assert!((2..=REMEMBERED).contains(&reporter.activity.count()));
}

fn runtime() -> tokio::runtime::Runtime {
    tokio::runtime::Builder::new_current_thread().build().unwrap()
}

/// Even if nobody asked for it: otherwise money that is counted in doubles could be lost without a line about it.
#[test]
fn each_reason_for_which_points_are_not_taken_is_told_of_once_with_a_metric() {
    use tracing_subscriber::prelude::*;
    let lines = Lines::default();
    let _here = tracing_subscriber::registry().with(lines.clone()).set_default();
    let double = r#"{"name":"EUR","sum":{"aggregationTemporality":1,"isMonotonic":true,"dataPoints":[{"startTimeUnixNano":"1","timeUnixNano":"2","asDouble":0.5}]}}"#;
    let turned: Causes = [(Reason::WentDown, 2)].into_iter().collect();
    let options = ReportOptions { expected: vec![Reason::Summary], ..ReportOptions::default() };
    let reported = reported(Outcome::taken_but(5, OffClock::default(), turned), None, options);
    let summary = r#"{"name":"s","summary":{"dataPoints":[{}]}}"#;
    for _ in 0..3 {
        runtime().block_on(answered(&reported, &[GAUGES, double, summary].join(",")));
    }
    let told = locked(&lines.0).clone();
    let begins = [
        "told=\"3 gauges, the first of gauge `g`: gauges are not added up",
        "told=\"1 double, the first of sum `EUR`: ",
        "told=\"2 cumulative points that went down: a counter may not go down",
    ];
    assert_eq!(told.len(), begins.len(), "{told:?}");
    for begin in begins {
        assert!(
            told.iter().any(|line| line.contains(begin) && line.contains("sender=\"a\"")),
            "{begin} in {told:?}"
        );
    }
    let of_a = &reported.reporter.activity.last(9)[0].1;
    let metric = |reason| of_a.rejected.get(&reason).map(String::as_str);
    assert_eq!((metric(Reason::Double), metric(Reason::Gauge)), (Some("EUR"), Some("g")));
    assert_eq!(metric(Reason::WentDown), None, "no body says which it is");
}

/// Otherwise they would fill the log and hide the refusals of senders.
#[tokio::test]
async fn so_many_strangers_are_told_of() {
    let reported = reported(Outcome::taken(0), None, ReportOptions::default());
    let unknown = Reason::UnknownToken.into();
    for number in 0..5 * STRANGERS {
        reported.reporter.answered(&format!("address 10.0.{}.{}", number / 256, number % 256), &unknown);
    }
    reported.reporter.answered("shop-1", &unknown);
    assert_eq!(locked(&reported.reporter.logged).refusals.count(), STRANGERS + 2);
    let activity = reported.reporter.activity.last(1000);
    let of = |name: &str| activity.iter().find(|(activity, _)| activity == name).unwrap().1.clone();
    let posts = |name: &str| of(name).refused[&Reason::UnknownToken].posts;
    assert_eq!((posts("address 10.0.0.7"), posts("shop-1")), (1, 1));
    assert_eq!(posts(NO_NAME), 4 * STRANGERS as u64);
}

/// Cumulative points that are refused by name are counted, with and without foreign ones.
#[tokio::test]
async fn what_is_refused_of_runs_is_counted() {
    let turned: Causes = [(Reason::WentDown, 2)].into_iter().collect();
    for (gauges, metrics) in [(0, ""), (3, GAUGES)] {
        let outcome = Outcome::taken_but(gauges, OffClock::default(), turned.clone());
        let reported = reported(outcome, None, ReportOptions::default());
        let said = reported.post("a", body(metrics).into(), None).await;
        let Outcome::Taken { rejected, .. } = said else {
            panic!("{said:?}");
        };
        let message = said.message().unwrap();
        assert_eq!(rejected, 2 + gauges);
        assert!(message.contains("2 cumulative points that went down"), "{message}");
    }
}
