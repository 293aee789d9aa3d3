//! Tests repeats, as from a Collector whose answer was lost: each gets the answer of the first time, and counts once.

use crate::support::{points, until, Place, Service};

const SERIES: [&str; 3] = ["a", "b", "c"];

/// A batch with a point of each of these series for each of these ends, as a Collector makes of several exports that
/// waited.
fn batch(series: &[&str], ends: &[u64]) -> String {
    let metrics = series.iter().flat_map(|name| {
        ends.iter().map(move |end| {
            format!(
                r#"{{"name":"{name}","sum":{{"aggregationTemporality":1,"dataPoints":[{{"asInt":"{}","startTimeUnixNano":"{}","timeUnixNano":"{end}"}}]}}}}"#,
                end % 97,
                end - 10
            )
        })
    });
    let metrics: Vec<String> = metrics.collect();
    format!(r#"{{"resourceMetrics":[{{"scopeMetrics":[{{"metrics":[{}]}}]}}]}}"#, metrics.join(","))
}

fn posted(service: &Service, body: &str, when: &str) {
    let answer = service.post("collector", body).unwrap();
    assert_eq!(answer, (200, "{}".into()), "{when}: {body}");
}

/// Even after the next batch, in other batches, after a flush, after kills, and after a start with another number of
/// books.
#[test]
fn a_batch_is_answered_as_the_first_time_after_the_next_one() {
    let place = Place::new();
    let sink = place.sink();
    let mut service = place.serve_with(&["--sink", &sink, "--max-series", "20000"]);
    let ends = [100, 110, 120, 130, 140];
    let [first, several, next] = [&ends[..1], &ends[1..4], &ends[4..]];
    posted(&service, &batch(&SERIES, first), "the first");
    posted(&service, &batch(&SERIES, several), "exports that waited");
    for when in ["at once", "again", "after a flush", "after a kill", "after a flush and a kill"] {
        if when.contains("flush") {
            service.drain();
        }
        if when.contains("kill") {
            service.kill();
            let max_series = if when.contains("flush") { "1000000" } else { "8000" };
            service = place.serve_with(&["--sink", &sink, "--max-series", max_series]);
        }
        posted(&service, &batch(&SERIES, several), when);
        posted(&service, &batch(&SERIES, first), when);
        posted(&service, &batch(&SERIES[1..2], several), when);
        posted(&service, &batch(&SERIES, &ends[..4]), when);
    }
    // With new points after those that were taken; one series is new.
    posted(&service, &batch(&["a", "d", "b", "c"], next), "the next one");
    posted(&service, &batch(&SERIES, &ends[1..]), "behind the next one");
    posted(&service, &batch(&SERIES, several), "behind the next one");
    // Points from before these are not known any more.
    let (status, text) = service.post("collector", &batch(&["a"], first)).unwrap();
    assert!(
        status == 400 && text.contains("duplicate or late: point 0, frontier 140: `a` {} begins before "),
        "{text}"
    );
    let page = service.metrics();
    let line =
        page.lines().find(|line| line.starts_with("totxegun_duplicate_points_total{sender=\"collector\"}"));
    assert!(line.is_some(), "{page}");
    service.drain();
    service.has_no_fault();
    assert_eq!(service.end(), Some(0));
    let log = place.log();
    assert!(log.contains("points of a post are duplicates"), "{log}");
    let sum = |ends: &[u64]| ends.iter().map(|end| (end % 97) as i64).sum::<i64>();
    let wanted = SERIES.map(|name| (name.to_string(), sum(&ends)));
    assert_eq!(place.totals(), wanted.into_iter().chain([("d".into(), sum(next))]).collect());
}

/// A wrong clock, or a name that another sender has, costs only that series its points.
#[test]
fn one_series_that_is_refused_costs_no_other_its_points() {
    let place = Place::new();
    let service = place.serve();
    assert_eq!(service.post("other", &points(&["theirs"], 100, 1)).unwrap().0, 200);
    posted(&service, &points(&["a", "late"], 200, 5), "the first");
    let body = points(&["a", "theirs", "b"], 210, 5).replace("]}]}]}", ",LATE]}]}]}");
    let late = points(&["late"], 150, 7);
    let late = late.split_once("\"metrics\":[").unwrap().1.strip_suffix("]}]}]}").unwrap();
    let body = body.replace("LATE", late);
    let (status, text) = service.post("collector", &body).unwrap();
    let answer: serde_json::Value = serde_json::from_str(&text).unwrap();
    let partial = &answer["partialSuccess"];
    assert_eq!((status, &partial["rejectedDataPoints"]), (200, &"2".into()), "{text}");
    let message = partial["errorMessage"].as_str().unwrap();
    for part in [
        "1 point is refused: other writer: point 1: `theirs` {} is another sender's",
        "1 point is refused: duplicate or late: point 3, frontier 200: `late` {} begins before ",
    ] {
        assert!(message.contains(part), "{message}");
    }
    let page = service.metrics();
    for line in [
        "totxegun_rejected_points_total{reason=\"other_writer\",sender=\"collector\"} 1",
        "totxegun_rejected_points_total{reason=\"duplicate_or_late\",sender=\"collector\"} 1",
        "totxegun_accepted_points_total{sender=\"collector\"} 4",
    ] {
        assert!(page.lines().any(|found| found == line), "{line} in\n{page}");
    }
    // In its repeat, all points but the same two are known.
    assert_eq!(service.post("collector", &body).unwrap(), (status, text));
    until("the log has both", || {
        let log = place.log();
        ["other writer: point 1: ", "duplicate or late: point 3, "].iter().all(|part| log.contains(part))
    });
    service.drain();
    service.has_no_fault();
    assert_eq!(service.end(), Some(0));
    let wanted = [("a", 10), ("b", 5), ("late", 5), ("theirs", 1)];
    assert_eq!(place.totals(), wanted.map(|(name, sum)| (name.to_string(), sum)).into());
}
