//! Recognises posts that exceed a limit by their own points alone. No retry of such a post could succeed, whatever the
//! book has by then, and senders retry a 503: so they are refused for good. `request` asks it for each refusal.

use super::Shard;
use crate::book::{Read, Refused};
use crate::journal::{Body, Points};
use crate::log::shown;
use crate::otlp::series::{self, Profile};
use crate::otlp::{taken_points, Outcome, Reason, Rejection};
use std::collections::hash_map::RandomState;
use std::collections::{HashMap, HashSet};
use std::hash::BuildHasher;

/// The most series of a book of the library.
const SERIES_OF_A_BOOK: usize = 10_000;
/// The most that a row may come to ("Rows" in docs/FORMATS.md): what is added, what is subtracted, the sum of a
/// histogram, and its buckets together.
const MOST: [u64; 4] = [i64::MAX as u64, i64::MAX as u64, 1 << 53, u64::MAX];
/// How much of a metric's name the message has, in characters.
const NAME_SHOWN: usize = 100;

impl Shard {
    /// The answer to a post that the book refuses.
    pub(super) fn refusal(&self, read: &Read, refused: Refused) -> Outcome {
        let never = match refused {
            Refused::TooManySeries => too_many(read, self.shared_book.books() * SERIES_OF_A_BOOK),
            Refused::TooLarge => too_large(read),
            _ => None,
        };
        never.map_or_else(|| refused.into(), Outcome::Refused)
    }
}

/// If the series are spread unevenly among the books, fewer may be too many; this is not recognised.
fn too_many(read: &Read, most: usize) -> Option<Rejection> {
    let is_over = read.points() > most as u64
        && match &read.post.body {
            Body::Points(points) => points.numbers().collect::<HashSet<_>>().len() > most,
            Body::Text(text) => series::others(text, Profile::Deltas, most as u64, |_| false) > most as u64,
        };
    is_over.then(|| {
        let more = format!(": over {most}: post fewer series at a time");
        Rejection::from(Reason::PostOfTooManySeries).and(&more)
    })
}

fn too_large(read: &Read) -> Option<Rejection> {
    match &read.post.body {
        Body::Points(points) => {
            let (number, most) = large(points)?;
            let parts = series::only(&read.names().text(number))?.parts().ok()?;
            Some(large_said(&parts.name, most))
        }
        Body::Text(text) => large_of_text(text),
    }
}

/// The message for a metric with a series that is over this limit.
fn large_said(metric: &str, most: u64) -> Rejection {
    let metric = shown(metric, NAME_SHOWN);
    let more = format!(" of {metric} add up to over {most}: post fewer points at a time");
    Rejection::from(Reason::PostTooLarge).and(&more)
}

/// The number of a series that is over a limit, and the limit.
fn large(points: &Points) -> Option<(u64, u64)> {
    let mut rows = Rows::default();
    points.each().find_map(|point| Some((point[0], rows.add(point[0], &point[3..])?)))
}

/// The same for a text whose series got no numbers for want of room. No key of a series is kept.
fn large_of_text(text: &[u8]) -> Option<Rejection> {
    let (hasher, mut rows, mut found) = (RandomState::new(), Rows::default(), None);
    taken_points(text, |key, metric, words| {
        if let (None, Some(most)) = (&found, rows.add(hasher.hash_one(key), &words[2..])) {
            found = Some(large_said(metric, most));
        }
    });
    found
}

/// The sum of each series' points.
#[derive(Default)]
struct Rows(HashMap<u64, [u128; 4]>);

impl Rows {
    /// Adds a point; returns the limit that its row now exceeds, if any.
    fn add(&mut self, series: u64, says: &[u64]) -> Option<u64> {
        let row = self.0.entry(series).or_default();
        for (word, more) in row.iter_mut().zip(row_of(says)) {
            *word += u128::from(more);
        }
        row.iter().zip(MOST).find_map(|(word, most)| (*word > u128::from(most)).then_some(most))
    }
}

/// The row of a point: of a sum its value; of a histogram its count, whether it has a sum, the sum, and its buckets.
fn row_of(says: &[u64]) -> [u64; 4] {
    match says {
        [value] if (*value as i64) < 0 => [0, (*value as i64).unsigned_abs(), 0, 0],
        [value] => [*value, 0, 0, 0],
        [count, _, sum, ..] => [0, 0, *sum, *count],
        _ => [0; 4],
    }
}

#[cfg(test)]
mod tests {
    use super::*;
    use crate::runs::{InitialValue, Options};
    use crate::shard::Shared;
    use std::sync::Arc;

    const HOUR: u64 = 3_600_000_000_000;
    const HALF: i64 = 1 << 62;

    fn body(metrics: &[String]) -> String {
        format!(r#"{{"resourceMetrics":[{{"scopeMetrics":[{{"metrics":[{}]}}]}}]}}"#, metrics.join(","))
    }

    /// Consecutive points of one series, each this many nanoseconds long.
    fn points(long: u64, kind: &str, says: &[String]) -> String {
        let point = |(place, says): (u64, &String)| {
            let (start, end) = (long * (place + 1), long * (place + 2));
            format!(r#"{{"startTimeUnixNano":"{start}","timeUnixNano":"{end}",{says}}}"#)
        };
        let points: Vec<String> = (0..).zip(says).map(point).collect();
        body(&[format!(
            r#"{{"name":"a","{kind}":{{"aggregationTemporality":1,"dataPoints":[{}]}}}}"#,
            points.join(",")
        )])
    }

    fn sums(long: u64, values: &[i64]) -> String {
        points(long, "sum", &values.iter().map(|value| format!(r#""asInt":"{value}""#)).collect::<Vec<_>>())
    }

    fn many(series: usize, start: u64) -> String {
        let point =
            format!(r#"{{"startTimeUnixNano":"{start}","timeUnixNano":"{}","asInt":"1"}}"#, start + 1);
        let metric = |name| {
            format!(r#"{{"name":"m{name}","sum":{{"aggregationTemporality":1,"dataPoints":[{point}]}}}}"#)
        };
        body(&(0..series).map(metric).collect::<Vec<_>>())
    }

    async fn said(shard: &Arc<Shard>, body: String) -> (u16, String) {
        let outcome = shard.post("A".into(), body.into()).await;
        (outcome.status(), outcome.refusal().unwrap_or_default().to_string())
    }

    fn over(most: u64) -> (u16, String) {
        let text = format!(
            "too large: a post's points of one series of a add up to over {most}: post fewer points at a time"
        );
        (413, text)
    }

    /// Otherwise the sender would retry it for ever.
    #[tokio::test]
    async fn what_is_too_large_by_itself_is_refused_for_good() {
        let shard = Shard::in_memory(&Shared::of_test());
        let most = i64::MAX as u64;
        let taken = (200, String::new());
        let histogram =
            |count: u64, sum: u64| format!(r#""count":"{count}","bucketCounts":["{count}"],"sum":{sum}"#);
        let (long, wide) = (histogram(1, 1 << 53), histogram(u64::MAX, 0));
        for (body, wanted) in [
            (sums(10, &[HALF, HALF]), over(most)),
            (sums(10, &[-HALF, 5, -HALF]), over(most)),
            (sums(HOUR, &[HALF, 0, HALF]), over(most)),
            (points(10, "histogram", &[long.clone(), long.clone()]), over(1 << 53)),
            (points(10, "histogram", &[wide, histogram(1, 0)]), over(u64::MAX)),
            (sums(10, &[HALF, HALF - 1]), taken.clone()),
        ] {
            assert_eq!(said(&shard, body).await, wanted);
        }
        // This one may be taken once the pending points are forwarded.
        let later = sums(100, &[HALF]);
        assert_eq!(said(&shard, later.clone()).await, (503, "too large".into()));
        let flushed = shard.shared_book.lock().take_all().unwrap();
        shard.shared_book.lock().settle(flushed).unwrap();
        assert_eq!(said(&shard, later).await, taken);
    }

    #[tokio::test]
    async fn so_is_a_cumulative_one_and_one_without_numbers() {
        let shard = Shard::in_memory(&Shared::of_test());
        shard.runs.set(Options { initial_value: InitialValue::Keep, ..Options::default() });
        let runs = sums(10, &[i64::MAX, 5]).replace(r#"Temporality":1"#, r#"Temporality":2"#);
        let by = shard.numbered_text(&runs.into()).unwrap().unwrap();
        let outcome = shard.request("A".into(), by.into()).await;
        assert_eq!(outcome.status(), 413, "{outcome:?}");
        let read = shard.shared_book.read("A".into(), sums(10, &[HALF, HALF]).into()).unwrap();
        assert!(matches!(read.post.body, Body::Text(_)));
        let message = over(i64::MAX as u64).1;
        let wanted = Outcome::refused(Reason::PostTooLarge, message);
        assert_eq!(shard.refusal(&read, Refused::TooLarge), wanted);
        let read = shard.shared_book.read("A".into(), sums(10, &[HALF]).into()).unwrap();
        assert_eq!(shard.refusal(&read, Refused::TooLarge), Refused::TooLarge.into());
        for (series, status) in [(SERIES_OF_A_BOOK + 1, 413), (SERIES_OF_A_BOOK, 503)] {
            let read = shard.shared_book.read("A".into(), many(series, 10).into()).unwrap();
            assert_eq!(shard.refusal(&read, Refused::TooManySeries).status(), status);
        }
    }

    #[tokio::test]
    async fn so_is_one_of_more_series_than_all_books_have() {
        let shard = Shard::in_memory(&Shared::of_test());
        let (status, text) = said(&shard, many(SERIES_OF_A_BOOK + 1, 10)).await;
        let wanted = "too many series in a post: over 10000: post fewer series at a time";
        assert_eq!((status, &*text), (413, wanted));
        assert_eq!(said(&shard, sums(10, &[1])).await.0, 200);
        let (status, text) = said(&shard, many(SERIES_OF_A_BOOK, 10)).await;
        assert_eq!((status, &*text), (503, "too many series"), "others may be forgotten");
    }
}
