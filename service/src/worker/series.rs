//! Finds the series of the journal's posts, whether these are text or points by number. `forget` asks it.

use crate::book::series_of_text;
use crate::journal::{Body, Replayed};
use crate::otlp::series::{only, Digest};
use std::collections::{HashMap, HashSet};

/// Takes the posts in the order of the journal, since a file defines a number only once.
#[derive(Default)]
pub(super) struct SeriesOfPosts {
    /// None if the text of a name does not have exactly one point.
    named: HashMap<u64, Option<Digest>>,
}

impl SeriesOfPosts {
    /// The series with points of the profile; none if the book would refuse the whole post.
    pub fn of(&mut self, read: &Replayed) -> Option<HashSet<Digest>> {
        for (number, text) in &read.named {
            self.named.insert(*number, only(text).map(|key| key.digest()));
        }
        match &read.post.body {
            Body::Text(body) => series_of_text(body),
            Body::Points(points) => points.numbers().map(|number| *self.named.get(&number)?).collect(),
        }
    }
}

#[cfg(test)]
mod tests {
    use super::*;
    use crate::journal::{Points, Post};
    use bytes::Bytes;

    fn text(name: &str, end: u64) -> Bytes {
        format!(
            "{{\"resourceMetrics\":[{{\"scopeMetrics\":[{{\"metrics\":[{{\"name\":\"{name}\",\"sum\":{{\
             \"aggregationTemporality\":1,\"dataPoints\":[{{\"asInt\":\"5\",\"startTimeUnixNano\":\"1\",\
             \"timeUnixNano\":\"{end}\"}}]}}}}]}}]}}]}}"
        )
        .into()
    }

    fn of(series: &mut SeriesOfPosts, body: Body, named: &[(u64, &str)]) -> Option<HashSet<Digest>> {
        let post = Post { sender: "s".into(), foreign: 0, body };
        let named = named.iter().map(|(number, name)| (*number, text(name, 2)));
        series.of(&Replayed { post, named: named.collect() })
    }

    fn series<const N: usize>(names: [&str; N]) -> Option<HashSet<Digest>> {
        Some(names.map(|name| only(&text(name, 3)).unwrap().digest()).into())
    }

    fn points(of: &[(u64, u64)]) -> Body {
        let mut points = Points::default();
        for (number, end) in of {
            points.push(*number, 1, *end, [5]);
        }
        Body::Points(points)
    }

    #[test]
    fn a_number_stands_for_what_was_said_last() {
        let mut read = SeriesOfPosts::default();
        let both = of(&mut read, points(&[(0, 9), (7, 8), (0, 7)]), &[(7, "b"), (0, "a")]);
        assert_eq!(both, series(["a", "b"]));
        let one = of(&mut read, Body::Text(text("c", 6)), &[(0, "d")]);
        assert_eq!(one, series(["c"]));
        let again = of(&mut read, points(&[(0, 5), (7, 4)]), &[]);
        assert_eq!(again, series(["b", "d"]));
        assert_eq!(of(&mut read, points(&[(1, 5)]), &[]), None);
    }
}
