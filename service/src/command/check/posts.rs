//! `totxegun check --posts`: prints each post that is in no group as a line of JSON, whichever form it has in the
//! journal.

use super::Ended;
use crate::command::show;
use crate::journal::{Body, Journal, OfRun, Points, Replayed};
use crate::otlp::series::{only, Kind, SeriesKey};
use crate::outbox::Outbox;
use crate::storage::{Durability, Folder};
use serde::Serialize;
use serde_json::value::RawValue;
use std::collections::HashMap;
use std::path::Path;

/// How many bytes are printed at once.
const PIECE: usize = 64 << 10;

#[derive(Serialize)]
struct Line<'a> {
    sender: &'a str,
    /// How many of the post's points were rejected.
    rejected: u64,
    #[serde(flatten)]
    what: What<'a>,
}

#[derive(Serialize)]
#[serde(rename_all = "snake_case")]
enum What<'a> {
    /// The body as the book got it.
    Body(Box<RawValue>),
    Points(Vec<Point<'a>>),
}

#[derive(Serialize)]
struct Point<'a> {
    /// The key of the series.
    series: &'a RawValue,
    start: u64,
    end: u64,
    #[serde(flatten)]
    says: Says,
    /// The run, for a point that was made of a cumulative one.
    #[serde(skip_serializing_if = "Option::is_none")]
    run: Option<&'a OfRun>,
}

#[derive(Serialize)]
#[serde(untagged)]
enum Says {
    Sum {
        value: i64,
    },
    Histogram {
        count: u64,
        #[serde(skip_serializing_if = "Option::is_none")]
        sum: Option<u64>,
        buckets: Vec<u64>,
    },
}

/// The series that the journal's numbers stand for.
#[derive(Default)]
struct Series(HashMap<u64, Option<(Box<RawValue>, Kind)>>);

/// Prints the posts of a folder.
pub(super) fn print(copy: &Path) -> Result<(), Ended> {
    let folder = Folder::open(copy, Durability::Process)?;
    let (journal, outbox) = folder.shard()?;
    put_lines(&journal, &outbox, show)
}

/// Prints posts in the order in which a start gives them to the book, except for those of quarantined senders.
pub(super) fn put_lines(
    journal: &Journal,
    outbox: &Outbox,
    mut put: impl FnMut(&[u8]) -> anyhow::Result<()>,
) -> Result<(), Ended> {
    let (mut series, mut text, mut done) = (Series::default(), Vec::new(), Ok(()));
    journal.posts(outbox.journal(), u64::MAX, |read| {
        done = series.put_line(&mut text, &read);
        if done.is_ok() && text.len() >= PIECE {
            done = put(&std::mem::take(&mut text));
        }
        done.is_ok()
    })?;
    done?;
    Ok(put(&text)?)
}

impl Series {
    fn put_line(&mut self, text: &mut Vec<u8>, read: &Replayed) -> anyhow::Result<()> {
        for (number, name) in &read.named {
            self.0.insert(*number, named(name));
        }
        let what = match &read.post.body {
            // In JSON no string has a line break, so these are white space.
            Body::Text(body) => {
                What::Body(RawValue::from_string(String::from_utf8_lossy(body).replace(['\n', '\r'], " "))?)
            }
            Body::Points(points) => What::Points(self.points(points)?),
        };
        let (sender, rejected) = (read.post.sender.as_str(), read.post.foreign);
        serde_json::to_writer(&mut *text, &Line { sender, rejected, what })?;
        text.push(b'\n');
        Ok(())
    }

    fn points<'a>(&'a self, points: &'a Points) -> anyhow::Result<Vec<Point<'a>>> {
        let mut runs = points.runs().iter().peekable();
        let point = |(place, words): (u32, &[u64])| {
            let run = runs.next_if(|run| run.0 == place).map(|run| &run.1);
            Some(Point { run, ..self.point(words)? })
        };
        let points: Option<Vec<Point<'a>>> = (0..).zip(points.each()).map(point).collect();
        points.ok_or_else(|| anyhow::anyhow!("the journal has a point that is none of its series"))
    }

    fn point(&self, words: &[u64]) -> Option<Point<'_>> {
        let [number, start, end, says @ ..] = words else {
            return None;
        };
        let (series, kind) = self.0.get(number)?.as_ref()?;
        let says = match (kind, says) {
            (Kind::Sum | Kind::Monotonic, [value]) => Says::Sum { value: *value as i64 },
            (Kind::Histogram { .. }, [count, has_sum, sum, buckets @ ..]) => Says::Histogram {
                count: *count,
                sum: (*has_sum != 0).then_some(*sum),
                buckets: buckets.to_vec(),
            },
            _ => return None,
        };
        let (start, end) = (*start, *end);
        Some(Point { series, start, end, says, run: None })
    }
}

fn named(text: &[u8]) -> Option<(Box<RawValue>, Kind)> {
    let key: SeriesKey = only(text)?;
    let kind = key.parts().ok()?.kind;
    Some((RawValue::from_string(key.0.to_string()).ok()?, kind))
}
