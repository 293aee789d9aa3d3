//! The snapshot at the head of each segment: everything that the outbox knows, except the requests.
//!
//! A start reads the last segment's snapshot and the records after it; of earlier segments it needs only waiting
//! requests.

use super::keys::each_part;
use super::parts::put_long;
use super::rows::{packed_pieces, unpacked, PIECE, SNAPSHOT};
use super::state::{Facts, State};
use super::table::{whole_seconds, Heard, KnownSeries, Table};
use super::texts::{Texts, PART};
use super::{PointsDigest, Recent, Series};
use crate::otlp::series::SeriesKey;
use crate::runs::{EndedRun, Point, Run};
use serde::{Deserialize, Deserializer, Serialize};
use std::ops::Range;
use std::sync::Arc;

/// A copy of the state, to write without the lock.
pub struct Snapshot {
    pub facts: Facts,
    /// By id, without gaps.
    pub series: Vec<Series>,
    pub texts: Texts,
}

/// The JSON of a snapshot.
#[derive(Deserialize)]
struct Content {
    facts: Facts,
    runs: Vec<RunRow>,
    recent: Vec<RecentRow>,
    series: Table,
}

/// A part of what is written.
enum Piece {
    Text(Vec<u8>),
    /// The rows of the series with these ids.
    Rows(Range<u32>),
}

/// Key, frontier, when last seen (seconds since 1970), owner.
type Row<T> = (SeriesKey, u64, u64, Option<T>);

fn row(key: SeriesKey, series: &Series) -> Row<&str> {
    (key, series.frontier, u64::from(series.seen), series.owner.as_deref())
}

/// The run of a series: its id, its start, how far the frontier is after the last point, that point's values, the
/// interval, and the start and last time of the previous run.
#[derive(Serialize, Deserialize)]
pub struct RunRow(pub u32, u64, u64, Vec<u64>, u64, (u64, u64));

impl RunRow {
    pub fn of(id: u32, frontier: u64, run: &Run) -> RunRow {
        let Run { last, interval, before } = run;
        let (after, before) = (frontier.wrapping_sub(last.time), (before.start, before.time));
        RunRow(id, last.start, after, last.words.clone(), *interval, before)
    }

    pub fn run(self, frontier: u64) -> Arc<Run> {
        let RunRow(_, start, after, words, interval, before) = self;
        let last = Point { start, time: frontier.wrapping_sub(after), words };
        Arc::new(Run { last, interval, before: EndedRun { start: before.0, time: before.1 } })
    }
}

/// The id of a series, and the digests of its points in the last two posts.
#[derive(Serialize, Deserialize)]
pub struct RecentRow(pub u32, u64, u64);

impl RecentRow {
    /// None if no digest is known.
    pub fn of(id: u32, recent: Recent) -> Option<RecentRow> {
        let [last, before] = recent.0.map(u64::from);
        (last != 0).then_some(RecentRow(id, last, before))
    }

    pub fn recent(&self) -> Recent {
        Recent([self.1, self.2].map(PointsDigest::from))
    }
}

impl Snapshot {
    pub fn records(&self) -> Vec<u8> {
        let run = |(id, series): (u32, &Series)| {
            let run = series.run.as_ref()?;
            Some(RunRow::of(id, series.frontier, run))
        };
        let runs: Vec<RunRow> = (0..).zip(&self.series).filter_map(run).collect();
        let recent = |(id, series): (u32, &Series)| RecentRow::of(id, series.recent);
        let recent: Vec<RecentRow> = (0..).zip(&self.series).filter_map(recent).collect();
        let (facts, runs, recent) = (json(&self.facts), json(&runs), json(&recent));
        let ahead = format!(r#"{{"facts":{facts},"runs":{runs},"recent":{recent},"series":["#);
        let text = |text: &[u8]| Piece::Text(text.into());
        let pieces = ahead.as_bytes().chunks(PIECE).map(text);
        let pieces = pieces.chain(self.parts()).chain([text(b"]}")]);
        let mut out = Vec::new();
        put_long(&mut out, SNAPSHOT, &packed_pieces(pieces, |piece| self.written(piece)));
        out
    }

    fn parts(&self) -> impl Iterator<Item = Piece> {
        let count = self.texts.count();
        let begins = (0..count).step_by(PART);
        begins.map(move |begin| Piece::Rows(begin..count.min(begin + PART as u32)))
    }

    fn written(&self, piece: Piece) -> Vec<u8> {
        match piece {
            Piece::Text(text) => text,
            Piece::Rows(ids) => {
                let rows = self.texts.of(ids.clone()).zip(&self.series[ids.start as usize..]);
                let mut out = Vec::new();
                for (key, series) in rows {
                    out.push(b',');
                    out.extend_from_slice(json(&row(key, series)).as_bytes());
                }
                out.split_off(usize::from(ids.start == 0)) // no comma before the first
            }
        }
    }

    pub fn read(bytes: &[u8]) -> Option<State> {
        let Content { facts, runs, recent, series } = unpacked(bytes)?;
        let mut state = State { facts, series, ..State::default() };
        for row in runs {
            let series = &mut state.series.at_mut(row.0)?.series;
            series.run = Some(row.run(series.frontier));
        }
        for row in recent {
            state.series.at_mut(row.0)?.series.recent = row.recent();
        }
        Some(state)
    }
}

fn json(value: &impl Serialize) -> String {
    // The keys of these types are all strings, so this can't fail.
    serde_json::to_string(value).unwrap_or_default()
}

impl<'de> Deserialize<'de> for Table {
    fn deserialize<D: Deserializer<'de>>(deserializer: D) -> Result<Table, D::Error> {
        let mut table = Table::default();
        let of = |(key, frontier, seen, owner): Row<String>| (key, (frontier, seen, owner));
        each_part(deserializer, of, |keys, says| {
            let known = says.into_iter().map(|(frontier, seen, owner)| {
                let (owner, run) = (owner.map(|owner| table.shared(&owner)), None);
                let (seen, recent) = (whole_seconds(seen), Recent::default());
                KnownSeries { series: Series { frontier, owner, seen, run, recent }, heard: Heard::default() }
            });
            let known: Vec<KnownSeries> = known.collect();
            table.put_all(&keys, known);
        })?;
        Ok(table)
    }
}
