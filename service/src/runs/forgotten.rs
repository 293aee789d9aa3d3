//! The ends of forgotten series: what their runs report from before these ends may have been counted already. `law`
//! asks for them.

use super::Since;
use crate::otlp::series::Digest;
use serde::{Deserialize, Serialize};
use std::collections::BTreeMap;
use std::sync::Arc;

/// How many are remembered singly, each in about 60 bytes.
const MOST: usize = if cfg!(test) { 100 } else { 1 << 16 };

/// By the digest of the key. Copies share the map until one of them changes.
#[derive(Clone, Debug, Default, PartialEq, Eq, Serialize, Deserialize)]
#[serde(into = "Vec<Row>", from = "Vec<Row>")]
pub struct Forgotten(Arc<BTreeMap<Digest, u64>>);

/// The written form: the digest as four numbers, its first bytes first, and the end.
type Row = [u64; 5];

impl Forgotten {
    /// The end of a forgotten series; 0 if none is known.
    pub fn of(&self, series: &Digest) -> u64 {
        self.0.get(series).copied().unwrap_or(0)
    }

    pub fn each(&self) -> impl Iterator<Item = (&Digest, u64)> {
        self.0.iter().map(|(series, end)| (series, *end))
    }

    /// Adds forgotten series with their ends. If there are too many, the half that ended first is represented by its
    /// latest end alone, as if every series that ends before it had been forgotten.
    pub fn note(&mut self, ends: impl IntoIterator<Item = (Digest, u64)>, since: &mut Since) {
        let known = Arc::make_mut(&mut self.0);
        for (series, end) in ends {
            let last = known.entry(series).or_default();
            *last = end.max(*last);
        }
        if known.len() > MOST {
            let mut ends: Vec<u64> = known.values().copied().collect();
            let (_, last, _) = ends.select_nth_unstable(known.len() - MOST / 2);
            since.forgotten = since.forgotten.max(*last);
            known.retain(|_, end| *end > since.forgotten);
        }
    }
}

impl From<Forgotten> for Vec<Row> {
    fn from(forgotten: Forgotten) -> Vec<Row> {
        let row = |(series, end): (&Digest, u64)| {
            let mut row = Row::default();
            for (number, bytes) in row.iter_mut().zip(series.as_chunks().0) {
                *number = u64::from_be_bytes(*bytes);
            }
            row[4] = end;
            row
        };
        forgotten.each().map(row).collect()
    }
}

impl From<Vec<Row>> for Forgotten {
    fn from(rows: Vec<Row>) -> Forgotten {
        let read = |row: Row| {
            let mut series = Digest::default();
            for (bytes, number) in series.as_chunks_mut().0.iter_mut().zip(row) {
                *bytes = number.to_be_bytes();
            }
            (series, row[4])
        };
        Forgotten(Arc::new(rows.into_iter().map(read).collect()))
    }
}

#[cfg(test)]
mod tests {
    use super::*;

    fn series(number: u64) -> Digest {
        let mut digest = Digest::default();
        digest[..8].copy_from_slice(&number.to_le_bytes());
        digest
    }

    #[test]
    fn a_series_is_known_by_its_last_end() {
        let (mut forgotten, mut since) = (Forgotten::default(), Since::default());
        forgotten.note([(series(1), 7), (series(2), 9)], &mut since);
        let before = forgotten.clone();
        forgotten.note([(series(1), 5), (series(2), 10)], &mut since);
        assert_eq!([1, 2, 3].map(|number| forgotten.of(&series(number))), [7, 10, 0]);
        assert_eq!((before.of(&series(2)), since.forgotten), (9, 0));
        let rows = Vec::from(forgotten.clone());
        assert_eq!(Forgotten::from(rows), forgotten);
    }

    /// For each series its end, or a later one, is known.
    #[test]
    fn of_too_many_those_that_ended_last_are_remembered() {
        let (mut forgotten, mut since) = (Forgotten::default(), Since { made: 3, forgotten: 2 });
        for number in 1..=10_000u64 {
            forgotten.note([(series(number), 10 * number)], &mut since);
            assert!(forgotten.each().count() <= MOST);
            let known = |number: &u64| forgotten.of(&series(*number)).max(since.forgotten);
            assert!((1..=number).all(|number| known(&number) >= 10 * number));
        }
        assert!(since.made == 3 && since.forgotten < 10 * (10_000 - MOST as u64 / 2 + 1), "{since:?}");
        assert_eq!(forgotten.of(&series(10_000)), 100_000);
    }
}
