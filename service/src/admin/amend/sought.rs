//! Which series an operator means, and how one shard changes them.
//!
//! `InAllShards` puts together what all shards have found. A shard of another instance gets a `Sought` as JSON, so its
//! fields are a format between instances.

use super::{time, NAMED};
use crate::admin::named::{named, Named};
use crate::admin::reach::Answer;
use crate::admin::{Asked, LocalShard};
use crate::otlp::series::SeriesKey;
use crate::outbox::Series;
use crate::work::blocking;
use crate::worker::{Amend, Done, Order};
use serde::{Deserialize, Serialize};
use std::sync::Arc;

/// The order.
#[derive(Clone, Debug, PartialEq, Eq, Serialize, Deserialize)]
pub struct Sought {
    /// The series, as the operator named it.
    pub(super) written: String,
    /// The end to which they are rewound, in nanoseconds since 1970. None if they are to be forgotten.
    pub(super) to: Option<u64>,
    /// Whether all series of this name are meant if there are several.
    pub(super) all: bool,
    /// Whether to go on although the sink may count a repeat twice.
    #[serde(default)]
    pub(super) force: bool,
    /// When the order came, by the clock of the instance that got it.
    now: u64,
}

/// A series, and the end that it had.
pub type Was = (SeriesKey, u64);

/// What a shard has of the series that are meant.
#[derive(Debug, Default, PartialEq, Eq, Serialize, Deserialize)]
struct InShard {
    named: Few,
    /// The latest of their ends.
    last: u64,
    /// Those of them that end after the time of the order.
    beyond: Few,
}

/// A number of series, and the first of them by their keys, each with its end.
#[derive(Debug, Default, PartialEq, Eq, Serialize, Deserialize)]
struct Few {
    count: usize,
    first: Vec<(String, u64)>,
}

impl Few {
    fn of<'w>(all: impl Iterator<Item = &'w Was> + Clone) -> Few {
        let first = all.clone().take(NAMED).map(|(key, end)| (key.0.to_string(), *end));
        Few { first: first.collect(), count: all.count() }
    }
}

/// The answers of all shards.
#[derive(Debug, Default, PartialEq, Eq)]
pub struct InAllShards {
    in_shard: Vec<(u16, InShard)>,
}

/// The series to change.
#[derive(Debug, PartialEq, Eq)]
pub struct Meant {
    pub count: usize,
    /// The first of them, by their keys.
    pub first: Vec<Was>,
    /// The shards that have some of them, and the order for these shards.
    pub shards: Vec<u16>,
    pub sought: Sought,
}

impl Sought {
    pub fn new(written: String, to: Option<u64>, all: bool, now: u64) -> Result<Sought, String> {
        written.parse::<Named>()?;
        Ok(Sought { written, to, all, force: false, now })
    }

    /// What the audit log has of it.
    pub fn act(&self) -> Asked {
        let asked = match self.to {
            Some(to) => Asked::new("rewind", format!("{} to {}", self.written, time(to))),
            None => Asked::new("forget", &self.written),
        };
        asked.with("--all", self.all).with("--force", self.force)
    }

    /// The series of a shard that are named so, in the order of their keys.
    fn named(&self, all: impl IntoIterator<Item = (SeriesKey, Series)>) -> Vec<Was> {
        let Ok(of) = self.written.parse::<Named>() else {
            return Vec::new(); // `new` has read it
        };
        let found = all.into_iter().filter(|(key, _)| of.has(key));
        let mut found: Vec<Was> = found.map(|(key, series)| (key, series.frontier)).collect();
        found.sort_unstable();
        found
    }

    fn is_beyond(&self, end: u64) -> bool {
        self.to.is_none_or(|to| end > to)
    }

    fn counted(&self, named: &[Was]) -> InShard {
        InShard {
            named: Few::of(named.iter()),
            last: named.iter().map(|(_, end)| *end).max().unwrap_or(0),
            beyond: Few::of(named.iter().filter(|(_, end)| self.is_beyond(*end))),
        }
    }

    /// Answers what this shard has of the series.
    pub async fn found_in(self, open_shard: &Arc<LocalShard>) -> Answer {
        let open_shard = open_shard.clone();
        let found = blocking(move || self.counted(&self.named(open_shard.shard.outbox.series()))).await;
        Answer::new(200, serde_json::json!(found).to_string())
    }

    /// Changes the series of this shard. None if the shard is closing.
    pub async fn amended_in(self, open_shard: &Arc<LocalShard>) -> Option<Answer> {
        let (of, sought) = (open_shard.clone(), self.clone());
        let mut found = blocking(move || sought.named(of.shard.outbox.series())).await;
        found.retain(|(_, end)| self.is_beyond(*end));
        let is_ahead = found.iter().any(|(_, end)| *end > self.now);
        let series: Vec<SeriesKey> = found.into_iter().map(|(key, _)| key).collect();
        if series.is_empty() {
            return Some(Answer::new(200, "{}")); // an order that is repeated finds nothing to do
        }
        // A series that ends ahead of the clock is rewound to now before it is forgotten. Otherwise a run that begins
        // between now and that end would not count: runs from before the end of a forgotten series don't.
        let put_back = self.to.or(is_ahead.then_some(self.now));
        let forget = self.to.is_none().then(|| Amend::Forget(series.clone()));
        let put_back = put_back.map(|to| Amend::PutBack { series, to });
        for amend in put_back.into_iter().chain(forget) {
            if let Err(refused) = ordered(open_shard, amend).await? {
                return Some(refused);
            }
        }
        Some(Answer::new(200, "{}"))
    }
}

/// Gives the shard's worker an order.
async fn ordered(open_shard: &LocalShard, amend: Amend) -> Option<Result<(), Answer>> {
    Some(match open_shard.orders.send(Order::Amend(amend)).await? {
        Done::Amended(Ok(())) => Ok(()),
        Done::Amended(Err(one)) => {
            let why = "has posts that are kept back of its sender: release it first (`totxegun status`)";
            Err(Answer::told(409, &format!("{} {why}", named(&one))))
        }
        Done::Answered(outcome) => Err(outcome.into()),
        // No worker says so.
        Done::Flushed { .. } | Done::Renamed { .. } | Done::NotRenamed { .. } => return None,
    })
}

impl InAllShards {
    /// The error is the answer of a shard that refused.
    pub fn read(answers: &[(u16, Answer)]) -> Result<InAllShards, Answer> {
        let mut found = InAllShards::default();
        for (shard, answer) in answers {
            let read = serde_json::from_str(&answer.body).ok();
            let in_shard = read.filter(|_| answer.status == 200).ok_or_else(|| answer.clone())?;
            found.in_shard.push((*shard, in_shard));
        }
        Ok(found)
    }

    fn of_all(&self, of: fn(&InShard) -> &Few) -> (usize, Vec<Was>) {
        let all = || self.in_shard.iter().map(|(_, in_shard)| of(in_shard));
        let first = all().flat_map(|few| &few.first);
        let mut first: Vec<Was> = first.map(|(key, end)| (SeriesKey(key.as_str().into()), *end)).collect();
        first.sort_unstable();
        first.truncate(NAMED);
        (all().map(|few| few.count).sum(), first)
    }

    /// Whether no shard has a series of this name.
    pub fn has_none(&self) -> bool {
        self.of_all(|of| &of.named).0 == 0
    }

    /// The series to change, or why there are none.
    pub fn meant(&self, sought: &Sought) -> Result<Meant, String> {
        if let Some(to) = sought.to.filter(|to| *to > sought.now) {
            return Err(format!(
                "{} is after the service's clock, which says {}",
                time(to),
                time(sought.now)
            ));
        }
        let (count, first) = self.of_all(|of| &of.named);
        match &first[..] {
            [] => {
                return Err(format!(
                    "no series is named {}, or it is forgotten already: `totxegun totals` shows names and attributes, as does the view \
                     totals",
                    sought.written
                ))
            }
            [one, another, ..] if !sought.all => {
                return Err(format!(
                    "{count} series are named so, as {} and {}: name more attributes, or give --all",
                    named(&one.0),
                    named(&another.0)
                ))
            }
            _ => {}
        }
        let (beyond, first) = self.of_all(|of| &of.beyond);
        if beyond == 0 {
            let last = self.in_shard.iter().map(|(_, of)| of.last).max().unwrap_or(0);
            return Err(format!("what is named so ends at {}: there is nothing to put back", time(last)));
        }
        let has_some = self.in_shard.iter().filter(|(_, of)| of.beyond.count > 0);
        Ok(Meant {
            count: beyond,
            shards: has_some.map(|(shard, _)| *shard).collect(),
            sought: match (sought.all, first.first()) {
                // By its key: a series of this name that is new meanwhile is not meant.
                (false, Some((key, _))) => Sought { written: key.0.to_string(), ..sought.clone() },
                _ => sought.clone(),
            },
            first,
        })
    }
}

#[cfg(test)]
mod tests {
    use super::super::{HOUR, SECOND};
    use super::*;
    use crate::outbox::Recent;

    const NOW: u64 = 1_795_784_400 * SECOND; // 2026-11-27 13:00

    fn key(name: &str, shop: &str) -> SeriesKey {
        let shop = format!(r#"[{{"key":"shop","value":{{"stringValue":"{shop}"}}}}]"#);
        SeriesKey(format!(r#"[[],"","",[],"{name}","","monotonic",{shop}]"#).into())
    }

    fn series(ends: &[(&str, &str, u64)]) -> Vec<(SeriesKey, Series)> {
        let one = |(name, shop, frontier): &(&str, &str, u64)| {
            let recent = Recent::default();
            let about = Series { frontier: *frontier, owner: Some("A".into()), seen: 0, run: None, recent };
            (key(name, shop), about)
        };
        ends.iter().map(one).collect()
    }

    /// The series of shards 2, 5 and 7.
    fn shards() -> [(u16, Vec<(SeriesKey, Series)>); 3] {
        let two = series(&[("a", "s2", NOW - HOUR), ("b", "s1", NOW + HOUR)]);
        [(2, two), (5, series(&[("a", "s1", NOW + HOUR)])), (7, Vec::new())]
    }

    fn meant(sought: &Sought) -> Result<Meant, String> {
        let answers = shards().map(|(shard, all)| {
            let found = sought.counted(&sought.named(all));
            (shard, Answer::new(200, serde_json::json!(found).to_string()))
        });
        InAllShards::read(&answers).unwrap().meant(sought)
    }

    fn sought(written: &str, to: Option<u64>, all: bool) -> Sought {
        Sought::new(written.into(), to, all, NOW).unwrap()
    }

    #[test]
    fn the_series_that_are_meant_are_found_in_their_shards() {
        let to = Some(NOW - HOUR / 2);
        let one = meant(&sought("a{shop=s1}", to, false)).unwrap();
        assert_eq!((one.count, &one.first[..]), (1, &[(key("a", "s1"), NOW + HOUR)][..]));
        assert_eq!(one.shards, [5]);
        // The order names the series by its key.
        assert_eq!(*one.sought.written, *key("a", "s1").0);
        let those = meant(&sought("a", to, true)).unwrap();
        assert_eq!((those.count, &those.shards[..], &*those.sought.written), (1, &[5][..], "a"));
        let all = meant(&sought("a", None, true)).unwrap();
        assert_eq!((all.count, &all.shards[..]), (2, &[2, 5][..]));
        assert_eq!(all.first[0].0, key("a", "s1"));
    }

    #[test]
    fn it_is_said_why_none_is_meant() {
        let to = Some(NOW - HOUR / 2);
        for (written, to, part) in [
            ("b", Some(NOW + SECOND), "after the service's clock, which says 2026-11-27 13:00:00"),
            ("c", to, "no series is named c, or it is forgotten already: `totxegun totals`"),
            ("a", to, "2 series are named so, as a{\"shop\":\"s1\"} and a{\"shop\":\"s2\"}"),
            ("a{shop=s2}", to, "ends at 2026-11-27 12:00:00: there is nothing to put back"),
        ] {
            let why = meant(&sought(written, to, false)).unwrap_err();
            assert!(why.contains(part), "{written}: {why}");
        }
    }

    #[test]
    fn what_a_shard_refuses_is_said() {
        let refused = Answer::told(400, "no");
        assert_eq!(InAllShards::read(&[(1, refused.clone())]), Err(refused));
    }
}
