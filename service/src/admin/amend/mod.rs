//! Rewinds the end of series, for example of those that a wrong clock put ahead, or forgets series, so that another
//! sender may have them.
//!
//! `AdminApi::amend` flushes all shards first, so that each knows all of its series; then it has each shard find the series
//! that are meant (`sought`), and changes those of the shards that are here. Without `--force` nothing is done if the
//! sink could count a repeat twice.

mod sought;

pub(super) use sought::Sought;

use super::named::named;
use super::query::Query;
use super::reach::{shards_shown, Answer, Command};
use super::{Actor, AdminApi, LocalShard, FORCE};
use crate::log::{since_1970, utc};
use crate::otlp::series::SeriesKey;
use crate::sink::periods::{hour_shown, seconds_of};
use crate::sink::sql::totals::Hour;
use sought::{InAllShards, Meant};
use std::collections::BTreeMap;
use std::sync::Arc;

const SECOND: u64 = 1_000_000_000;
const HOUR: u64 = 3600 * SECOND;

/// How many series an answer names, and how many hours of each.
const NAMED: usize = 5;
const HOURS: usize = 5;

impl AdminApi {
    pub(super) async fn amend(self: &Arc<Self>, actor: Actor, to: Option<&str>, query: Query<'_>) -> Answer {
        let sought = match read(to, query) {
            Ok(read) => read,
            Err(why) => return Answer::told(400, &why),
        };
        let asked = Some(sought.act());
        let doing = |who| async move { self.amended(who, sought).await.unwrap_or_else(|refused| refused) };
        self.acts.recorded(actor, asked, doing, Answer::outcome).await
    }

    async fn amended(self: &Arc<Self>, who: String, sought: Sought) -> Result<Answer, Answer> {
        // After a flush each shard knows all that was posted.
        let flushed = self.carry_out(&who, &Command::Flush).await;
        if flushed.status != 200 {
            return Err(flushed);
        }
        let found = self.in_all_shards(&who, &Command::Find(sought.clone())).await?;
        if sought.to.is_none() && InAllShards::read(&found)?.has_none() {
            let nothing = "nothing of it is known yet, or it is forgotten already";
            return Ok(Answer::told(200, &format!("no series is named {}: {nothing}", sought.written)));
        }
        if self.totals.is_none() && !sought.force {
            let what = "can't tell what it has already, so what is posted again would count twice";
            let what = format!("the sink {} {what}", self.sink.name());
            return Err(Answer::told(409, &format!("{what}; give --force where nobody posts it again")));
        }
        let meant_in = |found: &[(u16, Answer)], sought: &Sought| {
            InAllShards::read(found)?.meant(sought).map_err(|why| Answer::told(409, &why))
        };
        let all = meant_in(&found, &sought)?;
        let (mut here, mut rest) = (BTreeMap::new(), None);
        for shard in all.shards.iter().copied() {
            match self.unit_here(shard) {
                Ok(open_shard) => drop(here.insert(shard, open_shard)),
                Err(elsewhere) => rest = rest.or(Some(elsewhere)),
            }
        }
        let told = match here.is_empty() {
            true => String::new(),
            false => {
                amended_here(&here, &all.sought).await?;
                let of_here: Vec<_> =
                    found.into_iter().filter(|(shard, _)| here.contains_key(shard)).collect();
                self.told(&sought, &meant_in(&of_here, &all.sought)?).await
            }
        };
        match rest {
            None => Ok(Answer::told(200, &told)),
            Some(rest) if told.is_empty() => Err(rest),
            Some(rest) => {
                let told = format!("{told}\nothers are elsewhere: {}", rest.message());
                Err(Answer { location: rest.location, ..Answer::told(rest.status, &told) })
            }
        }
    }

    async fn told(&self, sought: &Sought, meant: &Meant) -> String {
        let mut told = match (sought.to, meant.count) {
            (Some(to), 1) => format!("1 series ends at {} now", time(to)),
            (Some(to), more) => format!("{more} series end at {} now", time(to)),
            (None, 1) => "1 series is forgotten: whoever posts it next has it".to_string(),
            (None, more) => format!("{more} series are forgotten: whoever posts one next has it"),
        };
        for (key, end) in &meant.first {
            told += &format!("\n{} ended at {}", named(key), time(*end));
            if let Some(to) = sought.to {
                told += &self.beyond(key, to).await;
            }
        }
        if meant.count > meant.first.len() {
            told += &format!("\nand {} more", meant.count - meant.first.len());
        }
        told + match (&self.totals, sought.to) {
            (Some(_), Some(_)) => {
                "\nwhat is posted from then on counts, beside what the sink has after it: `totxegun adjust` takes out what is wrong"
            }
            (Some(_), None) => {
                "\nwhat is posted again of that time is taken again; the sink adds nothing that begins before the series ends there (dead-letters/)"
            }
            (None, _) => "\nwhat is posted again of that time counts twice",
        }
    }

    /// Says what the sink has of a series from the hour of `to` on.
    async fn beyond(&self, key: &SeriesKey, to: u64) -> String {
        let Some(totals) = &self.totals else {
            return String::new();
        };
        let what = match totals.hours(key.digest(), to / HOUR).await {
            Err(why) => format!("the sink can't be read: {why}"),
            Ok(None) => "the sink has nothing of it yet".into(),
            Ok(Some(hours)) if hours.is_empty() => "the sink has nothing of it from that hour on".into(),
            Ok(Some(hours)) => format!("the sink has of it from that hour on {} (by_hour)", in_hours(&hours)),
        };
        format!("; {what}")
    }
}

/// Changes these shards, one after the other. It stops at the first that refuses.
async fn amended_here(shards: &BTreeMap<u16, Arc<LocalShard>>, sought: &Sought) -> Result<(), Answer> {
    let mut done = Vec::new();
    for (shard, open_shard) in shards {
        let moved = || Answer::told(503, &format!("shard {shard} is being moved: give the order again"));
        let answer = sought.clone().amended_in(open_shard).await.unwrap_or_else(moved);
        if answer.status != 200 {
            return Err(refused_by(&answer, &done));
        }
        done.push(*shard);
    }
    Ok(())
}

/// The refusal of a shard, with the shards in which the order is done already.
fn refused_by(refused: &Answer, done: &[u16]) -> Answer {
    match done {
        [] => refused.clone(),
        done => {
            let why = format!("{}; it is done in {}", refused.message(), shards_shown(done));
            Answer::told(refused.status, &why)
        }
    }
}

fn in_hours(hours: &[Hour]) -> String {
    let shown = hours.iter().rev().take(HOURS).map(|hour| {
        let count = hour.count.map(|count| format!("{count} values, "));
        let hour_of = hour_shown(hour.hour.cast_signed());
        format!("{}{} in {hour_of}", count.unwrap_or_default(), hour.total)
    });
    let mut shown: Vec<String> = shown.collect();
    if hours.len() > HOURS {
        shown.push(format!("something in {} hours before", hours.len() - HOURS));
    }
    shown.join(", ")
}

/// Reads the order.
fn read(to: Option<&str>, query: Query<'_>) -> Result<Sought, String> {
    let to = to.map(|to| {
        let seconds = seconds_of(to).filter(|seconds| *seconds > 0);
        let nanoseconds = seconds.and_then(|seconds| seconds.checked_mul(SECOND));
        nanoseconds.ok_or_else(|| format!("`{to}` is no time: write 2026-11-05T13:30:15, of UTC"))
    });
    let to = to.transpose()?;
    let (written, now) = (query.value("series")?, since_1970().as_nanos() as u64);
    let mut sought = Sought::new(written, to, query.has("all"), now)?;
    sought.force = query.has(FORCE);
    Ok(sought)
}

/// The time in UTC, to the second.
fn time(nanoseconds: u64) -> String {
    utc(nanoseconds / SECOND)
}

#[cfg(test)]
mod tests {
    use super::*;

    #[test]
    fn what_is_asked_for_is_read() {
        let one = read(Some("2026-11-27T12:00:00"), Query("series=a%7Bshop%3Ds1%7D&all")).unwrap();
        let noon = 1_795_780_800 * SECOND;
        assert_eq!((one.to, &*one.written, one.all, one.force), (Some(noon), "a{shop=s1}", true, false));
        let one = read(None, Query("series=a&force")).unwrap();
        assert_eq!((one.to, one.all, one.force), (None, false, true));
        for (to, query, part) in [
            (Some("yesterday"), "series=a", "no time"),
            (Some("1970-01-01"), "series=a", "no time"),
            (None, "", "names no series"),
            (None, "series=a%7B", "names no series"),
        ] {
            let why = read(to, Query(query)).unwrap_err();
            assert!(why.contains(part), "{to:?}: {why}");
        }
    }

    #[test]
    fn what_is_refused_in_one_shard_says_where_it_is_done() {
        let held = Answer::told(409, "a has posts");
        assert_eq!(refused_by(&held, &[]), held);
        let both = refused_by(&held, &[1, 4]);
        assert_eq!(both, Answer::told(409, "a has posts; it is done in shards 1 and 4"));
    }
}
