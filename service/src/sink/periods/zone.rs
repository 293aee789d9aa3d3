//! A time zone: how far its clocks are ahead of UTC, by the system's data.
//!
//! The data are the files of the package `tzdata` (TZif, RFC 8536), which PostgreSQL on Debian reads too. Debian's crate of time
//! zones has the rules of the year in which it was made, and a bill by old rules would be wrong.

use crate::log::{date, days, utc};
use std::fmt;
use std::path::PathBuf;
use std::str::FromStr;

const HOUR: i64 = 3600;
const DAY: i64 = 24 * HOUR;
/// No clock is further from UTC, in hours.
const MAX_OFFSET: i64 = 26;

/// Offsets are seconds ahead of UTC, and times seconds since 1970.
#[derive(Clone, Debug, PartialEq, Eq)]
pub struct Zone {
    name: String,
    /// Before the first change.
    first: i64,
    /// From when on which offset counts, in order.
    changes: Vec<(i64, i64)>,
    /// After the last change.
    rule: Option<Rule>,
}

/// Each year alike.
#[derive(Clone, Debug, PartialEq, Eq)]
struct Rule {
    standard: i64,
    /// None if clocks stay as they are.
    saving: Option<Saving>,
}

#[derive(Clone, Debug, PartialEq, Eq)]
struct Saving {
    offset: i64,
    /// When it begins, by standard time, and when it ends, by its own time.
    begin: YearDay,
    end: YearDay,
}

/// A day of a year, and a time in seconds after its midnight.
#[derive(Clone, Debug, PartialEq, Eq)]
struct YearDay {
    day: Day,
    time: i64,
}

#[derive(Clone, Debug, PartialEq, Eq)]
enum Day {
    /// The week, from 1 to 5 (the last one), and the day of the week, from 0 (Sunday).
    OfMonth { month: i64, week: i64, weekday: i64 },
    /// From 1, without February 29.
    Julian(i64),
    /// From 0.
    OfYear(i64),
}

impl FromStr for Zone {
    type Err = String;

    fn from_str(name: &str) -> Result<Zone, String> {
        let is_name = |part: &str| {
            let known = |byte: u8| byte.is_ascii_alphanumeric() || b"+-_".contains(&byte);
            !part.is_empty() && part.bytes().all(known)
        };
        if !name.split('/').all(is_name) {
            return Err(format!("`{name}` is no time zone: write one as Europe/Berlin"));
        }
        let folder = std::env::var_os("TZDIR").unwrap_or_else(|| "/usr/share/zoneinfo".into());
        let path = PathBuf::from(folder).join(name);
        let bytes = std::fs::read(&path).map_err(|error| {
            let path = path.display();
            format!("no time zone {name} is known here ({path}: {error}): look at the name, or install the package tzdata")
        })?;
        let zone = Zone::read(name, &bytes);
        zone.ok_or_else(|| format!("{} is no file of a time zone (TZif, version 2 or later)", path.display()))
    }
}

impl fmt::Display for Zone {
    fn fmt(&self, to: &mut fmt::Formatter<'_>) -> fmt::Result {
        to.write_str(&self.name)
    }
}

impl Zone {
    pub fn utc() -> Zone {
        Zone { name: "UTC".into(), first: 0, changes: Vec::new(), rule: None }
    }

    /// What its clocks show so many seconds after 1970: `2026-11-25 14:26:23`.
    pub fn shown(&self, seconds: u64) -> String {
        let seconds = seconds.cast_signed();
        utc((seconds + self.offset(seconds)).max(0).unsigned_abs())
    }

    fn read(name: &str, bytes: &[u8]) -> Option<Zone> {
        // The first block is one of 32-bit times, which is there for old programs.
        let (mut rest, counts) = head(bytes)?;
        rest = rest.get(counts.length(4)..)?;
        let (mut rest, counts) = head(rest)?;
        let footer = rest.get(counts.length(8)..)?;
        let times = take(&mut rest, counts.times * 8)?;
        let kinds = take(&mut rest, counts.times)?;
        let types = take(&mut rest, counts.types * 6)?;
        let offsets: Vec<i64> = types
            .chunks_exact(6)
            .filter_map(|kind| Some(i64::from(i32::from_be_bytes(*kind.first_chunk()?))))
            .collect();
        let times = times.chunks_exact(8).filter_map(|time| Some(i64::from_be_bytes(*time.first_chunk()?)));
        let changes = times.zip(kinds).map(|(time, kind)| Some((time, *offsets.get(usize::from(*kind))?)));
        let footer = std::str::from_utf8(footer).ok()?.strip_prefix('\n')?.strip_suffix('\n')?;
        Some(Zone {
            name: name.into(),
            first: *offsets.first()?,
            changes: changes.collect::<Option<_>>()?,
            rule: if footer.is_empty() { None } else { Some(Rule::read(footer)?) },
        })
    }

    /// How many seconds its clocks are ahead of UTC then.
    fn offset(&self, at: i64) -> i64 {
        match self.changes.partition_point(|(time, _)| *time <= at) {
            0 => self.first,
            before if before < self.changes.len() => self.changes[before - 1].1,
            last => self.rule.as_ref().map_or(self.changes[last - 1].1, |rule| rule.offset(at)),
        }
    }

    /// The hour of UTC since 1970 from which on its clocks show this hour or a later one. The error is that it is not a whole one.
    pub fn begin_of(&self, local_hour: i64) -> Result<i64, String> {
        let is_before = |second: i64| second + self.offset(second) < local_hour * HOUR;
        let hours = local_hour - MAX_OFFSET..local_hour + MAX_OFFSET;
        let first = hours.rev().find(|hour| is_before(hour * HOUR)).map_or(local_hour, |last| last + 1);
        if is_before(first * HOUR - 1) {
            return Ok(first);
        }
        let offset = self.offset(first * HOUR);
        let (sign, offset) = (if offset < 0 { '-' } else { '+' }, offset.abs());
        Err(format!(
            "{} has clocks at UTC{sign}{:02}:{:02} then, and the sink has whole hours of UTC: take a zone of whole hours",
            self.name,
            offset / HOUR,
            offset % HOUR / 60
        ))
    }
}

/// How many of each a block has.
struct Counts {
    times: usize,
    types: usize,
    characters: usize,
    leaps: usize,
    standard: usize,
    utc: usize,
}

impl Counts {
    /// Of the block behind a head, whose times have so many bytes.
    fn length(&self, time: usize) -> usize {
        self.times * (time + 1)
            + self.types * 6
            + self.characters
            + self.leaps * (time + 4)
            + self.standard
            + self.utc
    }
}

fn head(bytes: &[u8]) -> Option<(&[u8], Counts)> {
    let (head, rest) = bytes.split_at_checked(44)?;
    let version = *head.strip_prefix(b"TZif")?.first()?;
    let count = |place: usize| {
        let bytes = head.get(20 + 4 * place..)?.first_chunk()?;
        usize::try_from(u32::from_be_bytes(*bytes)).ok()
    };
    let counts = Counts {
        utc: count(0)?,
        standard: count(1)?,
        leaps: count(2)?,
        times: count(3)?,
        types: count(4)?,
        characters: count(5)?,
    };
    (version >= b'2').then_some((rest, counts))
}

fn take<'b>(rest: &mut &'b [u8], count: usize) -> Option<&'b [u8]> {
    let (taken, left) = rest.split_at_checked(count)?;
    *rest = left;
    Some(taken)
}

impl Rule {
    /// As POSIX writes the variable TZ: `CET-1CEST,M3.5.0,M10.5.0/3`.
    fn read(text: &str) -> Option<Rule> {
        let mut rest = text;
        skip_name(&mut rest)?;
        let standard = -time(&mut rest)?;
        if rest.is_empty() {
            return Some(Rule { standard, saving: None });
        }
        skip_name(&mut rest)?;
        let offset = match rest.starts_with(',') {
            true => standard + HOUR,
            false => -time(&mut rest)?,
        };
        let (begin, end) = (YearDay::read(&mut rest)?, YearDay::read(&mut rest)?);
        rest.is_empty().then_some(Rule { standard, saving: Some(Saving { offset, begin, end }) })
    }

    fn offset(&self, at: i64) -> i64 {
        let Some(Saving { offset, begin, end }) = &self.saving else { return self.standard };
        let (year, _, _) = date((at + self.standard).div_euclid(DAY).unsigned_abs());
        let (begin, end) = (begin.of(year as i64) - self.standard, end.of(year as i64) - offset);
        let is_saving = match begin < end {
            true => begin <= at && at < end,
            false => !(end <= at && at < begin),
        };
        if is_saving {
            *offset
        } else {
            self.standard
        }
    }
}

impl YearDay {
    fn read(rest: &mut &str) -> Option<YearDay> {
        *rest = rest.strip_prefix(',')?;
        let day = match rest.as_bytes().first()? {
            b'M' => {
                *rest = &rest[1..];
                let month = number(rest)?;
                let week = number(skip(rest, '.')?)?;
                Day::OfMonth { month, week, weekday: number(skip(rest, '.')?)? }
            }
            b'J' => {
                *rest = &rest[1..];
                Day::Julian(number(rest)?)
            }
            _ => Day::OfYear(number(rest)?),
        };
        let time = match skip(rest, '/') {
            Some(rest) => time(rest)?,
            None => 2 * HOUR,
        };
        Some(YearDay { day, time })
    }

    /// In seconds since 1970, by the clocks that count there then.
    fn of(&self, year: i64) -> i64 {
        let day = match self.day {
            Day::OfYear(day) => days(year, 1) + day,
            Day::Julian(day) => {
                let has_leap_day = days(year, 3) - days(year, 2) == 29;
                days(year, 1) + day - 1 + i64::from(has_leap_day && day > 59)
            }
            Day::OfMonth { month, week, weekday } => {
                let (first, next) = (days(year, month), days(year, month + 1));
                // 1970 began with a Thursday.
                let first = first + (weekday - (first + 4)).rem_euclid(7);
                let last = first + 7 * (week - 1);
                if last < next {
                    last
                } else {
                    last - 7
                }
            }
        };
        day * DAY + self.time
    }
}

fn skip<'r, 't>(rest: &'r mut &'t str, character: char) -> Option<&'r mut &'t str> {
    *rest = rest.strip_prefix(character)?;
    Some(rest)
}

/// A zone's abbreviation: letters, or what stands between `<` and `>`.
fn skip_name(rest: &mut &str) -> Option<()> {
    let length = match rest.starts_with('<') {
        true => rest.find('>')? + 1,
        false => rest.find(|character: char| !character.is_ascii_alphabetic()).unwrap_or(rest.len()),
    };
    *rest = &rest[length..];
    (length > 0).then_some(())
}

/// `[+-]hh[:mm[:ss]]`, in seconds.
fn time(rest: &mut &str) -> Option<i64> {
    let sign = if skip(rest, '-').is_some() { -1 } else { 1 };
    let _ = skip(rest, '+');
    let mut seconds = number(rest)? * HOUR;
    for unit in [60, 1] {
        if let Some(rest) = skip(rest, ':') {
            seconds += number(rest)? * unit;
        }
    }
    Some(sign * seconds)
}

fn number(rest: &mut &str) -> Option<i64> {
    let length = rest.find(|character: char| !character.is_ascii_digit()).unwrap_or(rest.len());
    let (digits, left) = rest.split_at(length);
    *rest = left;
    digits.parse().ok()
}

#[cfg(test)]
mod tests;
