//! Points that end too far from the service's clock. They are not taken: a series goes on where its last point ended, so one
//! from a clock that is a year ahead would have all right ones refused for a year. A 400 would have the right points of the post
//! dropped too, a 503 would come again for ever.
//!
//! The clock is looked at where a post comes in, and nowhere else: what was taken once is not compared with it again.

use serde::{Deserialize, Serialize};
use std::fmt;
use std::time::{Duration, SystemTime, UNIX_EPOCH};

/// How far from the service's clock a point may end.
#[derive(Clone, Copy, Debug, Default, PartialEq, Eq)]
pub struct Clock {
    pub max_ahead: Option<Duration>,
    pub max_age: Option<Duration>,
}

/// When points may end: from one time to another, in nanoseconds since 1970.
#[derive(Clone, Copy, Debug, PartialEq, Eq)]
pub struct Window {
    now: u64,
    from: u64,
    until: u64,
}

/// How a point's end differs from the service's clock, where it differs by too much.
#[derive(Clone, Copy, Debug, PartialEq, Eq)]
pub enum Off {
    Ahead(Duration),
    Behind(Duration),
}

/// How many points of a post are off, and by how much the furthest are.
#[derive(Clone, Copy, Debug, Default, PartialEq, Eq, Deserialize, Serialize)]
pub struct OffClock {
    pub ahead: u64,
    pub behind: u64,
    furthest: [Duration; 2],
}

impl Clock {
    /// How far the clock of an instance may be from those of the others: a tenth of what points may be off by.
    pub fn most_off(&self) -> Option<Duration> {
        self.max_ahead.into_iter().chain(self.max_age).min().map(|most| most / 10)
    }

    /// By the time that it is.
    pub fn window(&self) -> Window {
        let since = SystemTime::now().duration_since(UNIX_EPOCH).unwrap_or_default();
        self.window_at(nanoseconds(since))
    }

    fn window_at(&self, now: u64) -> Window {
        let most = |most: Option<Duration>| most.map(nanoseconds);
        Window {
            now,
            from: most(self.max_age).map_or(0, |most| now.saturating_sub(most)),
            until: most(self.max_ahead).map_or(u64::MAX, |most| now.saturating_add(most)),
        }
    }
}

fn nanoseconds(duration: Duration) -> u64 {
    u64::try_from(duration.as_nanos()).unwrap_or(u64::MAX)
}

impl Window {
    /// Whether all points may be taken of which the first ends at one time, and the last at the other.
    pub fn has_all(&self, first: u64, last: u64) -> bool {
        self.from <= first && last <= self.until
    }

    /// None where a point that ends then may be taken.
    pub fn off(&self, end: u64) -> Option<Off> {
        match end {
            end if end > self.until => Some(Off::Ahead(Duration::from_nanos(end - self.now))),
            end if end < self.from => Some(Off::Behind(Duration::from_nanos(self.now - end))),
            _ => None,
        }
    }
}

impl OffClock {
    pub fn count(&mut self, off: Off) {
        let (points, furthest, by) = match off {
            Off::Ahead(by) => (&mut self.ahead, &mut self.furthest[0], by),
            Off::Behind(by) => (&mut self.behind, &mut self.furthest[1], by),
        };
        *points += 1;
        *furthest = by.max(*furthest);
    }

    pub fn points(&self) -> u64 {
        self.ahead + self.behind
    }

    /// These and others.
    pub(super) fn and(self, others: OffClock) -> OffClock {
        let [ahead, behind] = self.furthest;
        OffClock {
            ahead: self.ahead + others.ahead,
            behind: self.behind + others.behind,
            furthest: [ahead.max(others.furthest[0]), behind.max(others.furthest[1])],
        }
    }
}

impl fmt::Display for Off {
    fn fmt(&self, out: &mut fmt::Formatter<'_>) -> fmt::Result {
        match self {
            Off::Ahead(by) => write!(out, "its clock is {} ahead", shown(*by)),
            Off::Behind(by) => write!(out, "its clock is {} behind, or it comes late", shown(*by)),
        }
    }
}

/// Of those that are furthest.
impl fmt::Display for OffClock {
    fn fmt(&self, out: &mut fmt::Formatter<'_>) -> fmt::Result {
        let [ahead, behind] = self.furthest;
        if self.ahead > 0 {
            write!(out, "{}", Off::Ahead(ahead))?;
        }
        if self.behind > 0 {
            let comma = if self.ahead > 0 { ", and " } else { "" };
            write!(out, "{comma}{}", Off::Behind(behind))?;
        }
        Ok(())
    }
}

/// In the greatest unit of which it has two.
fn shown(time: Duration) -> String {
    let seconds = time.as_secs();
    let unit = [(86_400, "d"), (3600, "h"), (60, "m")];
    let found = unit.into_iter().find(|(unit, _)| seconds >= 2 * unit);
    let (unit, name) = found.unwrap_or((1, "s"));
    format!("{}{name}", seconds / unit)
}

#[cfg(test)]
mod tests;
