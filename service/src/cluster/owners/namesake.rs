//! Whether another process beats under this instance's name. The row numbers processes in the order in which they began, and counts
//! the beats of each: so a process sees whether an earlier one goes on, and takes nothing before it knows.

use crate::cluster::terms::Instance;
use std::collections::BTreeMap;

/// How many heartbeats of an earlier process, between our own, end this process. After a kill a few may still arrive.
const LATER: u32 = 4;
/// After how many heartbeats of ours without one of an earlier process that one counts as gone.
const QUIET: u32 = 4;
/// For how many heartbeats the start of a later process is reported. By then that process has ended.
const SAID: u32 = 20;

#[derive(Default)]
pub(super) struct Namesake {
    /// How many processes had started, and for how many heartbeats that has been so.
    begun: u64,
    since: u32,
    /// How often each process had beaten, and own beats since the last one of an earlier process; and how many of this process had
    /// one between.
    beats: Option<BTreeMap<u64, u64>>,
    quiet: u32,
    between: u32,
    /// The number of this process.
    life: u64,
}

impl Namesake {
    /// Whether there is another process, as far as is known.
    pub fn is_there(&self) -> bool {
        self.between > 0 || self.begun > self.life && self.since < SAID
    }

    /// Whether shards with this name may still belong to an earlier process. Nothing is taken until that is known.
    pub fn may_own(&self) -> bool {
        self.life > 1 && self.quiet < QUIET
    }

    /// Whether the other process had the name before this one started.
    pub fn came_later(&self) -> bool {
        self.between >= LATER
    }

    /// Takes what a heartbeat has read of the own row. `life` is the number of this process.
    pub fn note(&mut self, row: &Instance, life: u64) {
        self.since = if row.life == self.begun { self.since.saturating_add(1) } else { 0 };
        (self.begun, self.life) = (row.life, life);
        let has_beaten = self.beats.as_ref().is_some_and(|before| {
            row.lives
                .range(..life)
                .any(|(earlier, beats)| before.get(earlier).is_none_or(|before| beats > before))
        });
        self.beats = Some(row.lives.clone());
        match has_beaten {
            true => (self.quiet, self.between) = (0, self.between + 1),
            false => self.quiet = self.quiet.saturating_add(1),
        }
        if self.quiet >= QUIET {
            self.between = 0;
        }
    }
}
