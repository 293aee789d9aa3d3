//! The changes of an outbox. Each is one record, except a group (`rows`).

use super::keys::Keys;
use super::table::Heard;
use super::Recent;
use crate::runs::Run;
use serde::{Deserialize, Serialize};
use std::ops::Range;
use std::sync::Arc;

/// The names of a metric and of its unit.
pub type UnitOfMetric = (String, String);

#[derive(Debug)]
pub enum Change {
    Group {
        group: Box<Group>,
        count: u64,
        segment: u64,
        items: Range<u64>,
    },
    /// `length` is that of the record of the first waiting request.
    Acknowledge {
        number: u64,
        length: u64,
    },
    Quarantine(String),
    Lift(String),
    Forget(Vec<u32>),
    Beside(Vec<UnitOfMetric>),
}

/// The owner of each series, if it is known.
pub type Owners = Vec<Option<Arc<str>>>;

/// What one checkpoint flushed.
#[derive(Debug)]
pub struct Group {
    /// The number of its first request.
    pub first: u64,
    pub epoch: Arc<str>,
    pub since: u64,
    /// When that was by a clock that is never set, if this run made the group.
    pub heard: Heard,
    /// Posts in the journal's segments before this one are in this group or an earlier one.
    pub journal: u64,
    /// What the group does to each series, by ascending id.
    pub ends: Vec<End>,
    /// The keys of new series, which get the next ids. Their entries are the last ones of `ends`.
    pub new: Keys,
    /// The owners of the new series.
    pub owners: Owners,
    /// The digests of the last posts, by series id; also for series of quarantined senders, which are in no group yet.
    pub recent: Vec<(u32, Recent)>,
    /// A sender that has another name from here on.
    pub renamed: Option<SenderRename>,
}

/// All series of one sender belong to another one.
#[derive(Clone, Debug, PartialEq, Eq, Serialize, Deserialize)]
pub struct SenderRename {
    pub from: String,
    pub to: String,
}

/// What a group does to a series.
#[derive(Debug)]
pub struct End {
    pub id: u32,
    /// The end of its last point.
    pub end: u64,
    pub run: Option<Arc<Run>>,
}
