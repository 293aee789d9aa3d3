//! Reads the segments of an earlier run, for `open`.
//!
//! In closed segments only the heads and commits of groups are read. The bodies are skipped, and checked when they are
//! delivered. The last segment is read in full, since a crash may have torn its last group.

use super::changes::{Change, Group};
use super::parts;
use super::rows::{self, EndsRead, GroupHead};
use super::snapshot::Snapshot;
use super::state::{Batch, State};
use super::table::{Heard, Table};
use crate::storage::disk::Disk;
use crate::storage::records::{Next, Reader, Which, HEADER};
use crate::storage::torn_tail::{check_torn, CHANGED};
use crate::storage::{segment, Fault};
use std::path::Path;
use std::sync::Arc;

const NOT_WRITTEN: &str = "is not a valid outbox record: restore this file from a copy";

/// A segment that is being read.
pub(super) struct Reading {
    disk: Disk,
    pub reader: Reader,
    number: u64,
    /// The last epoch read, which most groups share.
    epoch: Arc<str>,
}

/// The records after the head of a group.
enum Items {
    Whole {
        journal: u64,
        ends: Vec<u8>,
        from: u64,
        to: u64,
    },
    /// The offset at which they end early.
    Torn(u64),
}

impl Reading {
    pub fn open(disk: &Disk, folder: &Path, number: u64) -> Result<Reading, Fault> {
        let path = segment::path(folder, number);
        let (reader, first) = Reader::open(disk, &path, Which::Outbox, number, None)?;
        if first == Next::Stop {
            return Err(reader.damaged(0, CHANGED));
        }
        Ok(Reading { disk: disk.clone(), reader, number, epoch: "".into() })
    }

    /// Finds the groups of a closed segment.
    pub fn pass_over(mut self, batches: &mut Vec<Batch>) -> Result<(), Fault> {
        loop {
            match parts::next(&mut self.reader)? {
                Next::Closed => return Ok(()),
                Next::Stop => return Err(self.reader.damaged(self.reader.at, CHANGED)),
                Next::Record { at, kind: rows::GROUP, bytes } => {
                    let head = self.head(at, &bytes)?;
                    match self.items(&head, false)? {
                        Items::Torn(at) => return Err(self.reader.damaged(at, CHANGED)),
                        Items::Whole { from, to, .. } => batches.extend(self.batch(&head, from, to)),
                    }
                }
                Next::Record { .. } => {}
            }
        }
    }

    fn head(&self, at: u64, bytes: &[u8]) -> Result<GroupHead, Fault> {
        rows::head_of(bytes).ok_or_else(|| self.reader.damaged(at, NOT_WRITTEN))
    }

    fn batch(&mut self, head: &GroupHead, at: u64, end: u64) -> Option<Batch> {
        if *self.epoch != *head.epoch {
            self.epoch = head.epoch.as_str().into();
        }
        let (first, count, epoch, since) = (head.first, head.count, self.epoch.clone(), head.since);
        (count > 0).then_some(Batch { first, count, epoch, since, segment: self.number, at, end })
    }

    /// Moves to the end of a group's commit. With `whole`, reads each item.
    fn items(&mut self, head: &GroupHead, whole: bool) -> Result<Items, Fault> {
        let from = self.reader.at;
        let mut number = head.first;
        while whole && self.reader.at < from + head.length {
            match self.reader.next()? {
                Next::Record { kind: rows::ITEM, bytes, .. } if bytes.starts_with(&number.to_le_bytes()) => {
                    number += 1
                }
                Next::Record { at, .. } => return Err(self.reader.damaged(at, NOT_WRITTEN)),
                Next::Stop | Next::Closed => return Ok(Items::Torn(self.reader.at)),
            }
        }
        if !whole && !self.reader.skip(head.length)? {
            return Ok(Items::Torn(self.reader.at));
        }
        let to = self.reader.at;
        match parts::next(&mut self.reader)? {
            Next::Record { at, kind: rows::COMMIT, bytes } => match rows::commit_of(&bytes, head) {
                Some((journal, ends))
                    if to == from + head.length && (!whole || number == head.first + head.count) =>
                {
                    Ok(Items::Whole { journal, ends: ends.to_vec(), from, to })
                }
                _ => Err(self.reader.damaged(at, NOT_WRITTEN)),
            },
            Next::Record { at, .. } => Err(self.reader.damaged(at, NOT_WRITTEN)),
            Next::Stop | Next::Closed => Ok(Items::Torn(self.reader.at)),
        }
    }

    /// The items of a group in the last segment, which may be torn. If they are durable and one was changed, the commit
    /// still gives everything else: the start goes on, and the delivery stops at that request and reports it.
    fn last_items(&mut self, head: &GroupHead) -> Result<Items, Fault> {
        let from = self.reader.at;
        let torn = match self.items(head, true)? {
            Items::Torn(torn) => torn,
            whole => return Ok(whole),
        };
        let Err(changed) = check_torn(&self.disk, &self.reader.path, torn) else {
            return Ok(Items::Torn(torn));
        };
        self.reader.seek(from)?;
        match self.items(head, false) {
            Ok(whole @ Items::Whole { .. }) => Ok(whole),
            _ => Err(changed),
        }
    }

    /// The state after the last segment, and where to close that segment if it is not closed.
    pub fn read_last(&mut self) -> Result<(State, Option<u64>), Fault> {
        let Next::Record { at, kind: rows::SNAPSHOT, bytes } = parts::next(&mut self.reader)? else {
            return Err(self.reader.damaged(self.reader.at, CHANGED));
        };
        let mut state = Snapshot::read(&bytes).ok_or_else(|| self.reader.damaged(at, NOT_WRITTEN))?;
        loop {
            match parts::next(&mut self.reader)? {
                Next::Closed => return Ok((state, None)),
                Next::Stop => {
                    check_torn(&self.disk, &self.reader.path, self.reader.at)?;
                    return Ok((state, Some(self.reader.at)));
                }
                Next::Record { at, kind: rows::GROUP, bytes } => {
                    let head = self.head(at, &bytes)?;
                    match self.last_items(&head)? {
                        Items::Torn(_) => return Ok((state, Some(at))),
                        whole => {
                            let group = self.group(head, whole, &state.series, at)?;
                            state.apply(group);
                        }
                    }
                }
                Next::Record { at, kind, bytes } => self.apply(&mut state, at, kind, &bytes)?,
            }
        }
    }

    fn group(&mut self, head: GroupHead, items: Items, series: &Table, at: u64) -> Result<Change, Fault> {
        let wrong = || self.reader.damaged(at, NOT_WRITTEN);
        let Items::Whole { journal, ends, from, to } = items else {
            return Err(wrong());
        };
        let EndsRead { ends, new, owners, recent, renamed } =
            rows::ends_of(&ends, series).ok_or_else(wrong)?;
        let group = Group {
            first: head.first,
            epoch: head.epoch.as_str().into(),
            since: head.since,
            heard: Heard::default(),
            journal,
            ends,
            new,
            owners,
            recent,
            renamed,
        };
        Ok(Change::Group { group: Box::new(group), count: head.count, segment: self.number, items: from..to })
    }

    fn apply(&self, state: &mut State, at: u64, kind: u8, bytes: &[u8]) -> Result<(), Fault> {
        let wrong = || self.reader.damaged(at, NOT_WRITTEN);
        match kind {
            HEADER => return Err(wrong()),
            // Which requests still wait is known only after all segments have been read.
            rows::ACK => {
                state.facts.acknowledged = bytes.try_into().map(u64::from_le_bytes).map_err(|_| wrong())?
            }
            _ => state.apply(rows::change_of(kind, bytes, &state.series).ok_or_else(wrong)?),
        }
        Ok(())
    }
}
