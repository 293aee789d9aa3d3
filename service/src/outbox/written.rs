//! Writes the outbox. A change is written as a record before it is made in memory, and after a failed write nothing
//! more is written.

use super::changes::{Change, End, Group, Owners};
use super::keys::Keys;
use super::rows;
use super::state::State;
use super::table::{Heard, Table};
use super::texts::{begin_of, Texts};
use super::{Outbox, Recent, Recents, Runs, Writer};
use crate::otlp::series::{Digest, Digests, NotForwarded, SeriesKey};
use crate::storage::records::Which;
use crate::storage::segment::{self, Ahead, Segment};
use crate::storage::{seconds, Fault};
use crate::work::locked;
use std::collections::HashMap;
use std::io;

/// What a commit has done.
pub struct Committed {
    /// The given runs whose series are in the group.
    pub runs: Runs,
    /// How many new series were in no noted post, and the first of them: a fault of this program.
    pub unowned: (usize, Option<SeriesKey>),
}

/// Can't happen: the task that commits groups also forgets series.
const OTHER_SERIES: &str = "series were removed while the group was made: this is a bug of totxegun";

impl Outbox {
    /// `commit_with` without runs.
    #[cfg(test)]
    pub fn commit(&self, bodies: &[Vec<u8>], journal: u64) -> Result<(), Fault> {
        self.commit_with(bodies, journal, Runs::new(), &Recents::default()).map(drop)
    }

    /// Makes a group durable, whole or not at all; in a shard store it is durable after `settle`. Posts in the
    /// journal's segments before `journal` are in this group or in earlier ones. Runs count only for series in the
    /// group; `recents` has the owners of new series.
    pub fn commit_with(
        &self,
        bodies: &[Vec<u8>],
        journal: u64,
        mut runs: Runs,
        recents: &Recents,
    ) -> Result<Committed, Fault> {
        let (mut ends, mut items) = (Ends::default(), Vec::new());
        for body in bodies {
            for (key, end) in (self.read_ends)(body).map_err(|error| self.unreadable(error))? {
                ends.note(key, end, |digest| locked(&self.state).series.id_of(digest).is_some());
            }
            items.push(rows::deflated(body));
        }
        ends.sort();
        runs.retain(|digest, _| ends.of.contains_key(digest));
        let mut writer = locked(&self.writer);
        let group = {
            let state = locked(&self.state);
            let recent = ends.recent_by_id(recents, &state.series);
            let by_id = ends.by_id(&runs, recents, &state.series);
            let (ends, new, owners) =
                by_id.ok_or_else(|| self.unreadable(NotForwarded(OTHER_SERIES.into())))?;
            Group {
                first: state.facts.next,
                epoch: state.facts.epoch.clone(),
                since: seconds(),
                heard: Heard::now(),
                journal,
                ends,
                new,
                owners,
                recent,
                renamed: None,
            }
        };
        let unowned = group.unowned();
        self.put_group(&mut writer, group, &items)?;
        self.arrived.notify_one();
        Ok(Committed { runs, unowned })
    }

    /// Makes a group of packed requests durable.
    pub(super) fn put_group(
        &self,
        writer: &mut Writer,
        group: Group,
        packed: &[Vec<u8>],
    ) -> Result<(), Fault> {
        let (bytes, count) = (rows::group(&group, packed), packed.len() as u64);
        self.write(writer, &bytes.records, |begin, segment| {
            let items = begin + bytes.items.start as u64..begin + bytes.items.end as u64;
            Change::Group { group: Box::new(group), count, segment, items }
        })
    }

    fn unreadable(&self, error: NotForwarded) -> Fault {
        let source = io::Error::new(io::ErrorKind::InvalidData, error.to_string());
        Fault::Io { path: self.folder.clone(), source }
    }

    pub fn quarantine(&self, sender: &str) -> Result<(), Fault> {
        let change = || Change::Quarantine(sender.into());
        self.change(|state| (!state.facts.quarantined.contains(sender)).then(change)).map(drop)
    }

    pub fn lift(&self, sender: &str) -> Result<(), Fault> {
        let change = || Change::Lift(sender.into());
        self.change(|state| state.facts.quarantined.contains(sender).then(change)).map(drop)
    }

    /// Writes a change and makes it; false if there was nothing to change.
    pub(super) fn change(&self, make: impl FnOnce(&State) -> Option<Change>) -> Result<bool, Fault> {
        let mut writer = locked(&self.writer);
        let (change, record) = {
            let state = locked(&self.state);
            let Some(change) = make(&state) else {
                return Ok(false);
            };
            let record = rows::record(&change);
            (change, record)
        };
        self.write(&mut writer, &record, |_, _| change)?;
        Ok(true)
    }

    /// Writes the bytes and makes the change, which may depend on where they begin and on the segment. Durable when
    /// this returns, or in a shard store after `settle`. Only an acknowledgement need not be: if it is lost, the
    /// request is sent again.
    fn write(
        &self,
        writer: &mut Writer,
        bytes: &[u8],
        change: impl FnOnce(u64, u64) -> Change,
    ) -> Result<(), Fault> {
        writer.begin(&self.disk)?;
        self.free_space.use_up(bytes.len() as u64);
        let begin = writer.segment.put(bytes)?;
        let change = change(begin, writer.segment.number);
        if !matches!(change, Change::Acknowledge { .. }) {
            writer.segment.barrier()?;
        }
        locked(&self.state).apply(change);
        // Without this watermark, a change of the record looks like a torn write.
        writer.segment.mark_last()?;
        self.keep_room(writer);
        if writer.is_full(self.longest) {
            self.begin_segment(writer)?;
        }
        writer.failed = false;
        Ok(())
    }

    /// Keeps room for the next snapshot: everything that it will have takes more bytes in this segment.
    pub(super) fn keep_room(&self, writer: &Writer) {
        self.free_space.keep_for_snapshot(writer.segment.at);
    }

    /// Ends the segment and begins another one with a snapshot.
    pub(super) fn begin_segment(&self, writer: &mut Writer) -> Result<(), Fault> {
        writer.segment.end()?;
        writer.segment.barrier()?;
        let number = writer.segment.number + 1;
        let snapshot = locked(&self.state).snapshot();
        writer.segment =
            Segment::create(&self.disk, &self.folder, Which::Outbox, number, Ahead::Nothing, None)?;
        writer.put_snapshot(&self.disk, &self.folder, &snapshot)?;
        self.keep_room(writer);
        self.delete_taken(writer)
    }

    /// Deletes the segments without waiting requests, after the acknowledgements are durable.
    pub(super) fn sweep(&self) -> Result<(), Fault> {
        let mut writer = locked(&self.writer);
        writer.begin(&self.disk)?;
        writer.segment.barrier()?;
        self.delete_taken(&writer)?;
        writer.failed = false;
        Ok(())
    }

    pub(super) fn delete_taken(&self, writer: &Writer) -> Result<(), Fault> {
        let last = writer.segment.number;
        let first = locked(&self.state).front().map_or(last, |front| front.segment.min(last));
        let numbers = segment::numbers(&self.disk, &self.folder)?;
        for number in numbers.into_iter().filter(|number| *number < first) {
            self.disk.remove(&segment::path(&self.folder, number))?;
        }
        Ok(())
    }
}

impl Group {
    fn unowned(&self) -> (usize, Option<SeriesKey>) {
        let mut places = (0..).zip(&self.owners).filter(|(_, owner)| owner.is_none()).map(|(place, _)| place);
        let first = places.next();
        let key = self.new.texts.of(first.into_iter()).next();
        (usize::from(first.is_some()) + places.count(), key)
    }
}

/// The ends of the last points of each series in a group.
#[derive(Default)]
struct Ends {
    /// The end, and for a new series its index among the new ones.
    of: HashMap<Digest, (u64, Option<u32>)>,
    /// Keys of new series only; keys of all series together may be very long.
    new: Texts,
    begins: Vec<Box<[u8]>>,
    digests: Digests,
}

impl Ends {
    fn note(&mut self, key: SeriesKey, end: u64, is_known: impl FnOnce(&Digest) -> bool) {
        let digest = self.digests.of(&key);
        let (last, _) = self.of.entry(digest).or_insert_with(|| {
            let place = (!is_known(&digest)).then(|| self.new.count());
            if place.is_some() {
                self.begins.push(begin_of(&key));
                self.new.push(key);
            }
            (end, place)
        });
        *last = end.max(*last);
    }

    /// Sorts the new series by key.
    fn sort(&mut self) {
        let begins = std::mem::take(&mut self.begins);
        let mut order: Vec<u32> = (0..self.new.count()).collect();
        order.sort_by(|one, other| begins[*one as usize].cmp(&begins[*other as usize]));
        let mut places = vec![0; order.len()];
        (0..).zip(&order).for_each(|(place, before)| places[*before as usize] = place);
        let new = self.of.values_mut().filter_map(|(_, new)| new.as_mut());
        new.for_each(|place| *place = places[*place as usize]);
        let before = std::mem::take(&mut self.new);
        before.of(order.into_iter()).for_each(|key| self.new.push(key));
    }

    /// Digests for all series that have an id or get one with this group.
    fn recent_by_id(&self, recents: &Recents, series: &Table) -> Vec<(u32, Recent)> {
        let new = |digest: &Digest| Some(series.next_id() + self.of.get(digest)?.1?);
        let by_digest = recents.by_digest.iter().filter_map(|(digest, noted)| {
            let id = series.id_of(digest).or_else(|| new(digest))?;
            Some((id, noted.recent))
        });
        let has_ids = recents.numbering == series.numbering();
        let by_id = recents.by_id.iter().filter(|_| has_ids).map(|(id, recent)| (*id, *recent));
        by_id.chain(by_digest).collect()
    }

    /// What the group does to series, and the keys and owners of the new ones. None if series were added or forgotten
    /// since they were noted.
    fn by_id(self, runs: &Runs, recents: &Recents, series: &Table) -> Option<(Vec<End>, Keys, Owners)> {
        let mut all = Vec::with_capacity(self.of.len());
        let mut digests = vec![Digest::default(); self.new.count() as usize];
        for (digest, (end, new)) in self.of {
            let id = match (series.id_of(&digest), new) {
                (Some(id), None) => id,
                (None, Some(place)) => {
                    digests[place as usize] = digest;
                    series.next_id() + place
                }
                _ => return None,
            };
            all.push(End { id, end, run: runs.get(&digest).cloned() });
        }
        all.sort_unstable_by_key(|end| end.id);
        let owner = |digest| recents.by_digest.get(digest)?.owner.clone();
        let owners = digests.iter().map(owner).collect();
        Some((all, Keys { texts: self.new, digests }, owners))
    }
}

/// Ends the segment, so that the next start can tell a changed record from a torn one everywhere in it. A shard store
/// tears nothing.
impl Drop for Outbox {
    fn drop(&mut self) {
        let mut writer = locked(&self.writer);
        if writer.failed || self.disk.keeps_order() {
            return;
        }
        let segment = &mut writer.segment;
        let ended = segment.barrier().and_then(|()| segment.end()).and_then(|()| segment.barrier());
        drop(writer);
        if let Err(fault) = ended {
            self.disk.end(&fault);
        }
    }
}
