//! Codes the records of the outbox.
//!
//! | kind | bytes |
//! |---|---|
//! | 16 snapshot, the first of a segment | packed `Snapshot`; its series have the ids 0, 1, .. |
//! | 17 group | number of its first item, of items, of bytes that these take, seconds since 1970 (u64 each), epoch |
//! | 18 item | number (u64), packed body |
//! | 19 commit, after the items of its group | number of its first item, of items, the journal's segment (u64 each), packed `Ends` |
//! | 20 ack | number (u64) |
//! | 21 quarantine, 22 lift | the sender's name |
//! | 23 forget | packed `[id, ..]` |
//! | 24 beside | packed `[[metric, unit], ..]` |
//! | 25 part | the first bytes of the snapshot or the commit that follows, if that is longer than a record (`parts`) |
//!
//! Packed means deflated; what is packed is JSON, except bodies. A series has the id that the snapshot gives it, or the
//! next free one from the commit that first has it.

use super::changes::{Change, End, Group, Owners, SenderRename};
use super::keys::{each_part, Keys};
use super::parts::put_long;
use super::snapshot::{RecentRow, RunRow};
use super::state::Front;
use super::table::Table;
use super::texts::Texts;
use super::Recent;
use crate::otlp::series::SeriesKey;
use crate::storage::disk::{io_fault, Disk};
use crate::storage::records::{self, put, take_number, HEAD, OWN};
use crate::storage::Fault;
use crate::work::made_in_order;
use flate2::{read::DeflateDecoder, write::DeflateEncoder};
use flate2::{Compression, Decompress, FlushDecompress, Status};
use serde::de::DeserializeOwned;
use serde::{Deserialize, Deserializer, Serialize, Serializer};
use std::collections::HashMap;
use std::io::{self, BufWriter, Read, Write};
use std::ops::Range;
use std::path::Path;
use std::sync::Arc;

pub const SNAPSHOT: u8 = OWN;
pub const GROUP: u8 = OWN + 1;
pub const ITEM: u8 = OWN + 2;
pub const COMMIT: u8 = OWN + 3;
pub const ACK: u8 = OWN + 4;
pub const QUARANTINE: u8 = OWN + 5;
pub const LIFT: u8 = OWN + 6;
pub const FORGET: u8 = OWN + 7;
pub const BESIDE: u8 = OWN + 8;
pub const PART: u8 = OWN + 9;

/// The compression level.
const LEVEL: u32 = 5;
/// The approximate bytes of a piece that is compressed by itself.
pub const PIECE: usize = if cfg!(test) { 4 << 10 } else { 256 << 10 };

/// Most packed JSON unpacks to no more than this many times its length.
const TIMES_AS_LONG: usize = 32;
/// The most room that is reserved at once. Unused room takes no memory.
const MOST_AT_ONCE: usize = if cfg!(test) { 64 << 10 } else { 256 << 20 };

/// What a group did to series.
#[derive(Serialize, Deserialize)]
struct Ends<N> {
    /// Id and frontier.
    known: Vec<(u32, u64)>,
    /// Key, frontier and owner of the new series, which get the next ids.
    new: N,
    runs: Vec<RunRow>,
    recent: Vec<RecentRow>,
    #[serde(default, skip_serializing_if = "Option::is_none")]
    renamed: Option<SenderRename>,
}

/// Rows of new series, written one by one because their keys are long.
struct NewRows<'g>(&'g Texts, &'g [End], &'g [Option<Arc<str>>]);

#[derive(Default)]
struct NewRead {
    keys: Keys,
    ends: Vec<u64>,
    owners: Owners,
}

/// The records of a group, and where its items are in them.
pub struct GroupBytes {
    pub records: Vec<u8>,
    pub items: Range<usize>,
}

/// The record before the items of a group.
pub struct GroupHead {
    pub first: u64,
    pub count: u64,
    pub length: u64,
    pub since: u64,
    pub epoch: String,
}

pub fn deflated(bytes: &[u8]) -> Vec<u8> {
    deflated_by(Compression::new(LEVEL), |out| out.write_all(bytes))
}

/// Faster than `deflated`, and somewhat longer.
pub fn deflated_fast(bytes: &[u8]) -> Vec<u8> {
    deflated_by(Compression::fast(), |out| out.write_all(bytes))
}

fn deflated_by(level: Compression, write: impl FnOnce(&mut dyn Write) -> io::Result<()>) -> Vec<u8> {
    let mut packer = BufWriter::new(DeflateEncoder::new(Vec::new(), level));
    let packed = write(&mut packer).and_then(|()| packer.into_inner()?.finish());
    // Writing to memory does not fail.
    packed.unwrap_or_default()
}

pub fn inflated(bytes: &[u8]) -> Option<Vec<u8>> {
    let mut out = Vec::new();
    DeflateDecoder::new(bytes).read_to_end(&mut out).ok()?;
    Some(out)
}

pub fn packed(value: &impl Serialize) -> Vec<u8> {
    // The keys of these types are all strings, so this can't fail.
    deflated_by(Compression::new(LEVEL), |out| Ok(serde_json::to_writer(out, value)?))
}

/// Writes and compresses the pieces in parallel and concatenates them; an empty last block ends the stream.
pub fn packed_pieces<P: Send>(
    pieces: impl Iterator<Item = P>,
    write: impl Fn(P) -> Vec<u8> + Sync,
) -> Vec<u8> {
    let mut out = Vec::new();
    made_in_order(pieces, |piece| deflated_piece(&write(piece)), |packed| out.extend(packed));
    out.extend(deflated(&[]));
    out
}

/// Ends at a full byte, and more may follow. Fast, because a start waits for it; a better level would gain little.
fn deflated_piece(bytes: &[u8]) -> Vec<u8> {
    let mut packer = DeflateEncoder::new(Vec::new(), Compression::fast());
    let packed = packer.write_all(bytes).and_then(|()| packer.flush());
    packed.map_or_else(|_| Vec::new(), |()| std::mem::take(packer.get_mut())) // can't fail, as above
}

pub fn unpacked<T: DeserializeOwned>(bytes: &[u8]) -> Option<T> {
    let text = inflated_at_once(bytes).or_else(|| inflated(bytes))?;
    serde_json::from_str(std::str::from_utf8(&text).ok()?).ok()
}

/// Faster than `inflated`, since no bytes are moved; none if more room is needed than is reserved.
fn inflated_at_once(bytes: &[u8]) -> Option<Vec<u8>> {
    let room = bytes.len().checked_mul(TIMES_AS_LONG).filter(|room| *room <= MOST_AT_ONCE)?;
    let mut out = Vec::with_capacity(room);
    let done = Decompress::new(false).decompress_vec(bytes, &mut out, FlushDecompress::Finish);
    matches!(done, Ok(Status::StreamEnd)).then_some(out)
}

impl Serialize for SeriesKey {
    fn serialize<S: Serializer>(&self, serializer: S) -> Result<S::Ok, S::Error> {
        serializer.serialize_str(&self.0)
    }
}

impl<'de> Deserialize<'de> for SeriesKey {
    fn deserialize<D: Deserializer<'de>>(deserializer: D) -> Result<SeriesKey, D::Error> {
        Ok(SeriesKey(String::deserialize(deserializer)?.into()))
    }
}

pub fn numbers<const N: usize>(numbers: [u64; N]) -> Vec<u8> {
    numbers.map(u64::to_le_bytes).concat()
}

pub fn group(group: &Group, items: &[Vec<u8>]) -> GroupBytes {
    let mut bodies = Vec::new();
    for (number, item) in (group.first..).zip(items) {
        put(&mut bodies, ITEM, &[&number.to_le_bytes(), item]);
    }
    let count = items.len() as u64;
    let mut out = Vec::new();
    let head = numbers([group.first, count, bodies.len() as u64, group.since]);
    put(&mut out, GROUP, &[&head, group.epoch.as_bytes()]);
    let items = out.len()..out.len() + bodies.len();
    out.append(&mut bodies);
    let mut commit = numbers([group.first, count, group.journal]);
    commit.append(&mut packed(&ends(group)));
    put_long(&mut out, COMMIT, &commit);
    GroupBytes { records: out, items }
}

fn ends(group: &Group) -> Ends<NewRows<'_>> {
    let (known, new) = group.ends.split_at(group.ends.len() - group.new.digests.len());
    let run = |end: &End| Some(RunRow::of(end.id, end.end, end.run.as_ref()?));
    Ends {
        known: known.iter().map(|end| (end.id, end.end)).collect(),
        new: NewRows(&group.new.texts, new, &group.owners),
        runs: group.ends.iter().filter_map(run).collect(),
        recent: group.recent.iter().filter_map(|(id, recent)| RecentRow::of(*id, *recent)).collect(),
        renamed: group.renamed.clone(),
    }
}

impl Serialize for NewRows<'_> {
    fn serialize<S: Serializer>(&self, serializer: S) -> Result<S::Ok, S::Error> {
        let rows = self.0.all().zip(self.1).zip(self.2);
        serializer.collect_seq(rows.map(|((key, end), owner)| (key, end.end, owner.as_deref())))
    }
}

impl<'de> Deserialize<'de> for NewRead {
    fn deserialize<D: Deserializer<'de>>(deserializer: D) -> Result<NewRead, D::Error> {
        let mut new = NewRead::default();
        let of = |(key, end, owner): (SeriesKey, u64, Option<String>)| (key, (end, owner.map(Arc::from)));
        each_part(deserializer, of, |keys, rows| {
            let (ends, owners): (Vec<u64>, Vec<_>) = rows.into_iter().unzip();
            new.keys.append(keys);
            new.ends.extend(ends);
            new.owners.extend(owners);
        })?;
        Ok(new)
    }
}

pub fn head_of(mut bytes: &[u8]) -> Option<GroupHead> {
    let rest = &mut bytes;
    let (first, count) = (take_number(rest)?, take_number(rest)?);
    let (length, since) = (take_number(rest)?, take_number(rest)?);
    let epoch = std::str::from_utf8(rest).ok()?.to_string();
    Some(GroupHead { first, count, length, since, epoch })
}

/// The journal segment and the packed ends of a commit; none if the commit belongs to another group.
pub fn commit_of<'a>(mut bytes: &'a [u8], head: &GroupHead) -> Option<(u64, &'a [u8])> {
    let rest = &mut bytes;
    let is_its = take_number(rest)? == head.first && take_number(rest)? == head.count;
    let journal = take_number(rest)?;
    is_its.then_some((journal, *rest))
}

/// The fields of a `Group` that `Ends` has.
pub struct EndsRead {
    pub ends: Vec<End>,
    pub new: Keys,
    pub owners: Owners,
    pub recent: Vec<(u32, Recent)>,
    pub renamed: Option<SenderRename>,
}

/// What a group did, given the series that were known before it.
pub fn ends_of(bytes: &[u8], series: &Table) -> Option<EndsRead> {
    let Ends { known, new, runs, recent, renamed } = unpacked::<Ends<NewRead>>(bytes)?;
    let runs = runs.into_iter().map(|row| (row.0, row));
    let mut runs: HashMap<u32, RunRow> = runs.collect();
    let mut of = |(id, end)| {
        let run = runs.remove(&id).map(|row| row.run(end));
        End { id, end, run }
    };
    let are_known = known.iter().all(|(id, _)| series.at(*id).is_some());
    let new_ends = (series.next_id()..).zip(new.ends);
    let ends = known.into_iter().chain(new_ends).map(&mut of).collect();
    let recent = recent.into_iter().map(|row| (row.0, row.recent())).collect();
    let read = EndsRead { ends, new: new.keys, owners: new.owners, recent, renamed };
    (are_known && runs.is_empty()).then_some(read)
}

/// The record of a change that is no group.
pub fn record(change: &Change) -> Vec<u8> {
    let (kind, bytes) = match change {
        Change::Group { .. } => return Vec::new(),
        Change::Acknowledge { number, .. } => (ACK, number.to_le_bytes().to_vec()),
        Change::Quarantine(sender) => (QUARANTINE, sender.as_bytes().to_vec()),
        Change::Lift(sender) => (LIFT, sender.as_bytes().to_vec()),
        Change::Forget(ids) => (FORGET, packed(ids)),
        Change::Beside(units) => (BESIDE, packed(units)),
    };
    let mut out = Vec::new();
    put(&mut out, kind, &[&bytes]);
    out
}

/// The change of a record that is neither part of a group nor an ack, given the series that were known before it.
pub fn change_of(kind: u8, bytes: &[u8], series: &Table) -> Option<Change> {
    let was_given = |id: &u32| *id < series.next_id();
    let name = || Some(std::str::from_utf8(bytes).ok()?.to_string());
    Some(match kind {
        QUARANTINE => Change::Quarantine(name()?),
        LIFT => Change::Lift(name()?),
        FORGET => {
            let ids: Vec<u32> = unpacked(bytes)?;
            ids.iter().all(was_given).then_some(Change::Forget(ids))?
        }
        BESIDE => Change::Beside(unpacked(bytes)?),
        _ => return None,
    })
}

/// The body of a waiting request, checked against its checksum.
pub fn read_item(disk: &Disk, path: &Path, front: &Front) -> Result<Vec<u8>, Fault> {
    let (packed, _) = packed_item(disk, path, front)?;
    inflated(&packed).ok_or_else(|| changed(path, front))
}

/// A waiting request, packed as it is and checked against its checksum, and the length of its record.
pub fn packed_item(disk: &Disk, path: &Path, front: &Front) -> Result<(Vec<u8>, u64), Fault> {
    let number = front.waiting.number.to_le_bytes();
    let read = records::read_at(disk, path, front.at)?;
    let read = read.filter(|(kind, bytes, _)| *kind == ITEM && bytes.starts_with(&number));
    let (_, mut bytes, length) = read.ok_or_else(|| changed(path, front))?;
    Ok((bytes.split_off(number.len()), length))
}

/// Searches the range for the record of a request; none if it has no whole one.
pub fn find_item(disk: &Disk, path: &Path, places: Range<u64>, number: u64) -> Result<Option<u64>, Fault> {
    let mut bytes = vec![0; (places.end - places.start) as usize];
    let read = disk.open(path)?.read_exact_at(&mut bytes, places.start);
    read.map_err(io_fault(path))?;
    let begins = |at: &usize| {
        let rest = &bytes[*at..];
        let is_its = rest.get(HEAD - 1) == Some(&ITEM) && rest[HEAD..].starts_with(&number.to_le_bytes());
        let head = rest.first_chunk::<HEAD>().filter(|_| is_its)?;
        let body = rest.get(HEAD..records::whole_length(head)?)?;
        records::is_sound(head, body).then_some(())
    };
    let found = (0..bytes.len()).find(|at| begins(at).is_some());
    Ok(found.map(|at| places.start + at as u64))
}

/// The length of the record of a request.
pub fn item_length(disk: &Disk, path: &Path, front: &Front) -> Result<u64, Fault> {
    let mut head = [0; HEAD];
    let read = disk.open(path)?.read_exact_at(&mut head, front.at);
    read.map_err(io_fault(path))?;
    let length = records::whole_length(&head).filter(|_| head[8] == ITEM);
    length.map(|length| length as u64).ok_or_else(|| changed(path, front))
}

fn changed(path: &Path, front: &Front) -> Fault {
    let what = format!(
        "request {} was changed after it was written, so it can't be delivered. Nothing was deleted: restore this file from \
         a copy",
        front.waiting.number
    );
    Fault::Damaged { path: path.into(), at: front.at, what }
}

#[cfg(test)]
mod tests {
    use super::*;

    /// Including texts that compress well, and ones that are too long for it.
    #[test]
    fn what_is_inflated_at_once_is_the_same() {
        let times = |text: &str, times| text.repeat(times);
        for (text, is_at_once) in [
            (String::new(), true),
            (times("[5,6,\"ab\"]", 3), true),
            ((0..300).map(|n| format!("{n} ")).collect(), true),
            (times("a", 50_000), false),
            ((0..10_000).map(|n| format!("{n} ")).collect(), false),
        ] {
            let packed = deflated(text.as_bytes());
            assert_eq!(inflated(&packed).as_deref(), Some(text.as_bytes()));
            let at_once = inflated_at_once(&packed);
            assert_eq!(at_once, is_at_once.then(|| text.clone().into_bytes()), "{}", text.len());
            assert_eq!(inflated_at_once(&packed[..packed.len() - 1]), None);
        }
    }

    #[test]
    fn what_is_packed_in_pieces_comes_back() {
        for count in [0, 1, 10, 300] {
            let pieces = (0..count).map(|piece| vec![piece as u8; 100]);
            let all = pieces.clone().collect::<Vec<_>>().concat();
            assert_eq!(inflated(&packed_pieces(pieces, |piece| piece)), Some(all));
        }
    }
}
