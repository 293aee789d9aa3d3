//! Parks the posts of quarantined senders: a checkpoint moves them out of the segments, once, into a file for each
//! sender, `SENDER.held`.
//!
//! The file has a header, and the posts as the journal had them, with its own definitions. One record in the segment
//! where a replay begins says how much of the file counts. So a move without a commit after it counts for nothing,
//! since the segments still have these posts; and once a sender's points are flushed, the next segment's record leaves
//! it out.

use super::reading::Each;
use super::record::{self, Posts, Wanted};
use super::{locked, Journal, Post, Replayed, Shared, HELD};
use crate::storage::disk::{io_fault, Disk, File};
use crate::storage::records::{self, Next, Reader, Which};
use crate::storage::text_row::TextRow;
use crate::storage::{Fault, Fenced};
use bytes::Bytes;
use serde::{Deserialize, Serialize};
use std::collections::{BTreeMap, BTreeSet, HashMap};
use std::io;
use std::path::{Path, PathBuf};

/// For each sender, how much of its file counts.
pub(super) type List = BTreeMap<String, Part>;

#[derive(Clone, Copy, Debug, Default, PartialEq, Eq)]
pub(super) struct Part {
    posts: u64,
    end: u64,
}

/// What is parked for quarantined senders.
#[derive(Clone, Copy, Debug, Default, PartialEq, Eq, Serialize, Deserialize)]
pub struct Held {
    pub senders: u64,
    pub posts: u64,
    pub bytes: u64,
}

pub(super) const NO_LIST: &str = "is not a valid list of parked posts: restore this file from a copy";

/// Limits on the files that are open at once, and on the bytes that wait for a write.
const OPEN: usize = 64;
const PIECE: usize = 256 << 10;

impl Journal {
    /// Parks the posts of these quarantined senders. A checkpoint calls it after the flush and the roll to `next`, when
    /// everything before `next` is durable. It moves their posts in the segments from `first` to before `next` to their
    /// own files, and reads nothing if none of them has posted since the last move. Senders that were released are left
    /// out. The result is durable before anything written later, and counts when `next` is the first segment to be
    /// replayed.
    pub fn hold(&self, quarantined: &BTreeSet<String>, first: u64, next: u64) -> Result<(), Fault> {
        let shared = &*self.shared;
        let mut list = locked(&shared.held).get(&first).cloned().unwrap_or_default();
        list.retain(|sender, _| quarantined.contains(sender));
        let due: BTreeSet<&String> = {
            let place = locked(&shared.place);
            quarantined.iter().filter(|sender| !place.moved.contains(*sender)).collect()
        };
        if !due.is_empty() {
            let mut moving = Moving::new(shared, &mut list);
            shared.posts(first, next, Wanted::All, &mut |since, Replayed { post, named }| {
                moving.names.extend(named);
                if due.contains(&post.sender) {
                    moving.append(since, &post)?;
                }
                Ok(true)
            })?;
            moving.finish()?;
        }
        shared.note_held(next, list)?;
        self.settle_kept();
        locked(&shared.place).moved.extend(due.into_iter().cloned());
        Ok(())
    }

    /// What is parked. Never waits for the disk.
    pub fn held(&self) -> Held {
        let lists = locked(&self.shared.held);
        let mut held = Held::default();
        for part in lists.last_key_value().iter().flat_map(|(_, list)| list.values()) {
            held.senders += 1;
            held.posts += part.posts;
            held.bytes += part.end;
        }
        held
    }

    /// Whether posts are parked for a sender that is not in `quarantined`: it was released, and the next flush will
    /// take them. True until that flush is committed.
    pub fn holds_of_others(&self, quarantined: &BTreeSet<String>) -> bool {
        let lists = locked(&self.shared.held);
        lists.values().flat_map(List::keys).any(|sender| !quarantined.contains(sender))
    }

    /// Deletes the files that no segment from `before` on needs.
    pub(super) fn forget_held(&self, before: u64) -> Result<(), Fault> {
        let shared = &*self.shared;
        let wanted: BTreeSet<PathBuf> = {
            let mut lists = locked(&shared.held);
            lists.retain(|segment, _| *segment >= before);
            lists.values().flat_map(List::keys).map(|sender| path(&shared.folder, sender)).collect()
        };
        for name in shared.disk.names(&shared.folder)? {
            let path = shared.folder.join(name);
            let is_held = path.extension().is_some_and(|extension| extension == "held");
            if is_held && !wanted.contains(&path) {
                shared.disk.remove(&path)?;
            }
        }
        Ok(())
    }
}

impl Shared {
    /// Writes the record into the segment `next`, which has to be the last one.
    fn note_held(&self, next: u64, list: List) -> Result<(), Fault> {
        if list.is_empty() {
            return Ok(());
        }
        let rows: Vec<_> = list.iter().map(|(sender, part)| (sender, part.posts, part.end)).collect();
        let bytes = serde_json::to_vec(&rows).map_err(io::Error::from).map_err(io_fault(&self.folder))?;
        let mut record = Vec::new();
        records::put(&mut record, HELD, &[&bytes]);
        self.alone(|place| {
            if place.segment.number != next {
                if self.disk.is_fenced() {
                    return Err(Fenced.into()); // which is why no segment could be begun
                }
                let source = io::Error::other(
                    "the journal rolled to another segment while posts of quarantined senders were moved",
                );
                return Err(io_fault(&place.segment.path)(source));
            }
            place.segment.put(&record).map_err(|fault| self.disk.fail(fault))?; // while nobody else can write
            self.set_ticket(place);
            place.kept = place.ticket;
            Ok(())
        })?;
        locked(&self.held).insert(next, list);
        Ok(())
    }

    /// Passes the parked posts that count to `each`; returns whether it wants more.
    pub(super) fn held_posts(&self, list: &List, each: &mut Each) -> Result<bool, Fault> {
        for (sender, part) in list {
            if !self.held_posts_of(sender, part, each)? {
                return Ok(false);
            }
        }
        Ok(true)
    }

    fn held_posts_of(&self, sender: &str, part: &Part, each: &mut Each) -> Result<bool, Fault> {
        let path = path(&self.folder, sender);
        let (mut reader, _) = Reader::open(&self.disk, &path, Which::Held, 0, Some(part.end))?;
        let (mut posts, mut left) = (Posts::new(Wanted::All), part.posts);
        while let Next::Record { at, kind, bytes } = reader.next()? {
            let read = posts.read(kind, bytes);
            if let Some((since, post)) = read.map_err(|what| reader.damaged(at, what))? {
                if post.post.sender != sender {
                    return Err(
                        reader.damaged(at, "is a post of another sender: restore this file from a copy")
                    );
                }
                left = left.saturating_sub(1);
                if !each(since, post)? {
                    return Ok(false);
                }
            }
        }
        match (left, reader.at == part.end) {
            (0, true) => Ok(true),
            _ => Err(reader.damaged(reader.at, crate::storage::torn_tail::CHANGED)),
        }
    }
}

fn path(folder: &Path, sender: &str) -> PathBuf {
    folder.join(format!("{sender}.held"))
}

/// Parses a record of parked posts.
pub(super) fn list_of(bytes: &[u8]) -> Option<List> {
    let rows: Vec<(String, u64, u64)> = serde_json::from_slice(bytes).ok()?;
    let part = |(sender, posts, end)| (sender, Part { posts, end });
    Some(rows.into_iter().map(part).collect())
}

/// Passes if the files that the first segment lists are there and long enough.
pub(super) fn check(disk: &Disk, folder: &Path, list: &List) -> Result<(), Fault> {
    for (sender, part) in list {
        let path = path(folder, sender);
        let length = disk.length(&path)?.unwrap_or(0);
        if length < part.end {
            let what = format!(
                "this file is missing or was cut: it had {} posts of a quarantined sender, {} bytes. Nothing was deleted: \
                 restore it from a copy, or move the folder away and start with an empty one",
                part.posts, part.end
            );
            let at = length;
            return Err(Fault::Damaged { path, at, what });
        }
    }
    Ok(())
}

/// Moves posts to their senders' files.
struct Moving<'a> {
    shared: &'a Shared,
    list: &'a mut List,
    open: BTreeMap<String, Writer>,
    is_new: bool,
    /// What numbers mean in the segments being read: a text for each series posted to since the last checkpoint.
    names: HashMap<u64, Bytes>,
}

struct Writer {
    file: File,
    path: PathBuf,
    at: u64,
    waiting: Vec<u8>,
    /// What numbers mean in the file so far.
    said: HashMap<u64, Bytes>,
    names: TextRow,
}

impl<'a> Moving<'a> {
    fn new(shared: &'a Shared, list: &'a mut List) -> Moving<'a> {
        Moving { shared, list, open: BTreeMap::new(), is_new: false, names: HashMap::new() }
    }

    fn append(&mut self, since: u64, post: &Post) -> Result<(), Fault> {
        if !self.open.contains_key(&post.sender) {
            if self.open.len() >= OPEN {
                self.sync()?;
            }
            let writer = self.writer(&post.sender)?;
            self.open.insert(post.sender.clone(), writer);
        }
        let Some(writer) = self.open.get_mut(&post.sender) else {
            return Ok(());
        };
        let before = writer.waiting.len() as u64;
        writer.say(post, &self.names);
        record::put(&mut writer.waiting, since, post);
        let part = self.list.entry(post.sender.clone()).or_default();
        part.end = part.end.max(writer.at + before) + writer.waiting.len() as u64 - before;
        part.posts += 1;
        self.shared.free_space.use_up(writer.waiting.len() as u64 - before);
        if writer.waiting.len() >= PIECE {
            writer.write(self.shared)?;
        }
        Ok(())
    }

    /// Continues after the part of the file that counts; a file of which nothing counts is replaced.
    fn writer(&mut self, sender: &str) -> Result<Writer, Fault> {
        let path = path(&self.shared.folder, sender);
        let disk = &self.shared.disk;
        let (file, at, waiting) = match self.list.get(sender) {
            Some(part) => (disk.open_to_write(&path)?, part.end, Vec::new()),
            None => {
                self.is_new = true;
                (disk.create_anew(&path)?, 0, records::header(Which::Held, 0))
            }
        };
        Ok(Writer { file, path, at, waiting, said: HashMap::new(), names: TextRow::default() })
    }

    fn sync(&mut self) -> Result<(), Fault> {
        for mut writer in std::mem::take(&mut self.open).into_values() {
            writer.write(self.shared)?;
            self.shared.disk.barrier(&writer.file, &writer.path)?;
        }
        Ok(())
    }

    fn finish(mut self) -> Result<(), Fault> {
        self.sync()?;
        match self.is_new {
            true => self.shared.disk.order_folder(&self.shared.folder),
            false => Ok(()),
        }
    }
}

impl Writer {
    /// Defines the post's numbers again if they mean other series than they did in this file: they come from another
    /// segment or run.
    fn say(&mut self, post: &Post, names: &HashMap<u64, Bytes>) {
        for number in post.numbers() {
            let Some(text) = names.get(&number) else {
                continue; // the reader has definitions for all numbers
            };
            if self.said.get(&number) != Some(text) {
                record::put_name(&mut self.waiting, &mut self.names, number, text);
                self.said.insert(number, text.clone());
            }
        }
    }

    fn write(&mut self, shared: &Shared) -> Result<(), Fault> {
        shared.disk.write_at(&self.file, &self.path, &self.waiting, self.at)?;
        self.at += self.waiting.len() as u64;
        self.waiting.clear();
        Ok(())
    }
}
