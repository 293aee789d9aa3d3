//! Remembers what the last posts said of each series, so that a retry of a post that was taken is recognised as a
//! duplicate; and the owner of each series that the outbox does not have yet, so that the commit that first contains
//! the series names its owner.
//!
//! It belongs to the book: it changes under the book's lock when a post is taken, and it goes when the book goes. A
//! checkpoint takes a copy, and the outbox keeps that copy by the keys of the series.

use super::{Book, Names, Read};
use crate::journal::{Body, Names as _, Points, Post};
use crate::otlp::series::{only, posted, Digest, Digests};
use crate::outbox::{Noted, PointsDigest, Recent, Recents, POSTS_KNOWN};
use crate::work::made_in_order;
use ahash::AHashMap;
use std::collections::{HashMap, HashSet};
use std::sync::Arc;

/// Series of one resource have neighbouring numbers, and each shard has only some of the resources.
const PAGE: usize = 32;
/// How many keys of series one thread digests at a time.
const SERIES_AT_ONCE: usize = 256;
/// The current post has points of this series.
const IN_POST: u32 = 1 << 31;
/// The entry has changed since the last checkpoint.
const CHANGED: u32 = 1 << 30;
/// Stands for an unknown id of the series in the outbox.
const NO_ID: u32 = CHANGED - 1;

/// What is known of one series.
#[derive(Clone, Copy)]
struct Entry {
    /// The id of the series in the outbox, with the flags above.
    id: u32,
    recent: Recent,
}

const NOTHING: Entry = Entry { id: NO_ID, recent: Recent([PointsDigest::NONE; POSTS_KNOWN]) };

/// The owners of series, by number.
type Owners = AHashMap<u32, Arc<str>>;

/// Entries by the numbers of one generation of names.
struct Table {
    names: Arc<Names>,
    pages: Vec<Option<Box<[Entry; PAGE]>>>,
    /// The numbers whose entries have changed since the last checkpoint.
    changed: Vec<u32>,
    /// The owners of series without an id, noted since the last checkpoint.
    owners: Owners,
}

/// The table of the current names is the last one. Tables of earlier names stay until a checkpoint has brought them to
/// the outbox.
#[derive(Default)]
pub(super) struct RecentPoints {
    tables: Vec<Table>,
    /// The outbox's numbering to which the ids belong.
    numbering: u64,
    /// Series that a checkpoint took but no group has, because their sender is quarantined; and series posted without a
    /// lasting number, of which only the owner is noted. They stay until the outbox has them.
    apart: HashMap<Digest, Noted>,
}

/// Something for each series, by number, for each generation of names.
type ByNumber<T> = Vec<(Arc<Names>, Vec<(u32, T)>)>;

/// What had changed in a table, with the owners of series that have no id.
struct OfTable {
    names: Arc<Names>,
    changed: Vec<(u32, Entry)>,
    owners: Owners,
}

/// What had changed when a checkpoint took the book.
#[derive(Default)]
pub struct Changed {
    of: Vec<OfTable>,
    apart: HashMap<Digest, Noted>,
    numbering: u64,
}

/// The changes in the outbox's terms: by id if the ids are of its numbering, otherwise by the digest of the series'
/// key. `of` and `by_id` say to which numbers each of these belongs.
#[derive(Default)]
pub struct BySeries {
    pub recents: Recents,
    of: ByNumber<Digest>,
    by_id: ByNumber<()>,
}

impl Table {
    fn new(names: &Arc<Names>) -> Table {
        let (pages, changed, owners) = (Vec::new(), Vec::new(), Owners::new());
        Table { names: names.clone(), pages, changed, owners }
    }

    fn get(&self, number: u64) -> Option<&Entry> {
        let number = usize::try_from(number).ok()?;
        Some(&self.pages.get(number / PAGE)?.as_ref()?[number % PAGE])
    }

    fn at(&mut self, number: u32) -> &mut Entry {
        let number = number as usize;
        let page = number / PAGE;
        if page >= self.pages.len() {
            if page >= self.pages.capacity() {
                self.pages.reserve_exact(page + 1 - self.pages.len() + (page / 8).max(64));
                // a larger step than one page, but not twice as many
            }
            self.pages.resize_with(page + 1, || None);
        }
        &mut self.pages[page].get_or_insert_with(|| Box::new([NOTHING; PAGE]))[number % PAGE]
    }

    fn note(&mut self, sender: &str, points: &Points) {
        let mut owner: Option<Arc<str>> = None;
        for point in points.each() {
            let number = point[0] as u32; // names have fewer than 2^32
            let entry = self.at(number);
            if entry.id & IN_POST != 0 {
                entry.recent.go_on(&point[1..]);
                continue;
            }
            entry.recent.begin(&point[1..]);
            entry.id |= IN_POST;
            if entry.id & NO_ID == NO_ID {
                let owner = owner.get_or_insert_with(|| Arc::from(sender));
                self.owners.entry(number).or_insert_with(|| owner.clone());
            }
            self.note_change(number);
        }
        for number in points.numbers() {
            self.at(number as u32).id &= !IN_POST;
        }
    }

    fn note_change(&mut self, number: u32) {
        let entry = self.at(number);
        if entry.id & CHANGED == 0 {
            entry.id |= CHANGED;
            self.changed.push(number);
        }
    }

    fn set_id(&mut self, number: u32, id: u32) {
        let entry = self.at(number);
        entry.id = entry.id & !NO_ID | id;
    }

    fn take_changed(&mut self) -> Vec<(u32, Entry)> {
        let changed = std::mem::take(&mut self.changed);
        let take = |number| {
            let entry = self.at(number);
            entry.id &= !CHANGED;
            (number, *entry)
        };
        changed.into_iter().map(take).collect()
    }
}

impl RecentPoints {
    /// Records a post that the book has taken.
    fn note(&mut self, sender: &str, names: &Arc<Names>, points: &Points) {
        let is_its = |table: &Table| Arc::ptr_eq(&table.names, names);
        let place = self.tables.iter().rposition(is_its).unwrap_or_else(|| {
            self.tables.push(Table::new(names));
            self.tables.len() - 1
        });
        self.tables[place].note(sender, points);
    }

    fn note_apart(&mut self, sender: &str, series: &HashSet<Digest>) {
        let owner: Arc<str> = sender.into();
        for digest in series {
            self.apart.entry(*digest).or_default().owner.get_or_insert_with(|| owner.clone());
        }
    }

    /// The digests of the last posts of a series, the latest first; those recorded under other names count as the
    /// earlier ones.
    fn of(&self, names: &Names, number: u64) -> Vec<PointsDigest> {
        let mut text = None;
        let mut text = || text.get_or_insert_with(|| names.text_if_room(number)).clone();
        let entries = self.tables.iter().rev().filter_map(|table| match std::ptr::eq(&*table.names, names) {
            true => table.get(number),
            false => table.get(table.names.number_of(&text()?).ok()?),
        });
        let mut known: Vec<PointsDigest> = entries.flat_map(|entry| entry.recent.digests()).collect();
        if known.len() < POSTS_KNOWN && !self.apart.is_empty() {
            let apart = text().and_then(|text| self.apart.get(&only(&text)?.digest()));
            let before = apart.into_iter().flat_map(|noted| noted.recent.digests());
            known.extend(before.filter(|digest| !known.contains(digest)).collect::<Vec<_>>());
        }
        known.truncate(POSTS_KNOWN);
        known
    }
}

impl Book {
    /// The digests of the last posts of a series, as far as they are known here.
    pub fn recent(&self, names: &Names, number: u64) -> Vec<PointsDigest> {
        self.recent.of(names, number)
    }

    /// Records a post that the book has taken; if it is several posts put in as one, each of them.
    pub fn note_recent(&mut self, read: &Read, each: &[Post]) {
        let names = read.named();
        let mut note = |post: &Post, apart: Option<&HashSet<Digest>>| match (&post.body, names, apart) {
            (.., Some(apart)) => self.recent.note_apart(&post.sender, apart),
            (Body::Points(points), Some(names), None) => self.recent.note(&post.sender, names, points),
            _ => {} // it has no points
        };
        match each {
            [] => note(&read.post, read.series_apart()),
            each => each.iter().for_each(|post| note(post, series_apart(post, names).as_ref())),
        }
    }

    /// The changes since the last call. A table of earlier names is removed by the next call.
    pub fn changed_recents(&mut self) -> Changed {
        let recent = &mut self.recent;
        let last = recent.tables.len().saturating_sub(1);
        let mut place = 0;
        recent.tables.retain(|table| {
            place += 1;
            place > last || !table.changed.is_empty()
        });
        let take = |table: &mut Table| OfTable {
            names: table.names.clone(),
            changed: table.take_changed(),
            owners: std::mem::take(&mut table.owners),
        };
        let of = recent.tables.iter_mut().map(take).collect();
        Changed { of, apart: recent.apart.clone(), numbering: recent.numbering }
    }

    /// Records the ids, of this numbering, that the outbox gave to the series that went to it by digest.
    pub fn note_ids(&mut self, numbering: u64, noted: BySeries, ids: Vec<Option<u32>>) {
        let recent = &mut self.recent;
        if recent.numbering != numbering {
            recent.numbering = numbering;
            let tables = recent.tables.iter_mut().flat_map(|table| table.pages.iter_mut().flatten());
            tables.flat_map(|page| page.iter_mut()).for_each(|entry| entry.id |= NO_ID);
        }
        let BySeries { recents, of, by_id } = noted;
        if recents.numbering != numbering {
            // The outbox may have had another numbering when it got these ids: they are sent again.
            for (names, numbers) in by_id {
                if let Some(table) = recent.tables.iter_mut().find(|table| Arc::ptr_eq(&table.names, &names))
                {
                    numbers.into_iter().for_each(|(number, ())| table.note_change(number));
                }
            }
        }
        let known = recents.by_digest.keys().zip(ids).filter_map(|(digest, id)| Some((*digest, id?)));
        let known: HashMap<Digest, u32> = known.collect();
        for (names, numbers) in of {
            let Some(table) = recent.tables.iter_mut().find(|table| Arc::ptr_eq(&table.names, &names)) else {
                continue;
            };
            for (number, digest) in numbers {
                if let Some(id) = known.get(&digest).filter(|id| **id < NO_ID) {
                    table.set_id(number, *id);
                }
            }
        }
        recent.apart.retain(|digest, _| !known.contains_key(digest));
        // No group has the series of quarantined senders yet.
        let held = recents.by_digest.into_iter().filter(|(digest, _)| !known.contains_key(digest));
        for (digest, noted) in held {
            let kept = recent.apart.entry(digest).or_default();
            kept.recent = noted.recent; // includes what was kept before
            kept.owner = noted.owner.or(kept.owner.take());
        }
    }
}

impl Changed {
    /// Converts the changes for an outbox of this numbering.
    pub fn by_series(self, numbering: u64) -> BySeries {
        let mut all = BySeries::default();
        (all.recents.numbering, all.recents.by_digest) = (numbering, self.apart);
        let has_ids = self.numbering == numbering;
        for OfTable { names, changed, mut owners } in self.of {
            let id = |entry: &Entry| Some(entry.id & NO_ID).filter(|id| has_ids && *id != NO_ID);
            let with_id = changed.iter().filter_map(|(_, entry)| Some((id(entry)?, entry.recent)));
            all.recents.by_id.extend(with_id);
            let numbers = changed.iter().filter_map(|(number, entry)| id(entry).map(|_| (*number, ())));
            all.by_id.push((names.clone(), numbers.collect()));
            let without: Vec<&(u32, Entry)> =
                changed.iter().filter(|(_, entry)| id(entry).is_none()).collect();
            let mut found = Vec::with_capacity(without.len());
            made_in_order(
                without.chunks(SERIES_AT_ONCE),
                |some| digests(&names, some),
                |some| found.extend(some),
            );
            for ((number, entry), (_, digest)) in without.into_iter().zip(&found) {
                let known = all.recents.by_digest.entry(*digest).or_default();
                known.recent = known.recent.then(entry.recent);
                known.owner = known.owner.take().or_else(|| owners.remove(number));
            }
            all.of.push((names, found));
        }
        all
    }
}

/// The digests of the keys of these numbers' series. Each has a request, since the book took points of it.
fn digests(names: &Names, some: &[&(u32, Entry)]) -> Vec<(u32, Digest)> {
    let digest = |(number, _): &&(u32, Entry)| {
        let key = only(&names.text((*number).into()));
        (*number, key.map_or([0; 32], |key| key.digest()))
    };
    some.iter().map(digest).collect()
}

/// The series of a post of which only the owner is noted; none if they have lasting numbers.
pub(super) fn series_apart(post: &Post, names: Option<&Arc<Names>>) -> Option<HashSet<Digest>> {
    match (&post.body, names) {
        (Body::Text(text), _) => series_of_text(text),
        (Body::Points(points), Some(names)) if names.are_of_one_post() => {
            let numbers: HashSet<u64> = points.numbers().collect();
            let keys = numbers.into_iter().filter_map(|number| only(&names.text(number)));
            Some(keys.map(|key| key.digest()).collect())
        }
        (Body::Points(_), _) => None,
    }
}

/// The series of a body as the book parses it; none if the book would refuse the whole body.
pub fn series_of_text(body: &[u8]) -> Option<HashSet<Digest>> {
    let (mut series, mut digests) = (HashSet::new(), Digests::default());
    posted(body, |key| {
        series.insert(digests.of_text(key));
    })?;
    Some(series)
}

impl BySeries {
    /// The series whose ids are to be asked for once the outbox has them.
    pub fn digests(&self) -> impl Iterator<Item = &Digest> {
        self.recents.by_digest.keys()
    }
}

#[cfg(test)]
mod tests;
