//! The series that an outbox knows. In memory they are known by digests of their keys: a key takes some hundred bytes,
//! and is needed seldom.
//!
//! A digest is enough, as it is for the sinks: nobody can make two keys with the same SHA-256.

use super::changes::SenderRename;
use super::keys::Keys;
use super::texts::Texts;
use super::Series;
use crate::otlp::series::{Digest, Digests, SeriesKey};
use ahash::{AHashMap, AHashSet};
use std::collections::HashSet;
use std::sync::Arc;
use std::sync::OnceLock;
use std::time::{Duration, Instant};

pub struct KnownSeries {
    pub series: Series,
    /// When a group of this run last had a point of it. Setting the system's clock does not change this.
    pub heard: Heard,
}

/// When something happened in this run, by a clock that is never set; zero if it did not. Each series has one, so it
/// takes four bytes: sixteenths of a second, for eight years.
#[derive(Clone, Copy, Debug, Default)]
pub struct Heard(u32);

const PARTS_OF_A_SECOND: u128 = 16;

static BEGAN: OnceLock<Instant> = OnceLock::new();

impl Heard {
    pub fn now() -> Heard {
        let began = BEGAN.get_or_init(Instant::now);
        Heard(parts(began.elapsed()).saturating_add(1)) // 0 means never
    }

    /// True also if it never happened.
    pub fn is_so_long_ago(self, age: Duration) -> bool {
        self.0 == 0 || Heard::now().0.saturating_sub(self.0) >= parts(age)
    }
}

fn parts(time: Duration) -> u32 {
    u32::try_from(time.as_millis() * PARTS_OF_A_SECOND / 1000).unwrap_or(u32::MAX)
}

/// Seconds since 1970, in 32 bits.
pub fn whole_seconds(seconds: u64) -> u32 {
    u32::try_from(seconds).unwrap_or(u32::MAX)
}

/// The ids count up from 0; the records of a segment name series by them.
#[derive(Default)]
pub struct Table {
    ids: AHashMap<Digest, u32>,
    /// By id; none for a forgotten series.
    known: Vec<Option<KnownSeries>>,
    keys: Texts,
    /// New keys mostly come in sorted order, which this makes use of.
    digests: Digests,
    /// Each owner's name is in memory once.
    owners: HashSet<Arc<str>>,
    /// How often series were renumbered.
    numbering: u64,
}

impl Table {
    pub fn len(&self) -> usize {
        self.ids.len()
    }

    /// The id of the next new series.
    pub fn next_id(&self) -> u32 {
        self.known.len() as u32 // memory can't hold 2^32
    }

    pub fn id(&self, key: &SeriesKey) -> Option<u32> {
        self.id_of(&key.digest())
    }

    pub fn id_of(&self, digest: &Digest) -> Option<u32> {
        self.ids.get(digest).copied()
    }

    pub fn get(&self, digest: &Digest) -> Option<&KnownSeries> {
        self.at(self.id_of(digest)?)
    }

    pub fn at(&self, id: u32) -> Option<&KnownSeries> {
        self.known.get(id as usize)?.as_ref()
    }

    pub fn at_mut(&mut self, id: u32) -> Option<&mut KnownSeries> {
        self.known.get_mut(id as usize)?.as_mut()
    }

    /// All series by ascending id.
    pub fn iter(&self) -> impl Iterator<Item = (u32, &KnownSeries)> {
        (0..).zip(&self.known).filter_map(|(id, known)| Some((id, known.as_ref()?)))
    }

    /// The keys of these ids. Fast if they ascend.
    pub fn keys<'t>(&'t self, ids: impl Iterator<Item = u32> + 't) -> impl Iterator<Item = SeriesKey> + 't {
        self.keys.of(ids)
    }

    /// All keys by id, for use without the lock.
    pub fn texts(&self) -> Texts {
        self.keys.clone()
    }

    /// Gives the series the next id, or keeps the one that it has.
    pub fn put(&mut self, key: SeriesKey, known: KnownSeries) -> u32 {
        let next = self.next_id();
        let id = *self.ids.entry(self.digests.of(&key)).or_insert(next);
        if id == next {
            self.known.push(Some(known));
            self.keys.push(key);
        } else {
            self.known[id as usize] = Some(known);
        }
        id
    }

    /// `put` for many series.
    pub fn put_all(&mut self, keys: &Keys, known: impl IntoIterator<Item = KnownSeries>) {
        let each: AHashSet<&Digest> = keys.digests.iter().collect();
        let are_new =
            each.len() == keys.digests.len() && !each.into_iter().any(|digest| self.ids.contains_key(digest));
        if are_new {
            self.ids.extend(keys.digests.iter().copied().zip(self.next_id()..));
            self.known.extend(known.into_iter().map(Some));
            self.keys.append(&keys.texts);
        } else {
            for (key, known) in keys.texts.all().zip(known) {
                self.put(key, known);
            }
        }
    }

    /// Forgets these series and returns where each ended.
    pub fn forget_series(&mut self, ids: &[u32]) -> Vec<(Digest, u64)> {
        let forgotten = ids.iter().filter_map(|id| Some((*id, self.known.get_mut(*id as usize)?.take()?)));
        let ends: AHashMap<u32, u64> = forgotten.map(|(id, known)| (id, known.series.frontier)).collect();
        let mut forgotten = Vec::with_capacity(ends.len());
        self.ids.retain(|digest, id| match ends.get(id) {
            None => true,
            Some(end) => {
                forgotten.push((*digest, *end));
                false
            }
        });
        forgotten
    }

    /// Gives the series new ids without gaps.
    pub fn renumber(&mut self) {
        if self.ids.len() < self.known.len() {
            let old = std::mem::take(self);
            (self.owners, self.numbering) = (old.owners, old.numbering + 1);
            let left = (0..).zip(old.known).filter_map(|(id, known)| Some((id, known?)));
            let (ids, left): (Vec<u32>, Vec<KnownSeries>) = left.unzip();
            for (key, known) in old.keys.of(ids.into_iter()).zip(left) {
                self.put(key, known);
            }
            self.owners.retain(|owner| Arc::strong_count(owner) > 1);
        }
    }

    /// Changes when series get other ids.
    pub fn numbering(&self) -> u64 {
        self.numbering
    }

    /// The series of one owner belong to another one.
    pub fn rename_owner(&mut self, renamed: &SenderRename) {
        let to = self.shared(&renamed.to);
        for known in self.known.iter_mut().flatten() {
            if known.series.owner.as_deref() == Some(&*renamed.from) {
                known.series.owner = Some(to.clone());
            }
        }
    }

    /// An owner's name.
    pub fn shared(&mut self, owner: &str) -> Arc<str> {
        if let Some(known) = self.owners.get(owner) {
            return known.clone();
        }
        let new: Arc<str> = owner.into();
        self.owners.insert(new.clone());
        new
    }
}

#[cfg(test)]
mod tests {
    use super::super::Recent;
    use super::*;

    fn key(number: usize) -> SeriesKey {
        SeriesKey(format!("a{number}").into())
    }

    fn known(seen: u32) -> KnownSeries {
        let recent = Recent::default();
        KnownSeries {
            series: Series { frontier: 0, owner: None, seen, run: None, recent },
            heard: Heard::default(),
        }
    }

    /// The key of each id, and when it was last seen.
    fn all(table: &Table) -> Vec<(SeriesKey, u32)> {
        let seen = table.iter().map(|(_, known)| known.series.seen);
        table.keys(0..table.next_id()).zip(seen).collect()
    }

    /// There may be a million of these.
    #[test]
    fn what_is_known_of_a_series_takes_few_bytes() {
        assert!(size_of::<Option<KnownSeries>>() <= 64);
    }

    #[test]
    fn how_long_ago_something_was_is_known() {
        assert!(Heard::default().is_so_long_ago(Duration::MAX));
        let now = Heard::now();
        assert!(now.is_so_long_ago(Duration::ZERO) && !now.is_so_long_ago(Duration::from_secs(60)));
        std::thread::sleep(Duration::from_millis(200));
        assert!(now.is_so_long_ago(Duration::from_millis(100)));
    }

    /// Including a series that is known already, or is in the list twice.
    #[test]
    fn many_at_once_are_as_one_by_one() {
        let new: Vec<usize> = (0..300).collect();
        for before in [0, 5, 64] {
            for more in [&new[before..], &new[3..], &[&new[before..], &new[290..]].concat(), &[]] {
                let (mut at_once, mut one_by_one) = (Table::default(), Table::default());
                for number in 0..before {
                    at_once.put(key(number), known(1));
                    one_by_one.put(key(number), known(1));
                }
                let mut keys = Keys::default();
                for number in more {
                    keys.texts.push(key(*number));
                    keys.digests.push(key(*number).digest());
                }
                at_once.put_all(&keys, more.iter().map(|_| known(2)));
                for number in more {
                    one_by_one.put(key(*number), known(2));
                }
                assert_eq!(all(&at_once), all(&one_by_one), "{before} and {}", more.len());
                assert!((0..300).all(|number| at_once.id(&key(number)) == one_by_one.id(&key(number))));
            }
        }
    }
}
