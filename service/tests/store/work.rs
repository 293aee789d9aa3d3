//! Random work on a shard's files, compared with a map: the next owner has to find what a sync confirmed.

use std::collections::BTreeMap;
use std::path::{Path, PathBuf};
use std::sync::Arc;
use totxegun::storage::shard_store::{is_fenced, ShardStore};
use totxegun::store::postgres::{PostgresShardStore, PostgresStore};

pub type Contents = BTreeMap<PathBuf, Vec<u8>>;

pub struct Chance(pub u64);

impl Chance {
    pub fn below(&mut self, end: u64) -> u64 {
        self.0 = self.0.wrapping_mul(6364136223846793005).wrapping_add(1442695040888963407);
        (self.0 >> 33) % end
    }
}

/// An owner of a shard at work.
pub struct Work {
    pub shard_store: Arc<PostgresShardStore>,
    pub now: Contents,
    /// The content at the beginning of the last confirmed sync, and at the beginning of one that is not confirmed yet.
    pub synced: Contents,
    pub begun: Option<Contents>,
    pub syncs: u64,
    chance: Chance,
}

impl Work {
    /// Work of the next owner, which starts with the content that it finds.
    pub fn take(store: &PostgresStore, shard: u16, seed: u64) -> Work {
        let (shard_store, found) = take(store, shard);
        Work { shard_store, now: found.clone(), synced: found, begun: None, syncs: 0, chance: Chance(seed) }
    }

    fn name(&mut self) -> PathBuf {
        let folder = ["journal", "outbox", "dead-letters"][self.chance.below(3) as usize];
        Path::new(folder).join(format!("{:012}.seg", self.chance.below(5)))
    }

    /// Makes one call that changes something.
    pub fn step(&mut self) {
        let name = self.name();
        match self.chance.below(10) {
            0..=1 => {
                let made = self.shard_store.create(&name);
                assert!(made.is_ok() != self.now.contains_key(&name) || was_lost(made.err()));
                self.now.entry(name).or_default();
            }
            2 => {
                let removed = self.shard_store.remove(&name);
                assert!(removed.is_ok() == self.now.remove(&name).is_some() || was_lost(removed.err()));
            }
            3 => {
                let to = self.name();
                let renamed = self.shard_store.rename(&name, &to);
                let moved = self.now.remove(&name);
                assert!(renamed.is_ok() == moved.is_some() || was_lost(renamed.err()));
                moved.map(|bytes| self.now.insert(to, bytes));
            }
            _ => self.write(&name),
        }
    }

    fn write(&mut self, name: &Path) {
        let Some(there) = self.now.get_mut(name) else {
            return;
        };
        let length = match self.chance.below(30) {
            0 => self.chance.below(2 << 20),
            _ => self.chance.below(3000),
        } as usize;
        let at = match self.chance.below(6) {
            0 => self.chance.below(there.len() as u64 + 1) as usize,
            _ => there.len(),
        };
        let (first, step) = (self.chance.below(256), self.chance.below(3) * 7919);
        let bytes: Vec<u8> =
            (0..length as u64).map(|place| ((place * step) >> 3) as u8 ^ first as u8).collect();
        there.resize(there.len().max(at + length), 0);
        there[at..at + length].copy_from_slice(&bytes);
        let written =
            self.shard_store.open(name).and_then(|file| self.shard_store.write_at(file, &bytes, at as u64));
        assert!(written.is_ok() || was_lost(written.err()));
    }

    /// False if the shard is lost.
    pub fn sync(&mut self) -> bool {
        let begun = self.now.clone();
        self.begun = Some(begun);
        match self.shard_store.sync() {
            Ok(_) => {
                self.synced = self.begun.take().unwrap();
                self.syncs += 1;
                true
            }
            Err(error) => {
                assert!(is_fenced(&error), "{error}");
                false
            }
        }
    }

    /// Makes some calls, and then a sync.
    pub fn round(&mut self) -> bool {
        (0..1 + self.chance.below(8)).for_each(|_| self.step());
        self.sync()
    }

    /// Compares what a reader of the open files sees.
    pub fn check(&mut self) {
        let name = self.name();
        let Some(there) = self.now.get(&name) else {
            assert!(self.shard_store.open(&name).is_err());
            return;
        };
        let file = self.shard_store.open(&name).unwrap();
        assert_eq!(self.shard_store.length(file).unwrap(), there.len() as u64);
        let at = self.chance.below(there.len() as u64 + 1);
        let length = self.chance.below(100_000) as usize;
        assert!(
            read(&*self.shard_store, file, at, length)
                == there[at as usize..][..length.min(there.len() - at as usize)]
        );
    }

    /// Whether the next owner found the content at the last confirmed sync, or at one that was under way.
    pub fn is_found(&self, found: &Contents) -> bool {
        *found == self.synced || self.begun.as_ref() == Some(found)
    }
}

fn was_lost(error: Option<std::io::Error>) -> bool {
    error.is_some_and(|error| is_fenced(&error))
}

fn read(shard_store: &dyn ShardStore, file: u64, at: u64, length: usize) -> Vec<u8> {
    let mut bytes = vec![0; length];
    let mut done = 0;
    loop {
        match shard_store.read_at(file, &mut bytes[done..], at + done as u64).unwrap() {
            0 => break,
            more => done += more,
        }
    }
    bytes.truncate(done);
    bytes
}

pub fn contents(shard_store: &dyn ShardStore) -> Contents {
    let mut all = Contents::new();
    for folder in ["journal", "outbox", "dead-letters"] {
        for name in shard_store.list(Path::new(folder)).unwrap() {
            let name = Path::new(folder).join(name);
            let file = shard_store.open(&name).unwrap();
            let length = shard_store.length(file).unwrap();
            all.insert(name, read(shard_store, file, 0, length as usize));
        }
    }
    all
}

/// Takes the shard as the next owner. Returns what it finds.
pub fn take(store: &PostgresStore, shard: u16) -> (Arc<PostgresShardStore>, Contents) {
    let shard_store = taken(store, shard);
    let found = contents(&*shard_store);
    (shard_store, found)
}

/// Takes the shard as the next owner, which has read nothing yet.
pub fn taken(store: &PostgresStore, shard: u16) -> Arc<PostgresShardStore> {
    loop {
        let term = term_of(store, shard);
        if let Ok(Some(term)) = wait(store.take(shard, term, "next")) {
            return store.shard_store(shard, term).expect("nobody else takes it");
        }
        std::thread::sleep(std::time::Duration::from_millis(50));
    }
}

fn term_of(store: &PostgresStore, shard: u16) -> u64 {
    loop {
        if let Ok(shards) = wait(store.shards()) {
            return shards.iter().find(|owned| owned.shard == shard).unwrap().term;
        }
        std::thread::sleep(std::time::Duration::from_millis(50));
    }
}

pub fn wait<T>(work: impl std::future::Future<Output = T>) -> T {
    let runtime = tokio::runtime::Builder::new_current_thread().enable_all().build().unwrap();
    runtime.block_on(work)
}
