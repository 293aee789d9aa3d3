//! Compares the files in memory with a map; rows are sometimes written twice, and a next owner reads them.

use super::files::{Batch, Bytes, Files, Read, StoredPiece};
use super::packed::{unpacked, Packed};
use crate::storage::test_random::TestRandom;
use std::collections::BTreeMap;
use std::path::{Path, PathBuf};

/// The rows of the tables: each piece by file and number.
#[derive(Default)]
struct Rows {
    files: BTreeMap<i64, String>,
    pieces: BTreeMap<(i64, i64), (i64, i32, Bytes)>,
}

impl Rows {
    fn put(&mut self, batch: &Batch) {
        let packed = Packed::of(batch);
        self.pieces.retain(|(file, _), _| !packed.gone.contains(file));
        self.files.retain(|file, _| !packed.gone.contains(file));
        self.files.extend(packed.named);
        for piece in packed.pieces {
            let key = (piece.file, piece.number);
            self.pieces.entry(key).or_insert((piece.place, piece.length, piece.bytes));
        }
    }

    fn find(&self, number: u64) -> Bytes {
        let found = self.pieces.iter().find(|((_, piece), _)| *piece == number as i64);
        let (_, (_, length, bytes)) = found.unwrap_or_else(|| panic!("piece {number} is not there"));
        unpacked(bytes, *length as usize).unwrap().into()
    }

    fn found(&self, term: u64) -> Files {
        let names = self.files.iter().map(|(file, name)| (*file as u64, name.clone()));
        let mut pieces: Vec<StoredPiece> = Vec::new();
        for ((file, number), (at, length, _)) in &self.pieces {
            assert!(self.files.contains_key(file), "file {file} has pieces and no name");
            pieces.push(StoredPiece {
                number: *number as u64,
                file: *file as u64,
                at: *at as u64,
                length: *length as u64,
            });
        }
        pieces.sort_by_key(|piece| piece.number);
        Files::found(term, names.collect(), pieces)
    }
}

struct Trial {
    files: Files,
    rows: Rows,
    now: BTreeMap<PathBuf, Vec<u8>>,
    synced: BTreeMap<PathBuf, Vec<u8>>,
    /// A batch in flight, and the files when it began.
    sent: Option<(Batch, BTreeMap<PathBuf, Vec<u8>>)>,
    term: u64,
    chance: TestRandom,
}

impl Trial {
    fn name(&mut self) -> PathBuf {
        let folder = ["journal", "outbox"][self.chance.below(2) as usize];
        Path::new(folder).join(self.chance.below(4).to_string())
    }

    fn write(&mut self) {
        let name = self.name();
        let Some(there) = self.now.get_mut(&name) else {
            return;
        };
        let length = match self.chance.below(40) {
            0 => self.chance.below(3 << 20),
            _ => self.chance.below(300),
        } as usize;
        let at = match self.chance.below(4) {
            0 => self.chance.below(there.len() as u64 + 50) as usize,
            _ => there.len(),
        };
        let (first, repeated) = (self.chance.below(256) as u8, self.chance.below(2) == 0);
        let bytes: Vec<u8> = (0..length)
            .map(|place| if repeated { first } else { ((place * 7919) >> 3) as u8 ^ first })
            .collect();
        if !bytes.is_empty() {
            there.resize(there.len().max(at + length), 0);
            there[at..at + length].copy_from_slice(&bytes);
        }
        let file = self.files.open(&name).unwrap();
        self.files.write(file, &bytes, at as u64).unwrap();
    }

    fn rename(&mut self) {
        let (from, to) = (self.name(), self.name());
        let moved = self.now.remove(&from);
        assert_eq!(self.files.rename(&from, &to).is_ok(), moved.is_some());
        moved.map(|bytes| self.now.insert(to, bytes));
    }

    fn read(&mut self) {
        let name = self.name();
        let Ok(file) = self.files.open(&name) else {
            assert!(!self.now.contains_key(&name));
            return;
        };
        let there = &self.now[&name];
        assert_eq!(self.files.length(file).unwrap(), there.len() as u64);
        let at = self.chance.below(there.len() as u64 + 10);
        let mut bytes = vec![9; self.chance.below(2 << 20) as usize];
        let rest = there.get(at as usize..).unwrap_or_default();
        let fetched = |number| (number > 0).then(|| self.rows.find(number));
        match self.files.read(file, &mut bytes, at, fetched).unwrap() {
            Read::Done(length) => {
                assert_eq!(length, rest.len().min(bytes.len()));
                assert!(bytes[..length] == rest[..length], "{name:?} from {at}");
            }
            Read::Needs(pieces) => panic!("{pieces:?}"),
        }
        // The pieces that it asks for are in the store.
        if let Read::Needs(pieces) = self.files.read(file, &mut bytes, at, |_| None).unwrap() {
            assert!(!pieces.is_empty());
            pieces.into_iter().for_each(|piece| drop(self.rows.find(piece)));
        }
    }

    /// Begins a sync, or ends the one in flight; a write may happen twice.
    fn sync(&mut self) {
        match self.sent.take() {
            None => self.sent = Some((self.files.batch(), self.now.clone())),
            Some((batch, then)) => {
                (0..1 + self.chance.below(2)).for_each(|_| self.rows.put(&batch));
                self.files.is_there(&batch);
                self.synced = then;
            }
        }
    }

    /// The next owner finds what was synced; a batch in flight is there or not.
    fn reopen(&mut self) {
        if let Some((batch, then)) = self.sent.take().filter(|_| self.chance.below(2) == 0) {
            self.rows.put(&batch);
            self.synced = then;
        }
        self.term += 1;
        self.files = self.rows.found(self.term);
        self.now = self.synced.clone();
        let pieces: Vec<i64> = self.rows.pieces.keys().map(|(_, number)| *number).collect();
        assert!(pieces.iter().all(|number| *number < (self.term as i64) << 40));
    }

    fn step(&mut self) {
        let name = self.name();
        match self.chance.below(20) {
            0..=2 => {
                let is_new = self.files.create(&name).is_ok();
                assert_eq!(is_new, !self.now.contains_key(&name));
                self.now.entry(name).or_default();
            }
            3..=9 => self.write(),
            10 => self.rename(),
            11 => {
                let is_gone = self.files.remove(&name).is_ok();
                assert_eq!(is_gone, self.now.remove(&name).is_some());
            }
            12..=13 => self.read(),
            14..=18 => self.sync(),
            _ if self.chance.below(5) == 0 => self.reopen(),
            _ => {
                let folder = name.parent().unwrap();
                let there = self.now.keys().filter(|name| name.parent() == Some(folder));
                let there: Vec<_> = there.map(|name| name.file_name().unwrap().to_os_string()).collect();
                assert_eq!(self.files.list(folder), there);
            }
        }
    }
}

#[test]
fn files_are_as_a_map_has_them_whatever_is_repeated_or_lost() {
    for seed in 0..20 {
        let mut trial = Trial {
            files: Files::found(1, Vec::new(), []),
            rows: Rows::default(),
            now: BTreeMap::new(),
            synced: BTreeMap::new(),
            sent: None,
            term: 1,
            chance: TestRandom(seed),
        };
        (0..400).for_each(|_| trial.step());
    }
}

#[test]
fn a_file_that_came_and_went_between_two_syncs_is_no_matter_of_the_store() {
    let mut files = Files::found(1, Vec::new(), []);
    let name = Path::new("a.draft");
    let file = files.create(name).unwrap();
    files.write(file, b"xyz", 0).unwrap();
    files.remove(name).unwrap();
    let batch = files.batch();
    assert!(batch.gone.is_empty() && batch.named.is_empty() && batch.pieces.is_empty());
    assert!(files.length(file).is_err());
}

#[test]
fn what_goes_on_is_one_piece_until_it_is_sent_or_full() {
    let mut files = Files::found(1, Vec::new(), []);
    let file = files.create(Path::new("a")).unwrap();
    (0..100).for_each(|number| files.write(file, &[1; 10], number * 10).unwrap());
    let lengths = |batch: Batch| batch.pieces.iter().map(|(_, piece)| piece.bytes.len()).collect::<Vec<_>>();
    assert_eq!(lengths(files.batch()), [1000]);
    files.write(file, &[2; (1 << 20) + 5], 1000).unwrap();
    files.write(file, &[3; 7], 0).unwrap();
    files.write(file, &[3; 7], 7).unwrap();
    assert_eq!(lengths(files.batch()), [1 << 20, 5, 14]);
}
