//! The files of a shard in memory: their names, which piece has which bytes, and what the store does not have yet.
//!
//! `PostgresShardStore` changes them, and `committer` takes batches of changes. The bytes of a piece stay here until the
//! store has them.

use super::extents::{Extents, Part};
use std::collections::{BTreeMap, BTreeSet, HashMap};
use std::ffi::OsString;
use std::io::{self, ErrorKind};
use std::path::{Path, PathBuf};
use std::sync::Arc;

/// The most bytes of a piece.
pub const PIECE: usize = 1 << 20;
/// The bits for the numbers that one owner can give to pieces and files.
const NUMBERS: u32 = 40;
/// Packing more bytes than this takes milliseconds.
const LONG: usize = 512 << 10;
/// How many bytes are normally fetched at once, because reads are mostly sequential.
const AHEAD: u64 = 2 << 20;

pub type Bytes = Arc<Vec<u8>>;

#[derive(Default)]
pub struct Files {
    names: BTreeMap<PathBuf, u64>,
    files: HashMap<u64, File>,
    /// Pieces that the store is not known to have.
    held: BTreeMap<u64, Piece>,
    /// Pieces from this number on are in no batch yet.
    queued: u64,
    /// Files that were named or renamed, and deleted files, since the last batch.
    named: BTreeSet<u64>,
    gone: Vec<u64>,
    next: u64,
    /// How many calls have changed something.
    changes: u64,
}

struct File {
    name: PathBuf,
    extents: Extents,
    /// The piece that was written last.
    last: u64,
    /// The store has it, or may have it.
    is_sent: bool,
}

#[derive(Clone)]
pub struct Piece {
    pub file: u64,
    pub at: u64,
    pub bytes: Bytes,
}

/// The changes since the previous batch. Each part states a result, so a batch can be written again.
#[derive(Default)]
pub struct Batch {
    pub gone: Vec<u64>,
    pub named: Vec<(u64, String)>,
    /// With their numbers.
    pub pieces: Vec<(u64, Piece)>,
    /// The number of changes when the batch was made.
    pub changes: u64,
}

impl Batch {
    /// The bytes of its pieces.
    pub fn bytes(&self) -> usize {
        self.pieces.iter().map(|(_, piece)| piece.bytes.len()).sum()
    }
}

/// What is known of a piece in the store.
pub struct StoredPiece {
    pub number: u64,
    pub file: u64,
    pub at: u64,
    pub length: u64,
}

/// The outcome of a read.
pub enum Read {
    Done(usize),
    /// These pieces of the file must be fetched first.
    Needs(Vec<u64>),
}

impl Files {
    /// The files that a new owner finds; `pieces` must be in order of their numbers. The owner's own numbers begin with
    /// its term, so no number is used twice, even if the highest ones were deleted.
    pub fn found(
        term: u64,
        names: Vec<(u64, String)>,
        pieces: impl IntoIterator<Item = StoredPiece>,
    ) -> Files {
        let mut files = Files { next: term << NUMBERS, queued: term << NUMBERS, ..Files::default() };
        for (number, name) in names {
            files.put(number, PathBuf::from(name), true);
        }
        for piece in pieces {
            if let Some(file) = files.files.get_mut(&piece.file) {
                file.extents.put(piece.at, piece.length, piece.number, 0);
            }
        }
        files
    }

    fn put(&mut self, number: u64, name: PathBuf, is_sent: bool) {
        self.names.insert(name.clone(), number);
        let file = File { name, extents: Extents::default(), last: 0, is_sent };
        self.files.insert(number, file);
    }

    pub fn changes(&self) -> u64 {
        self.changes
    }

    /// Counts a change that changes nothing, so that the next batch differs from earlier ones.
    pub fn touch(&mut self) -> u64 {
        self.changes += 1;
        self.changes
    }

    fn number(&mut self) -> u64 {
        self.next += 1;
        self.next
    }

    pub fn create(&mut self, name: &Path) -> io::Result<u64> {
        if self.names.contains_key(name) {
            return Err(ErrorKind::AlreadyExists.into());
        }
        if name.to_str().is_none() {
            return Err(ErrorKind::InvalidInput.into());
        }
        let number = self.number();
        self.put(number, name.into(), false);
        self.named.insert(number);
        self.touch();
        Ok(number)
    }

    pub fn open(&self, name: &Path) -> io::Result<u64> {
        self.names.get(name).copied().ok_or(ErrorKind::NotFound.into())
    }

    pub fn list(&self, folder: &Path) -> Vec<OsString> {
        let inside = self.names.keys().filter(|name| name.parent() == Some(folder));
        inside.filter_map(|name| Some(name.file_name()?.into())).collect()
    }

    fn file(&self, number: u64) -> io::Result<&File> {
        self.files.get(&number).ok_or(ErrorKind::NotFound.into())
    }

    pub fn length(&self, number: u64) -> io::Result<u64> {
        Ok(self.file(number)?.extents.end())
    }

    pub fn rename(&mut self, from: &Path, to: &Path) -> io::Result<()> {
        let number = self.open(from)?;
        if to.to_str().is_none() {
            return Err(ErrorKind::InvalidInput.into());
        }
        if from == to {
            return Ok(());
        }
        if self.names.contains_key(to) {
            self.remove(to)?;
        }
        self.names.remove(from);
        self.names.insert(to.into(), number);
        self.named.insert(number);
        self.touch();
        if let Some(file) = self.files.get_mut(&number) {
            file.name = to.into();
        }
        Ok(())
    }

    pub fn remove(&mut self, name: &Path) -> io::Result<()> {
        let number = self.names.remove(name).ok_or(ErrorKind::NotFound)?;
        self.named.remove(&number);
        self.touch();
        self.held.retain(|_, piece| piece.file != number);
        if self.files.remove(&number).is_some_and(|file| file.is_sent) {
            self.gone.push(number);
        }
        Ok(())
    }

    /// Appends to the last piece of the file if the bytes continue it, until that piece is full or in a batch.
    pub fn write(&mut self, number: u64, mut bytes: &[u8], mut at: u64) -> io::Result<()> {
        while !bytes.is_empty() {
            let last = self.file(number)?.last;
            let (piece, from, length) = match self.room_behind(last, at) {
                Some((from, room)) => (last, from, room.min(bytes.len())),
                None => (self.number(), 0, PIECE.min(bytes.len())),
            };
            let (now, rest) = bytes.split_at(length);
            let new = || Piece { file: number, at, bytes: Bytes::default() };
            let held = self.held.entry(piece).or_insert_with(new);
            Arc::make_mut(&mut held.bytes).extend_from_slice(now);
            if let Some(file) = self.files.get_mut(&number) {
                file.extents.put(at, length as u64, piece, from);
                file.last = piece;
            }
            (bytes, at) = (rest, at + length as u64);
        }
        self.touch();
        self.file(number).map(drop)
    }

    /// The length of a piece and how much it may still take, if it is in no batch and ends at `at`.
    fn room_behind(&self, piece: u64, at: u64) -> Option<(u64, usize)> {
        let held = self.held.get(&piece).filter(|_| piece >= self.queued)?;
        let length = held.bytes.len();
        let goes_on = held.at + length as u64 == at && length < PIECE;
        goes_on.then(|| (length as u64, PIECE - length))
    }

    /// `fetched` returns the bytes of pieces that only the store has.
    pub fn read(
        &self,
        number: u64,
        bytes: &mut [u8],
        at: u64,
        fetched: impl Fn(u64) -> Option<Bytes>,
    ) -> io::Result<Read> {
        let extents = &self.file(number)?.extents;
        let mut done = 0;
        for Part { piece, from, length } in extents.parts(at, bytes.len() as u64) {
            let into = &mut bytes[done..done + length];
            let here = self.held.get(&piece).map(|held| held.bytes.clone());
            match here.or_else(|| fetched(piece)) {
                None if piece == 0 => into.fill(0),
                None => return Ok(Read::Needs(self.needed(extents, at + done as u64, fetched))),
                Some(found) => {
                    let found = found.get(from..from + length);
                    into.copy_from_slice(found.ok_or(ErrorKind::InvalidData)?);
                }
            }
            done += length;
        }
        Ok(Read::Done(done))
    }

    /// The pieces of the next bytes that are not here.
    fn needed(&self, extents: &Extents, at: u64, fetched: impl Fn(u64) -> Option<Bytes>) -> Vec<u64> {
        let is_here = |piece: &u64| self.held.contains_key(piece) || fetched(*piece).is_some();
        let parts = extents.parts(at, AHEAD).map(|part| part.piece);
        let needed = parts.filter(|piece| *piece > 0 && !is_here(piece));
        needed.collect::<BTreeSet<u64>>().into_iter().collect()
    }

    /// Whether the next batch would delay other shards: it has much to pack, or deletes files.
    pub fn is_long(&self) -> bool {
        let lengths = self.held.range(self.queued..).map(|(_, piece)| piece.bytes.len());
        !self.gone.is_empty() || lengths.sum::<usize>() > LONG
    }

    pub fn batch(&mut self) -> Batch {
        let pieces = self.held.range(self.queued..);
        let pieces = pieces.map(|(number, piece)| (*number, piece.clone())).collect();
        self.queued = self.next + 1;
        let mut named = Vec::new();
        for number in std::mem::take(&mut self.named) {
            if let Some(file) = self.files.get_mut(&number) {
                file.is_sent = true;
                named.push((number, file.name.to_string_lossy().into_owned()));
            }
        }
        Batch { gone: std::mem::take(&mut self.gone), named, pieces, changes: self.changes }
    }

    /// The store has the batch, so its bytes are dropped here.
    pub fn is_there(&mut self, batch: &Batch) {
        for (number, _) in &batch.pieces {
            self.held.remove(number);
        }
    }
}
