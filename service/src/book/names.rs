//! The numbers of series: the library's table of names, with a request for each number that names its series.
//! `shard/numbers` makes a table for posts, `worker/numbers` one for a start; the journal refers to series by number.

use super::library::{self, Answer, Reader};
use super::memory;
use super::readers::{free_spare_readers, with_reader};
use super::refusal::{check, Refused};
use super::texts::Texts;
use crate::journal;
use crate::journal::Points;
use crate::otlp::series::words_of;
use crate::work::locked;
use bytes::Bytes;
use std::sync::atomic::{AtomicBool, AtomicU64, AtomicUsize, Ordering::Relaxed};
use std::sync::{Arc, Mutex, MutexGuard, OnceLock, PoisonError, RwLock, RwLockReadGuard};

/// Counts the tables of names of this process.
static GENERATIONS: AtomicU64 = AtomicU64::new(1);

/// The library wants a sender for each request; for naming any will do.
const ANYBODY: &[u8] = b"-";
/// How many words a point of a sum has, with its number; a point of a histogram has more.
const LEAST_WORDS: usize = 4;
const MOST_MORE: usize = 4 << 10;
/// Most requests of one point are not longer.
const TEXT: usize = 1 << 10;

/// Numbers from 0 on, in the order in which series were named. Its own lock is held while a series is named or points
/// are read by number.
pub struct Names {
    handle: Mutex<library::Names>,
    /// The request of each number. A number is here before anybody can have points with it.
    named: RwLock<Named>,
    /// Naming a series failed for want of room or of memory: no further series gets a number.
    is_closed: AtomicBool,
    /// How many words the last post had beyond those of sums, so that the buffer for the next one is large enough at
    /// once.
    more: AtomicUsize,
    generation: u64,
    is_of_one_post: bool,
}

/// The request of each number, and how many words a point of its series has, with its number. The latter is computed
/// when it is first needed; 0 if the request can't be parsed.
#[derive(Default)]
struct Named {
    texts: Texts,
    words: Vec<OnceLock<u32>>,
}

impl Named {
    fn push(&mut self, text: &[u8]) {
        self.texts.push(text);
        self.words.push(OnceLock::new());
    }

    /// Splits the words into `count` points.
    fn split(&self, words: Vec<u64>, count: usize) -> Option<Points> {
        let (mut ends, mut end) = (Vec::with_capacity(count), 0);
        while let Some(number) = words.get(end) {
            end += self.words_of(usize::try_from(*number).ok()?)?;
            ends.push(end);
        }
        Points::new(words, ends)
    }

    fn words_of(&self, number: usize) -> Option<usize> {
        let words = || self.texts.get(number).and_then(|text| words_of(&text));
        let found = *self.words.get(number)?.get_or_init(|| words().unwrap_or(0) as u32);
        (found > 0).then_some(found as usize)
    }
}

impl Names {
    pub fn new() -> Result<Arc<Names>, Refused> {
        Names::of(false)
    }

    /// Names for the series of one post.
    pub fn of_one_post() -> Result<Arc<Names>, Refused> {
        Names::of(true)
    }

    fn of(is_of_one_post: bool) -> Result<Arc<Names>, Refused> {
        let handle = library::Names::new().ok_or(Refused::NoMemory)?;
        Ok(Arc::new(Names {
            handle: Mutex::new(handle),
            named: RwLock::default(),
            is_closed: AtomicBool::new(false),
            more: AtomicUsize::new(0),
            generation: GENERATIONS.fetch_add(1, Relaxed),
            is_of_one_post,
        }))
    }

    /// Whether the numbers are valid for one post alone.
    pub fn are_of_one_post(&self) -> bool {
        self.is_of_one_post
    }

    /// Whether no further series gets a number.
    pub fn are_closed(&self) -> bool {
        self.is_closed.load(Relaxed)
    }

    /// The number of the series of a request; the request must have exactly one point and be acceptable, or it is
    /// `NotOne`. A pooled reader parses it, so what the identities of several series have in common is in memory once.
    pub fn learn(&self, request: Bytes) -> Result<u64, Refused> {
        self.number_with(&request, |number, handle| {
            self.name_those_before(number, handle, |_| true)?;
            if number == self.count() {
                self.push(&request);
            }
            Ok(())
        })
    }

    /// The number of a series whose request is needed rarely, so that none is kept.
    pub fn number_of(&self, request: &[u8]) -> Result<u64, Refused> {
        self.number_with(request, |_, _| Ok(()))
    }

    /// The numbers of a request of exactly `count` points of sums, in their order; none otherwise, or if there is no
    /// memory.
    pub fn numbers_of(&self, request: &[u8], count: usize) -> Option<Vec<u64>> {
        let words = with_reader(|reader| {
            let read = check(reader.read(ANYBODY, request, 1))?;
            if (read.number, read.at) != (count as u64, 0) {
                return Err(Refused::NotOne);
            }
            Ok(said(reader, &mut *self.open()?, LEAST_WORDS * count)?.0)
        });
        let words = words.ok()?;
        let points = words.chunks_exact(LEAST_WORDS);
        (words.len() == LEAST_WORDS * count).then(|| points.map(|point| point[0]).collect())
    }

    fn number_with(
        &self,
        request: &[u8],
        name: impl FnOnce(u64, &mut library::Names) -> Result<(), Refused>,
    ) -> Result<u64, Refused> {
        with_reader(|reader| {
            let read = check(reader.read(ANYBODY, request, 1))?;
            if (read.number, read.at) != (1, 0) {
                return Err(Refused::NotOne);
            }
            let mut handle = self.open()?;
            let (words, _) = said(reader, &mut handle, LEAST_WORDS)?;
            let number = *words.first().ok_or(Refused::NotOne)?;
            name(number, &mut handle)?;
            Ok(number)
        })
    }

    /// Gives numbers to the series of the reader's `count` points, as far as there is memory. If one of them is named
    /// again it has this number, and the books find its points by what they noted when they took these.
    pub(super) fn note(&self, reader: &mut Reader, count: usize) {
        let _ = said(reader, &mut self.handle(), LEAST_WORDS * count);
    }

    /// The reader's `count` points by the numbers of their series. `has_room` reserves room for the request of each new
    /// series. None if a series can't be named; from then on no other series gets a number.
    pub(super) fn number(
        &self,
        reader: &mut Reader,
        count: usize,
        has_room: impl Fn(usize) -> bool,
    ) -> Option<Points> {
        let points = self.open().and_then(|mut handle| {
            let least = LEAST_WORDS * count;
            let more = self.more.load(Relaxed).min(MOST_MORE);
            let (words, names) = said(reader, &mut handle, least + more)?;
            drop(handle);
            self.more.store(words.len().saturating_sub(least), Relaxed);
            self.with_all(names, has_room)?.split(words, count).ok_or(Refused::NoSuch)
        });
        if points.is_err() {
            self.is_closed.store(true, Relaxed);
        }
        points.ok()
    }

    fn open(&self) -> Result<MutexGuard<'_, library::Names>, Refused> {
        match self.are_closed() {
            false => Ok(self.handle()),
            true => Err(Refused::NoMemory),
        }
    }

    /// All names, once `names` of them have a request. Releases the lock between two of them, so that other threads can
    /// read points.
    fn with_all(
        &self,
        names: u64,
        has_room: impl Fn(usize) -> bool,
    ) -> Result<RwLockReadGuard<'_, Named>, Refused> {
        loop {
            let named = self.named();
            let count = named.texts.count() as u64;
            if count >= names {
                return Ok(named);
            }
            drop(named);
            self.name_those_before(count + 1, &mut self.handle(), &has_room)?;
        }
    }

    fn name_those_before(
        &self,
        number: u64,
        handle: &mut library::Names,
        has_room: impl Fn(usize) -> bool,
    ) -> Result<(), Refused> {
        for next in self.count()..number {
            let text = text_of(handle, next)?;
            if !has_room(text.len()) {
                return Err(Refused::NoMemory);
            }
            self.push(&text);
        }
        Ok(())
    }

    /// How many series have a number.
    pub fn count(&self) -> u64 {
        self.named().texts.count() as u64
    }

    /// The caller holds the lock of `handle`.
    fn push(&self, text: &[u8]) {
        let mut named = self.named.write().unwrap_or_else(PoisonError::into_inner);
        named.push(text);
    }

    /// Gives a reader points by number.
    pub(super) fn put(&self, reader: &mut Reader, sender: &[u8], words: &[u64], books: usize) -> Answer {
        reader.put(&mut self.handle(), sender, words, books)
    }

    fn handle(&self) -> MutexGuard<'_, library::Names> {
        locked(&self.handle) // a call of the library either completes or ends the process
    }

    /// The total length of the requests of these numbers.
    pub(super) fn length(&self, numbers: impl Iterator<Item = u64>) -> usize {
        let named = self.named();
        let lengths = numbers.filter_map(|number| named.texts.length(usize::try_from(number).ok()?));
        lengths.sum()
    }

    /// A request with one point of a series; none if it is not kept and there is no memory to make it.
    pub fn text_if_room(&self, number: u64) -> Option<Bytes> {
        let kept = usize::try_from(number).ok().and_then(|number| self.named().texts.get(number));
        let text = kept.or_else(|| text_of(&mut self.handle(), number).ok());
        text.map(Bytes::from)
    }

    /// Makes a request that is not kept. It may use up the reserve, and if even that fails the process ends with
    /// advice: without it a start would lose what a run of the series had come to, and its next point would count that
    /// again, or a commit would lack the owner of the series. Going on would not help, since the next start would fail
    /// in the same way.
    fn unkept_text(&self, number: u64) -> Vec<u8> {
        let asked = || memory::with_reserve(|| text_of(&mut self.handle(), number));
        let mut text = asked();
        if text == Err(Refused::NoMemory) {
            free_spare_readers();
            text = asked();
        }
        match text {
            Err(Refused::NoMemory) => {
                crate::complain(format_args!(
                    "no memory is left for the name of a series, so the service ends. Nothing is lost, since the journal \
                     has all accepted posts: raise --max-memory"
                ));
                std::process::exit(memory::NONE_LEFT)
            }
            text => text.unwrap_or_default(),
        }
    }

    fn named(&self) -> RwLockReadGuard<'_, Named> {
        self.named.read().unwrap_or_else(PoisonError::into_inner) // the list is valid at any time
    }
}

/// The words of the reader's points, in a buffer of `room` words, and how many names there are then.
fn said(reader: &mut Reader, names: &mut library::Names, room: usize) -> Result<(Vec<u64>, u64), Refused> {
    let mut words = vec![0; room];
    let answer = check(reader.words(names, &mut words))?;
    Ok((words, answer.at))
}

/// A request with one point of the series with this number.
fn text_of(names: &mut library::Names, number: u64) -> Result<Vec<u8>, Refused> {
    let mut text = vec![0; TEXT];
    check(names.text(number, &mut text))?;
    Ok(text)
}

impl journal::Names for Names {
    fn generation(&self) -> u64 {
        self.generation
    }

    fn text(&self, number: u64) -> Bytes {
        let text = usize::try_from(number).ok().and_then(|number| self.named().texts.get(number));
        text.unwrap_or_else(|| self.unkept_text(number)).into()
    }
}
