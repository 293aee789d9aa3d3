//! The numbers of series for posts: `otlp` finds a series by its bytes in a protobuf body, the library by its number.
//! `request` and the ingest task use them. A request in the book's form gets numbers too if its points are needed one by
//! one.
//!
//! Both tables together are bounded. When they are full, numbers begin anew after a while, and until then a request
//! with a new series is read as text; so series that come and go cost no more than that. Posts in flight keep the
//! numbers that they have.

use super::Shard;
use crate::book::{memory_used, Names, Read, Refused, SharedBook};
use crate::journal::Points;
use crate::otlp::{prepare, Encoding, Learnt, NotNamed, Numbered, Reading, Rounded, Series};
use crate::work::Readers;
use bytes::Bytes;
use std::sync::{Arc, PoisonError, RwLock};
use std::time::{Duration, Instant};

/// The bounds of one generation of numbers.
#[derive(Clone, Copy)]
struct Limits {
    /// The memory for a series, on average, not counting the library's.
    bytes: u64,
    /// How long a generation is kept at least.
    kept: Duration,
}

const LIMITS: Limits = Limits { bytes: 1 << 10, kept: Duration::from_secs(60) };
/// All series use at most this fraction of the book's memory; the library uses about as much for them.
const PART_OF_ALL: u64 = 8;
/// The bound for the numbers of a single post: each of its series repeats the attributes that its points share, some
/// kilobytes for a point of a few bytes.
const MOST_OF_ONE: usize = 256 << 20;

/// A request as it goes to the book. Large parts are boxed, because each future on the way of a post contains it.
pub enum Request {
    /// Text in the book's form.
    Text(Bytes),
    /// Points of a protobuf body, or of a text that was read by number.
    Numbered(Box<ByNumber>),
}

/// Points by number, and the names of these numbers.
pub struct ByNumber {
    pub points: Points,
    /// The indexes of the cumulative points, ascending.
    pub cumulative: Vec<u32>,
    /// How many points are missing because they are outside the profile.
    pub foreign: u64,
    pub rounded: Rounded,
    pub names: Arc<Names>,
    pub source: Source,
}

/// The body of a request, for reading it once more.
#[derive(Clone)]
pub enum Source {
    Text(Bytes),
    /// With the settings by which it is read.
    Protobuf(Bytes, Arc<Reading>),
}

/// The numbers since one beginning.
struct Generation {
    series: Series,
    names: Arc<Names>,
    began: Instant,
}

/// The current generation of numbers, shared by all shards of a process.
pub(super) struct Numbers {
    /// None until the first request comes, or if there is no memory for them.
    now: RwLock<Option<Arc<Generation>>>,
    limits: Limits,
    /// The bound for the numbers of a single post.
    most_of_one: usize,
}

impl From<Bytes> for Request {
    fn from(text: Bytes) -> Request {
        Request::Text(text)
    }
}

impl From<ByNumber> for Request {
    fn from(by: ByNumber) -> Request {
        Request::Numbered(Box::new(by))
    }
}

impl Request {
    pub fn source(&self) -> Source {
        match self {
            Request::Text(text) => Source::Text(text.clone()),
            Request::Numbered(points) => points.source.clone(),
        }
    }

    /// The length of the request as it came.
    pub fn length(&self) -> usize {
        match self {
            Request::Text(text) => text.len(),
            Request::Numbered(points) => points.source.length(),
        }
    }

    /// The memory that it occupies.
    pub fn bytes(&self) -> usize {
        match self {
            Request::Text(text) => text.len(),
            Request::Numbered(points) => points.bytes(),
        }
    }

    /// What was rounded of it, for the answer.
    pub fn take_rounded(&mut self) -> Rounded {
        match self {
            Request::Text(_) => Rounded::default(), // whoever wrote the text has it
            Request::Numbered(points) => std::mem::take(&mut points.rounded),
        }
    }

    /// Whether reading it takes so little that the serving thread does it.
    pub(super) fn is_short(&self) -> bool {
        self.bytes() <= Readers::SHORT
    }
}

impl ByNumber {
    /// Keeps only the points for which `is_kept(index, words)` is true.
    pub fn keep(&mut self, mut is_kept: impl FnMut(u32, &[u64]) -> bool) {
        let kept: Vec<bool> =
            (0..).zip(self.points.each()).map(|(place, point)| is_kept(place, point)).collect();
        if kept.iter().all(|is_kept| *is_kept) {
            return;
        }
        let before = std::mem::take(&mut self.points);
        let mut cumulative = std::mem::take(&mut self.cumulative).into_iter().peekable();
        for ((place, point), is_kept) in (0..).zip(before.each()).zip(kept) {
            let is_cumulative = cumulative.next_if_eq(&place).is_some();
            if is_kept {
                if is_cumulative {
                    self.cumulative.push(self.points.count() as u32);
                }
                self.points.push_words(point[0], &point[1..]);
            }
        }
    }

    /// Removes the cumulative points and counts them as foreign, for readers that don't convert them.
    pub(super) fn without_cumulative(mut self) -> ByNumber {
        let cumulative = std::mem::take(&mut self.cumulative);
        self.keep(|place, _| cumulative.binary_search(&place).is_err());
        self.foreign += cumulative.len() as u64;
        self
    }

    pub(super) fn bytes(&self) -> usize {
        let words = self.points.words().len() + self.points.count();
        2 * size_of::<u64>() * words + self.source.length() // a growing list has up to twice its length
    }
}

impl Source {
    /// The length of the request as it came.
    pub fn length(&self) -> usize {
        match self {
            Source::Text(body) | Source::Protobuf(body, _) => body.len(),
        }
    }

    /// The request in the book's form.
    pub fn text(self) -> Option<Bytes> {
        match self {
            Source::Text(text) => Some(text),
            Source::Protobuf(body, reading) => {
                let prepared = prepare(Encoding::Protobuf, body, &reading);
                prepared.ok().map(|prepared| prepared.body)
            }
        }
    }
}

impl Generation {
    fn new(shared_book: &SharedBook, limits: Limits) -> Result<Generation, Refused> {
        let most = shared_book.max_series() as u64 * limits.bytes;
        let most = most.min(memory_used().1 / PART_OF_ALL);
        Ok(Generation::with_room(most as usize, Names::new()?))
    }

    fn with_room(most: usize, names: Arc<Names>) -> Generation {
        Generation { series: Series::new(most), names, began: Instant::now() }
    }

    fn is_full(&self) -> bool {
        self.series.is_full() || self.names.are_closed()
    }

    /// Why a series got no number in the generation of a single post.
    fn refused(&self) -> Refused {
        match self.series.is_full() {
            true => Refused::LongSeries,
            false => Refused::NoMemory,
        }
    }

    fn is_over(&self, limits: Limits) -> bool {
        self.is_full() && self.began.elapsed() >= limits.kept
    }

    fn number(&self, read: &mut Read) -> bool {
        !self.is_full() && read.number(&self.names, |text| self.series.take_room(text))
    }

    fn read(&self, body: &[u8], reading: &Reading) -> Option<Numbered> {
        self.series.read(body, reading, |request| self.learnt(request))
    }

    fn read_text(&self, text: &[u8]) -> Result<Option<Numbered>, NotNamed> {
        self.series.read_text(text, |request| self.learnt(request))
    }

    fn learnt(&self, request: Bytes) -> Option<Learnt> {
        match self.names.learn(request) {
            Ok(number) => Some(Learnt::Number(number)),
            Err(Refused::NotOne) => Some(Learnt::Foreign),
            Err(_) => None,
        }
    }

    fn by_number(&self, numbered: Numbered, source: Source) -> ByNumber {
        let Numbered { points, foreign, rounded, cumulative } = numbered;
        ByNumber { points, cumulative, foreign, rounded, names: self.names.clone(), source }
    }
}

impl Default for Numbers {
    fn default() -> Numbers {
        Numbers { now: RwLock::default(), limits: LIMITS, most_of_one: MOST_OF_ONE }
    }
}

impl Numbers {
    fn now(&self, shared_book: &SharedBook) -> Option<Arc<Generation>> {
        let now = self.now.read().unwrap_or_else(PoisonError::into_inner).clone();
        match now {
            Some(now) if !now.is_over(self.limits) => Some(now),
            _ => self.begin(shared_book),
        }
    }

    /// Begins new numbers, unless another thread has just done so.
    fn begin(&self, shared_book: &SharedBook) -> Option<Arc<Generation>> {
        let mut now = self.now.write().unwrap_or_else(PoisonError::into_inner);
        if let Some(other) = now.as_ref().filter(|other| !other.is_over(self.limits)) {
            return Some(other.clone());
        }
        let fresh = Generation::new(shared_book, self.limits).ok().map(Arc::new);
        let before = std::mem::replace(&mut *now, fresh.clone());
        drop(now);
        drop(before); // without the lock, since freeing takes long
        fresh
    }
}

impl Numbers {
    /// The points of a protobuf request; none if it has to be read in another way.
    fn read(&self, shared_book: &SharedBook, body: &Bytes, reading: &Arc<Reading>) -> Option<ByNumber> {
        let now = self.now(shared_book)?;
        let source = Source::Protobuf(body.clone(), reading.clone());
        Some(now.by_number(now.read(body, reading)?, source))
    }

    /// The points of a request once more, in their order.
    pub fn read_again(&self, shared_book: &SharedBook, source: &Source) -> Option<ByNumber> {
        match source {
            Source::Text(text) => self.read_text(shared_book, text).ok()?,
            Source::Protobuf(body, reading) => self.read(shared_book, body, reading),
        }
    }

    /// Gives numbers to the points of a text that was read. If there is no room for numbers it stays text, except a
    /// post of several windows, which gets numbers of its own.
    pub fn number(&self, shared_book: &SharedBook, read: &mut Read) -> Result<(), Refused> {
        if self.now(shared_book).is_some_and(|now| now.number(read)) || !read.is_of_several() {
            return Ok(());
        }
        let own = Generation::with_room(self.most_of_one, Names::of_one_post()?);
        match own.number(read) {
            true => Ok(()),
            false => Err(own.refused()),
        }
    }

    /// The points of a request in the book's form, cumulative ones included; none if the book refuses the whole
    /// request.
    pub fn read_text(&self, shared_book: &SharedBook, text: &Bytes) -> Result<Option<ByNumber>, Refused> {
        let source = || Source::Text(text.clone());
        if let Some(now) = self.now(shared_book) {
            if let Ok(read) = now.read_text(text) {
                return Ok(read.map(|numbered| now.by_number(numbered, source())));
            }
        }
        // Numbers for this request alone, since there is no room for more.
        let own = Generation::with_room(self.most_of_one, Names::of_one_post()?);
        let read = own.read_text(text).map_err(|NotNamed| own.refused())?;
        Ok(read.map(|numbered| own.by_number(numbered, source())))
    }
}

impl Shard {
    /// The points of a protobuf request by number; none if it has to be read in another way, which says nothing about
    /// its validity.
    pub fn numbered(&self, body: &Bytes, reading: &Arc<Reading>) -> Option<ByNumber> {
        self.numbers.read(&self.shared_book, body, reading)
    }

    /// The points of a request in the book's form, cumulative ones included; none if the book refuses the whole
    /// request.
    pub fn numbered_text(&self, text: &Bytes) -> Result<Option<ByNumber>, Refused> {
        self.numbers.read_text(&self.shared_book, text)
    }
}

#[cfg(test)]
mod tests;
