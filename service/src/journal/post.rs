//! A post as the journal has it: a JSON text, or points by series number. `shard` makes it, and a replay gets the same
//! post back.

use super::packed;
use bytes::Bytes;
use serde::Serialize;
use std::sync::OnceLock;

/// A post that the book took.
#[derive(Clone, Debug, PartialEq, Eq)]
pub struct Post {
    pub sender: String,
    /// How many of its points the book rejected.
    pub foreign: u64,
    /// The body as the book got it.
    pub body: Body,
}

#[derive(Clone, Debug, PartialEq, Eq)]
pub enum Body {
    /// JSON.
    Text(Bytes),
    Points(Points),
}

impl Body {
    /// The bytes that it takes in the journal.
    pub fn bytes(&self) -> u64 {
        match self {
            Body::Text(body) => body.len() as u64,
            Body::Points(points) => points.packed().len() as u64,
        }
    }
}

impl Post {
    /// The numbers of its points' series.
    pub fn numbers(&self) -> impl Iterator<Item = u64> + '_ {
        let points = match &self.body {
            Body::Text(_) => None,
            Body::Points(points) => Some(points),
        };
        points.into_iter().flat_map(Points::numbers)
    }
}

/// Points by number, in the library's layout: for each point the number of its series, its start and end (nanoseconds
/// since 1970), and its values.
#[derive(Clone, Debug, Default)]
pub struct Points {
    words: Vec<u64>,
    /// Where each point ends in `words`.
    ends: Vec<usize>,
    /// For the points that were converted from cumulative ones, by ascending index.
    runs: Vec<(u32, OfRun)>,
    packed: OnceLock<Vec<u8>>,
}

/// What a converted point says of its run, in addition to what it adds.
#[derive(Clone, Debug, PartialEq, Eq, Serialize)]
#[serde(rename_all = "snake_case")]
pub enum OfRun {
    /// The run goes on.
    More,
    /// The run began at this time, and the point has all of it.
    Began(u64),
    /// The run began at `start` and has reached these values, and the point counts none of them.
    Noted { start: u64, words: Vec<u64> },
}

/// The words of a point before its values: number, start, end.
const HEAD: usize = 3;

/// Defines series numbers.
pub trait Names {
    /// Changes when numbers start anew, since the same number may then mean another series.
    fn generation(&self) -> u64;

    /// A JSON request of one point of the number's series.
    fn text(&self, number: u64) -> Bytes;
}

/// A post read from the journal. Its numbers are those of the file, not the reader's.
#[derive(Clone, Debug, PartialEq, Eq)]
pub struct Replayed {
    pub post: Post,
    /// Definitions between the previous post and this one, each a JSON request of one point. Other numbers keep the
    /// meaning that was defined last.
    pub named: Vec<(u64, Bytes)>,
}

impl Points {
    /// From words, and where each point ends in them; none if these are no points.
    pub fn new(words: Vec<u64>, ends: Vec<usize>) -> Option<Points> {
        let mut begin = 0;
        let is_point = |end: &usize| *end >= std::mem::replace(&mut begin, *end) + HEAD;
        let are_points = ends.iter().all(is_point) && begin == words.len();
        are_points.then_some(Points { words, ends, ..Points::default() })
    }

    /// No points, with room for that many even if each of them is a converted one.
    pub fn with_room(words: usize, points: usize) -> Points {
        Points { runs: Vec::with_capacity(points), ..Points::with_words(words, points) }
    }

    /// No points, with room for that many that are not converted.
    pub(super) fn with_words(words: usize, points: usize) -> Points {
        Points { words: Vec::with_capacity(words), ends: Vec::with_capacity(points), ..Points::default() }
    }

    /// Appends a point. `says` has a sum's value, or a histogram's count, whether it has a sum, the sum, and its
    /// buckets.
    pub fn push(&mut self, number: u64, start: u64, end: u64, says: impl IntoIterator<Item = u64>) {
        self.words.extend([number, start, end]);
        self.words.extend(says);
        self.ends.push(self.words.len());
        self.packed.take();
    }

    /// Appends a point whose words after the number are given.
    pub fn push_words(&mut self, number: u64, words: &[u64]) {
        self.push(number, words[0], words[1], words[2..].iter().copied());
    }

    /// Appends all points of `more`.
    pub fn append(&mut self, more: &Points) {
        let (words, count) = (self.words.len(), self.count() as u32);
        self.words.extend_from_slice(&more.words);
        self.ends.extend(more.ends.iter().map(|end| words + end));
        self.runs.extend(more.runs.iter().map(|(place, of_run)| (count + place, of_run.clone())));
        self.packed.take();
    }

    /// Gives the points other numbers, in order.
    pub fn renumber(&mut self, numbers: &[u64]) {
        let mut begin = 0;
        for (end, number) in self.ends.iter().zip(numbers) {
            self.words[begin] = *number;
            begin = *end;
        }
        self.packed.take();
    }

    /// Says what the run of a converted point is. Indexes must be ascending.
    pub fn put_run(&mut self, place: u32, of_run: OfRun) {
        self.runs.push((place, of_run));
        self.packed.take();
    }

    /// The indexes of the converted points, and what their runs are.
    pub fn runs(&self) -> &[(u32, OfRun)] {
        &self.runs
    }

    /// `runs`, with the words of each point.
    pub fn with_runs(&self) -> impl Iterator<Item = (&(u32, OfRun), &[u64])> {
        self.runs.iter().filter_map(|run| Some((run, self.point(run.0)?)))
    }

    /// The points whose numbers are wanted, in order, with their runs.
    pub fn of_numbers(&self, is_wanted: impl Fn(u64) -> bool) -> Points {
        let (mut part, mut runs) = (Points::default(), self.runs.iter().peekable());
        for (place, point) in (0..).zip(self.each()) {
            let run = runs.next_if(|(of, _)| *of == place);
            if is_wanted(point[0]) {
                if let Some((_, run)) = run {
                    part.put_run(part.count() as u32, run.clone());
                }
                part.push_words(point[0], &point[1..]);
            }
        }
        part
    }

    /// The points whose indexes are wanted, in order, without their runs.
    pub fn of_places(&self, is_wanted: impl Fn(usize) -> bool) -> Points {
        let mut part = Points::with_words(self.words.len(), self.count());
        for (place, point) in self.each().enumerate() {
            if is_wanted(place) {
                part.push_words(point[0], &point[1..]);
            }
        }
        part
    }

    /// The words of one point.
    pub fn point(&self, place: u32) -> Option<&[u64]> {
        let place = place as usize;
        let end = *self.ends.get(place)?;
        let begin = place.checked_sub(1).map_or(0, |before| self.ends[before]);
        Some(&self.words[begin..end])
    }

    /// All words, as the library takes them.
    pub fn words(&self) -> &[u64] {
        &self.words
    }

    /// The bytes for the journal. Computed once: call it before taking a lock, so that others do not wait for it.
    pub fn packed(&self) -> &[u8] {
        self.packed.get_or_init(|| packed::of(self))
    }

    pub fn count(&self) -> usize {
        self.ends.len()
    }

    /// The series number of each point.
    pub fn numbers(&self) -> impl Iterator<Item = u64> + '_ {
        self.each().map(|point| point[0])
    }

    /// The words of each point: number, start, end, values.
    pub fn each(&self) -> impl Iterator<Item = &[u64]> {
        let begins = std::iter::once(&0).chain(&self.ends);
        begins.zip(&self.ends).map(|(begin, end)| &self.words[*begin..*end])
    }
}

impl PartialEq for Points {
    fn eq(&self, other: &Points) -> bool {
        (&self.words, &self.ends, &self.runs) == (&other.words, &other.ends, &other.runs)
    }
}

impl Eq for Points {}

/// For posts that are JSON texts, which have no numbers.
pub struct NoNames;

impl Names for NoNames {
    fn generation(&self) -> u64 {
        0
    }

    fn text(&self, _: u64) -> Bytes {
        Bytes::new()
    }
}
