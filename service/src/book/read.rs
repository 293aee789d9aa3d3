//! A post that was parsed and is in no book yet. `shard` makes it before it takes the lock of the book.

use super::library::Reader;
use super::readers::{keep, reader};
use super::recent::series_apart;
use super::refusal::{check, Refused};
use super::{FlushWindow, Names, SharedBook};
use crate::journal;
use crate::journal::{Body, NoNames, Points, Post};
use crate::otlp::series::Digest;
use bytes::Bytes;
use std::collections::HashSet;
use std::sync::{Arc, OnceLock};

/// The body that a post was parsed from; it may have its points in another order than the points by number.
enum Source {
    Json(Bytes),
    Protobuf(Bytes),
}

/// A post that was parsed or is to be parsed. Its reader goes back to the pool when this is dropped.
pub struct Read {
    books: usize,
    window: FlushWindow,
    /// None until it is parsed.
    pub(super) reader: Option<Reader>,
    /// None if the post came as points by number.
    source: Option<Source>,
    pub post: Post,
    /// The names of its numbers, if it has any.
    names: Option<Arc<Names>>,
    pub(super) points: u64,
    /// How many points the library does not get because they are outside the profile.
    left_out: u64,
    /// The earliest and the latest end of its points; none if it has no points.
    ends: Option<(u64, u64)>,
    /// Its points by number, split by window if they lie in several.
    pub(super) windows: Vec<Points>,
    pub(super) is_of_known_series: bool,
    /// Cached by `series_apart()`.
    series_apart: OnceLock<Option<HashSet<Digest>>>,
}

impl Read {
    pub(super) fn unread(books: usize, window: FlushWindow, post: Post, names: Option<Arc<Names>>) -> Read {
        let source = match &post.body {
            Body::Text(text) => Some(Source::Json(text.clone())),
            Body::Points(_) => None,
        };
        let (left_out, ends, windows) = (post.foreign, None, Vec::new());
        let (reader, points, is_of_known_series) = (None, 0, false);
        Read {
            reader,
            source,
            books,
            window,
            post,
            names,
            points,
            left_out,
            ends,
            windows,
            is_of_known_series,
            series_apart: OnceLock::new(),
        }
    }

    /// Parses a protobuf body directly; tests compare this with reading it by number. The points get no numbers.
    pub fn of_body(shared_book: &SharedBook, sender: String, body: Bytes) -> Result<Read, Refused> {
        let post = Post { sender, foreign: 0, body: Body::Points(Points::default()) };
        let mut read = shared_book.unread(post, None);
        read.source = Some(Source::Protobuf(body));
        read.read()
    }

    /// Another post, not yet parsed, with the same names.
    pub fn beside(&self, post: Post) -> Read {
        Read::unread(self.books, self.window, post, self.names.clone())
    }

    pub fn read(mut self) -> Result<Read, Refused> {
        self.parse()?;
        Ok(self)
    }

    /// Parses the post, again if a book was asked to take it meanwhile.
    pub fn parse(&mut self) -> Result<(), Refused> {
        let ends = check(self.again()?.ends()).ok();
        self.ends = ends.map(|ends| (ends.number, ends.at));
        self.split();
        Ok(())
    }

    /// Parses a post whose series are all in the book: it may use the memory kept back for such posts.
    pub fn parse_with_known_series(&mut self) -> Result<(), Refused> {
        self.is_of_known_series = true;
        self.parse()
    }

    /// Gives numbers to the points of a body, so that the journal can keep them by number; those of a series keep their
    /// order. `has_room` reserves room for the request of each new series. If one can't be named, returns false and
    /// leaves the post as it was.
    pub fn number(&mut self, names: &Arc<Names>, has_room: impl Fn(usize) -> bool) -> bool {
        let reader = self.reader.as_mut();
        let Some(points) = reader.and_then(|reader| names.number(reader, self.points as usize, has_room))
        else {
            return false;
        };
        self.post.body = Body::Points(points);
        self.names = Some(names.clone());
        self.series_apart = OnceLock::new();
        self.split();
        true
    }

    /// Gives numbers to its series too, as far as there is memory; its points stay as they are.
    pub fn note(&mut self, names: &Names) {
        if let Some(reader) = &mut self.reader {
            names.note(reader, self.points as usize);
        }
    }

    fn split(&mut self) {
        if let (Body::Points(points), true) = (&self.post.body, self.is_of_several()) {
            self.windows = self.window.split(points);
        }
    }

    /// Parses the post into its reader. The reader loses the post when a book is asked to take it, whatever the answer.
    pub(super) fn again(&mut self) -> Result<&mut Reader, Refused> {
        let reader = match &mut self.reader {
            Some(reader) => reader,
            none => none.insert(reader().ok_or(Refused::NoMemory)?),
        };
        let (sender, books) = (self.post.sender.as_bytes(), self.books);
        let answer = match (&self.source, &self.post.body, &self.names) {
            (Some(Source::Json(text)), ..) => reader.read(sender, text, books),
            (Some(Source::Protobuf(body)), ..) => reader.read_protobuf(sender, body, books),
            (None, Body::Points(points), Some(names)) => names.put(reader, sender, points.words(), books),
            _ => return Err(Refused::NoSuch),
        };
        let read = check(answer)?;
        self.points = read.number;
        self.post.foreign = self.left_out + read.at;
        Ok(reader)
    }

    /// Gives the reader a part of the points.
    pub(super) fn put(&mut self, part: &Points) -> Result<&mut Reader, Refused> {
        let reader = self.reader.as_mut().ok_or(Refused::NoMemory)?;
        let names = self.names.as_ref().ok_or(Refused::NoSuch)?;
        check(names.put(reader, self.post.sender.as_bytes(), part.words(), self.books))?;
        Ok(reader)
    }

    /// The earliest and the latest end of its points, in nanoseconds since 1970; none if it has no points.
    pub fn ends(&self) -> Option<(u64, u64)> {
        self.ends
    }

    /// The first and the last window of its points.
    pub(super) fn first_and_last(&self) -> Option<(u64, u64)> {
        let window = self.window;
        self.ends.map(|(first, last)| (window.stretch(first), window.stretch(last)))
    }

    /// Whether its points lie in several windows: then it goes into the book by number.
    pub fn is_of_several(&self) -> bool {
        self.first_and_last().is_some_and(|(first, last)| first < last)
    }

    /// How many parts of it go into the books.
    pub fn parts(&self) -> usize {
        self.windows.len().max(1)
    }

    /// The names of its numbers, if it has any.
    pub fn named(&self) -> Option<&Arc<Names>> {
        self.names.as_ref()
    }

    /// Resolves its numbers.
    pub fn names(&self) -> &dyn journal::Names {
        match &self.names {
            Some(names) => &**names,
            None => &NoNames,
        }
    }

    /// Whether it was parsed from a body: then its points by number may be in another order.
    pub fn is_of_body(&self) -> bool {
        self.source.is_some()
    }

    /// Keeps only these of its points, by number, and parses it again.
    pub fn keep(&mut self, points: Points) -> Result<(), Refused> {
        self.source = None;
        self.post.body = Body::Points(points);
        self.series_apart = OnceLock::new();
        self.windows.clear();
        self.parse()
    }

    /// The series that have no lasting numbers, if there are such. They are computed once, by parsing the post, so the
    /// caller should ask before it takes the lock of the book.
    pub fn series_apart(&self) -> Option<&HashSet<Digest>> {
        self.series_apart.get_or_init(|| series_apart(&self.post, self.names.as_ref())).as_ref()
    }

    /// How many points of the profile it has.
    pub fn points(&self) -> u64 {
        self.points
    }

    /// The most bytes that it may take in the journal. Points are packed here, before the lock is taken.
    pub fn bytes(&self) -> usize {
        let named = self.names.as_ref().map(|names| names.length(self.post.numbers()));
        self.post.body.bytes() as usize + named.unwrap_or(0)
    }
}

impl Drop for Read {
    fn drop(&mut self) {
        if let Some(reader) = self.reader.take() {
            keep(reader);
        }
    }
}
