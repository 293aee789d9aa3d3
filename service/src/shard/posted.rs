//! Parses a request for the book. Points that are off the clock are left out. A post with points of several windows is
//! read by number, so that each window goes into the book by itself. `request` and `cumulative` call it.

use super::numbers::{ByNumber, Numbers, Request, Source};
use crate::book::{Read, Refused, SharedBook};
use crate::late::Refusals;
use crate::otlp::{OffClock, Window};
use bytes::Bytes;
use std::mem::take;
use std::sync::Arc;

/// The most windows of a post: each takes a request to the sink while other posts wait.
const MOST_PARTS: usize = 1000;

/// A parsed request, and which of its points the book is not given.
pub struct Posted {
    pub read: Read,
    pub left_out: LeftOut,
    /// The body, if it may have to be read again.
    pub source: Option<Source>,
    /// The points that their series refused at the last try.
    pub late: Option<Refusals>,
}

/// Points that are off the clock, or were left out later.
#[derive(Default)]
pub struct LeftOut {
    /// How many are off the clock, and how far.
    pub off: OffClock,
    /// Their indexes among all points of the profile, ascending.
    places: Vec<u64>,
}

impl Posted {
    /// A post of which nothing is left out.
    pub fn whole(read: Read) -> Posted {
        Posted { read, left_out: LeftOut::default(), source: None, late: None }
    }
}

impl LeftOut {
    /// Removes the points that are off the clock.
    pub fn of(by: &mut ByNumber, window: &Window) -> LeftOut {
        let mut left_out = LeftOut::default();
        by.keep(|place, point| match window.off(point[2]) {
            None => true,
            Some(found) => {
                left_out.off.count(found);
                left_out.places.push(u64::from(place));
                false
            }
        });
        left_out
    }

    /// Records that the points with these indexes among the remaining ones are removed as well.
    pub fn add(&mut self, places: impl Iterator<Item = u64>) {
        let all: Vec<u64> = places.map(|place| self.place_of(place)).collect();
        self.places.extend(all);
        self.places.sort_unstable();
    }

    /// The index among all points of the point that has this index among the remaining ones.
    pub fn place_of(&self, point: u64) -> u64 {
        let (mut out, mut end) = (0, self.places.len());
        while out < end {
            let middle = (out + end) / 2;
            match self.places[middle] - middle as u64 <= point {
                true => out = middle + 1,
                false => end = middle,
            }
        }
        point + out as u64
    }
}

/// Parses requests for a book.
pub struct RequestReader<'a> {
    pub shared_book: &'a Arc<SharedBook>,
    pub numbers: &'a Numbers,
    /// The bounds by one reading of the clock.
    pub window: Window,
}

impl RequestReader<'_> {
    /// Parses a request in either form.
    pub fn read(&self, sender: String, request: Request) -> Result<Posted, Refused> {
        match request {
            Request::Text(body) => self.read_text(sender, body),
            Request::Numbered(by) => self.read_numbered(sender, *by),
        }
    }

    /// The journal must have no point by number that the book does not take, since its records also say who owns a
    /// series. If the library finds such a point, the request is read as text.
    fn read_numbered(&self, sender: String, by: ByNumber) -> Result<Posted, Refused> {
        let (foreign, source) = (by.foreign, by.source.clone());
        let mut posted = self.read_points(sender, by)?;
        if posted.read.post.foreign == foreign {
            return fits(&posted.read).map(|()| posted);
        }
        let text = source.text().ok_or(Refused::NotJson)?; // it could be parsed when its points got numbers
        self.read_text(take(&mut posted.read.post.sender), text)
    }

    /// Reads the same request by number in the order of its body; none if the result would be another one.
    pub fn read_in_order(&self, sender: String, source: &Source) -> Option<Posted> {
        let by = self.numbers.read_again(self.shared_book, source)?.without_cumulative();
        let foreign = by.foreign;
        let posted = self.read_points(sender, by).ok()?;
        (posted.read.post.foreign == foreign).then_some(posted)
    }

    fn read_text(&self, sender: String, body: Bytes) -> Result<Posted, Refused> {
        let mut posted = Posted::whole(self.shared_book.read(sender, body.clone())?);
        let read = &mut posted.read;
        if read.ends().is_none_or(|(first, last)| self.window.has_all(first, last)) {
            self.numbers.number(self.shared_book, read)?;
        } else {
            let by = self.numbers.read_text(self.shared_book, &body)?.ok_or(Refused::WrongShape)?; // the library reads no other
            posted = self.read_points(take(&mut read.post.sender), by.without_cumulative())?;
        }
        fits(&posted.read)?;
        Ok(posted)
    }

    fn read_points(&self, sender: String, mut by: ByNumber) -> Result<Posted, Refused> {
        let left_out = LeftOut::of(&mut by, &self.window);
        let read = self.shared_book.read_points(sender, by.points, by.names, by.foreign)?;
        Ok(Posted { read, left_out, source: None, late: None })
    }
}

/// Checks that a post has not too many windows.
pub fn fits(read: &Read) -> Result<(), Refused> {
    match read.parts() {
        0..=MOST_PARTS => Ok(()),
        parts => Err(Refused::TooManyHours { parts, most: MOST_PARTS }),
    }
}
