//! Reads the posts of the journal in order: for a replay, for the units that it has seen (`otlp/finer_units`), and for
//! commands.

use super::record::{Posts, Wanted};
use super::{locked, parked, Journal, Replayed, Shared, HELD};
use crate::storage::records::{self, Next, Reader, Which};
use crate::storage::{segment, Fault};

/// Called with each post and when it was appended; returns whether to go on.
pub(super) type Each<'e> = dyn FnMut(u64, Replayed) -> Result<bool, Fault> + 'e;

impl Journal {
    /// Passes the posts of the segments from `first` to before `end` to `each` until it returns false. Posts parked in
    /// quarantined senders' files come first, if the segment `first` is there and lists them.
    pub fn posts(&self, first: u64, end: u64, each: impl FnMut(Replayed) -> bool) -> Result<(), Fault> {
        self.read(first, end, Wanted::All, each)
    }

    /// The same without points, for callers that need only requests: those that are posts, and those that define
    /// series.
    pub fn requests(&self, first: u64, end: u64, each: impl FnMut(Replayed) -> bool) -> Result<(), Fault> {
        self.read(first, end, Wanted::Requests, each)
    }

    fn read(
        &self,
        first: u64,
        end: u64,
        wanted: Wanted,
        mut each: impl FnMut(Replayed) -> bool,
    ) -> Result<(), Fault> {
        let shared = &*self.shared;
        let mut each = |_: u64, post: Replayed| Ok(each(post));
        // Before the segments: these files define numbers otherwise than the segments do.
        let list = locked(&shared.held).get(&first).filter(|_| first < end).cloned();
        match shared.held_posts(&list.unwrap_or_default(), &mut each)? {
            true => shared.posts(first, end, wanted, &mut each),
            false => Ok(()),
        }
    }
}

impl Shared {
    /// Only the posts in the segments.
    pub(super) fn posts(&self, first: u64, end: u64, wanted: Wanted, each: &mut Each) -> Result<(), Fault> {
        let (last, at) = self.written(|place| (place.segment.number, place.segment.at))?;
        for number in segment::numbers(&self.disk, &self.folder)? {
            if !(first..end).contains(&number) || number > last {
                continue;
            }
            let written = (number == last).then_some(at);
            if !self.posts_of(number, written, Posts::new(wanted), each)? {
                break;
            }
        }
        Ok(())
    }

    /// Returns whether `each` wants more. Only the segment that is being written may lack an end record.
    fn posts_of(
        &self,
        number: u64,
        written: Option<u64>,
        mut posts: Posts,
        each: &mut Each,
    ) -> Result<bool, Fault> {
        let path = segment::path(&self.folder, number);
        let (mut reader, mut next) = Reader::open(&self.disk, &path, Which::Journal, number, written)?;
        loop {
            match next {
                Next::Record { kind: records::HEADER, .. } => {}
                Next::Record { at, kind: HELD, bytes } => {
                    parked::list_of(&bytes).ok_or_else(|| reader.damaged(at, parked::NO_LIST))?;
                }
                Next::Record { at, kind, bytes } => {
                    let read = posts.read(kind, bytes);
                    let read = read.map_err(|what| reader.damaged(at, what))?;
                    if let Some((since, post)) = read {
                        if !each(since, post)? {
                            return Ok(false);
                        }
                    }
                }
                Next::Closed => return Ok(true),
                Next::Stop if Some(reader.at) == written => return Ok(true),
                Next::Stop => return Err(reader.damaged(reader.at, crate::storage::torn_tail::CHANGED)),
            }
            next = reader.next()?;
        }
    }
}
