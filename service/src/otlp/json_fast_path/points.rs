//! Points, attributes and lists of numbers as nearly all senders write them: without blanks and in the order of one of the
//! two kinds of encoders. They are looked at by their words.

use super::super::output::SHORT_LIST;
use super::super::schema::{Message, KEY_VALUE};
use super::{Look, DIGITS, DIGITS_OF_DOUBLE};

impl Look<'_> {
    /// An attribute list. A long one is looked at in full.
    pub(super) fn attributes(&mut self, depth: usize) -> Option<()> {
        let before = self.rest.len();
        let mut places = 0..;
        self.list(|look| look.attribute(places.next()?, depth))?;
        (before - self.rest.len() <= SHORT_LIST).then_some(())
    }

    /// Most points have most attributes as the point before has them.
    #[inline(always)]
    fn attribute(&mut self, place: usize, depth: usize) -> Option<()> {
        let last = self.last.get(place).copied().unwrap_or_default();
        match self.rest.strip_prefix(last) {
            Some(behind) if !last.is_empty() => {
                self.rest = behind;
                Some(())
            }
            _ => self.other_attribute(place, depth),
        }
    }

    /// Where it is a text or a whole number, by its words.
    #[inline(never)]
    fn other_attribute(&mut self, place: usize, depth: usize) -> Option<()> {
        let begin = self.rest;
        if self.plain_attribute().is_none() {
            self.rest = begin;
            return self.message(&KEY_VALUE, depth);
        }
        if let Some(last) = self.last.get_mut(place) {
            *last = &begin[..begin.len() - self.rest.len()];
        }
        Some(())
    }

    fn plain_attribute(&mut self) -> Option<()> {
        self.word(b"{\"key\":\"")?;
        self.inside();
        if self.word(b"\",\"value\":{\"stringValue\":\"").is_some() {
            self.inside();
            return self.word(b"\"}}");
        }
        self.word(b"\",\"value\":{\"intValue\":")?;
        self.whole()?;
        self.word(b"}}")
    }

    /// A point; by its words where `plain` knows it.
    #[inline(always)]
    pub(super) fn point(
        &mut self,
        of: &'static Message,
        depth: usize,
        plain: impl Fn(&mut Self, usize) -> Option<()>,
    ) -> Option<()> {
        let begin = self.rest;
        if plain(self, depth).is_none() {
            self.rest = begin;
            return self.message(of, depth);
        }
        Some(())
    }

    #[inline(always)]
    pub(super) fn point_of_sum(&mut self, depth: usize) -> Option<()> {
        let has_attributes = self.begin_of_point(depth)?;
        self.word(b"\",\"asInt\":")?;
        self.whole()?;
        self.attributes_at_end(has_attributes, depth)?;
        self.word(b"}")
    }

    pub(super) fn point_of_histogram(&mut self, depth: usize) -> Option<()> {
        let has_attributes = self.begin_of_point(depth)?;
        self.word(b"\",\"count\":")?;
        self.whole()?;
        if self.word(b",\"sum\":").is_some() {
            self.number(DIGITS_OF_DOUBLE)?;
        }
        self.word(b",\"bucketCounts\":")?;
        self.wholes()?;
        self.word(b",\"explicitBounds\":")?;
        self.bounds()?;
        self.attributes_at_end(has_attributes, depth)?;
        for name in [b",\"min\":", b",\"max\":"] {
            if self.word(name).is_some() {
                self.scalar()?;
            }
        }
        self.word(b"}")
    }

    /// Passes the times up to the last quote, and the attributes if they are before them, which it says.
    #[inline(always)]
    fn begin_of_point(&mut self, depth: usize) -> Option<bool> {
        self.word(b"{")?;
        let has_attributes = self.word(b"\"attributes\":").is_some();
        if has_attributes {
            self.attributes(depth + 1)?;
            self.word(b",")?;
        }
        self.word(b"\"startTimeUnixNano\":\"")?;
        self.time()?;
        self.word(b"\",\"timeUnixNano\":\"")?;
        self.time()?;
        Some(has_attributes)
    }

    #[inline(always)]
    fn attributes_at_end(&mut self, has_attributes: bool, depth: usize) -> Option<()> {
        match !has_attributes && self.word(b",\"attributes\":").is_some() {
            true => self.attributes(depth + 1),
            false => Some(()),
        }
    }

    /// A list of whole numbers; where all are texts, by its words.
    pub(super) fn wholes(&mut self) -> Option<()> {
        let begin = self.rest;
        if self.plain_wholes().is_none() {
            self.rest = begin;
            return self.list(Self::whole);
        }
        Some(())
    }

    fn plain_wholes(&mut self) -> Option<()> {
        self.word(b"[\"")?;
        loop {
            self.digits(DIGITS)?;
            if self.word(b"\",\"").is_none() {
                return self.word(b"\"]");
            }
        }
    }

    /// Most points have the bounds that the point before has.
    pub(super) fn bounds(&mut self) -> Option<()> {
        match self.rest.strip_prefix(self.bounds) {
            Some(behind) if !self.bounds.is_empty() => self.rest = behind,
            _ => {
                let begin = self.rest;
                self.list(|look| look.number(DIGITS_OF_DOUBLE))?;
                self.bounds = &begin[..begin.len() - self.rest.len()];
            }
        }
        Some(())
    }
}
