//! A text in which some places are written anew.

use std::ops::Range;

pub struct Edited<'t> {
    text: &'t str,
    /// How much of it is done.
    done: usize,
    pub out: String,
}

impl<'t> Edited<'t> {
    pub fn of(text: &'t str) -> Edited<'t> {
        Edited { text, done: 0, out: String::with_capacity(text.len() + text.len() / 8) }
    }

    /// A place, each behind the one before: what is put there comes in its stead.
    pub fn at(&mut self, place: Range<usize>) -> &mut String {
        self.out.push_str(&self.text[self.done..place.start]);
        self.done = place.end;
        &mut self.out
    }

    pub fn finished(mut self) -> String {
        self.out.push_str(&self.text[self.done..]);
        self.out
    }
}
