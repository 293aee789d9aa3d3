//! The series dictionary of the segment that is being written.
//!
//! `Journal::append` asks it before each post: a segment defines each series before the first points that use its
//! number.

use super::by_number::NumberSet;
use super::post::{Names, Points};
use super::record;
use crate::storage::text_row::TextRow;

/// The series numbers that the segment has defined. It starts anew when numbers do (`Names::generation`).
#[derive(Default)]
pub(super) struct NamedNumbers {
    generation: u64,
    numbers: NumberSet,
    said: TextRow,
}

impl NamedNumbers {
    /// The definitions that these points still need, as records to write before them.
    pub fn say(&mut self, points: &Points, names: &dyn Names) -> Vec<u8> {
        if self.generation != names.generation() {
            self.generation = names.generation();
            self.numbers = NumberSet::default();
        }
        let mut records = Vec::new();
        for number in points.numbers() {
            if self.numbers.insert(number) {
                record::put_name(&mut records, &mut self.said, number, &names.text(number));
            }
        }
        records
    }
}
