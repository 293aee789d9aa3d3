//! Where series end, and which points are not added because they begin too early.
//!
//! `tests/sink_model.py` tries these rules.

use super::Late;

/// Until when a series has points.
#[derive(Clone, Copy, Debug, Default)]
pub(in crate::sink) struct Ends {
    /// The life whose request in order was added last.
    pub(in crate::sink) life: i64,
    /// After it there is only what that life has sent since the last rewind of the series.
    pub(in crate::sink) floor: u64,
    /// The end of the series.
    pub(in crate::sink) last: u64,
}

/// How a request stands to what a series has.
#[derive(Clone, Copy, Debug)]
pub(super) struct Coming {
    life: i64,
    is_by_hand: bool,
    is_late: bool,
    /// Whether a later request has rewound the series, or forgotten it.
    is_before_a_rewind: bool,
}

impl Coming {
    /// For the series with this index in the request.
    pub(super) fn new(life: i64, is_by_hand: bool, late: Option<&Late>, series: usize) -> Coming {
        let is_before_a_rewind = late.is_some_and(|late| late.put_back.contains(&series));
        Coming { life, is_by_hand, is_late: late.is_some(), is_before_a_rewind }
    }

    /// Points that begin before this are not added, since what they count may be there already.
    ///
    /// A request in order begins where its series ends, or later. A dead letter comes after later requests of its life.
    /// None of these overlaps it, unless the series was rewound in between; and everything else that the series has
    /// ends at the floor.
    pub(super) fn limit(&self, ends: &Ends) -> u64 {
        match self.is_late && self.is_of_life_of(ends) {
            true => ends.floor,
            false => ends.last,
        }
    }

    fn is_of_life_of(&self, ends: &Ends) -> bool {
        self.life == ends.life && !self.is_before_a_rewind
    }

    /// The ends of the series after points until `end` were added. A new series has no ends before.
    pub(super) fn added(&self, before: Option<Ends>, end: u64) -> Ends {
        let before = before.unwrap_or(Ends { life: self.life, ..Ends::default() });
        let last = before.last.max(end);
        if self.is_of_life_of(&before) {
            return Ends { last, ..before };
        }
        match self.is_by_hand {
            true => Ends { floor: last, last, ..before },
            false => Ends { life: self.life, floor: before.last, last },
        }
    }
}
