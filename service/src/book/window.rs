//! The windows of time that a forwarded point never crosses (`--split-at`).

use crate::journal::Points;
use std::collections::BTreeMap;

const HOUR: u64 = 3_600_000_000_000;

/// The window that a forwarded point never crosses, in UTC, unless a posted point itself does.
#[derive(Clone, Copy, Debug, Default, PartialEq, Eq, clap::ValueEnum)]
pub enum FlushWindow {
    #[default]
    Hour,
    Day,
    /// Points may cover any time
    None,
}

impl FlushWindow {
    /// The length in nanoseconds.
    pub(super) fn length(self) -> u64 {
        match self {
            FlushWindow::Hour => HOUR,
            FlushWindow::Day => 24 * HOUR,
            FlushWindow::None => u64::MAX,
        }
    }

    /// The window of a point with this end. A point that ends at a full hour belongs to the hour before.
    pub(super) fn stretch(self, end: u64) -> u64 {
        end.saturating_sub(1) / self.length()
    }

    /// The window of all these points; none if they lie in several.
    pub(super) fn of_all(self, points: &Points) -> Option<u64> {
        let ends = || points.each().map(|point| point[2]);
        let (first, last) = (self.stretch(ends().min()?), self.stretch(ends().max()?));
        (first == last).then_some(first)
    }

    /// The points of each window, the earliest first; points of a series keep their order.
    pub(super) fn split(self, points: &Points) -> Vec<Points> {
        let mut parts = BTreeMap::<u64, Points>::new();
        for point in points.each() {
            if let [number, start, end, says @ ..] = point {
                let part = parts.entry(self.stretch(*end)).or_default();
                part.push(*number, *start, *end, says.iter().copied());
            }
        }
        parts.into_values().collect()
    }
}

#[cfg(test)]
mod tests {
    use super::*;

    #[test]
    fn a_full_hour_ends_the_hour_before() {
        let ends = [0, 1, HOUR, HOUR + 1, 24 * HOUR, 24 * HOUR + 1, u64::MAX];
        let of = |window: FlushWindow| ends.map(|end| window.stretch(end));
        assert_eq!(of(FlushWindow::Hour), [0, 0, 0, 1, 23, 24, 5_124_095]);
        assert_eq!(of(FlushWindow::Day), [0, 0, 0, 0, 0, 1, 213_503]);
        assert_eq!(of(FlushWindow::None), [0; 7]);
    }

    #[test]
    fn points_are_split_by_their_ends() {
        let mut points = Points::default();
        for (number, end) in [(7, 2 * HOUR), (8, 1), (7, 2 * HOUR + 1), (8, HOUR + 1), (9, HOUR)] {
            points.push(number, end - 1, end, [end]);
        }
        let of = |window: FlushWindow| {
            let parts = window.split(&points);
            let ends = |part: &Points| part.each().map(|point| (point[0], point[2])).collect::<Vec<_>>();
            parts.iter().map(ends).collect::<Vec<_>>()
        };
        let wanted = [vec![(8, 1), (9, HOUR)], vec![(7, 2 * HOUR), (8, HOUR + 1)], vec![(7, 2 * HOUR + 1)]];
        assert_eq!(of(FlushWindow::Hour), wanted);
        assert_eq!(of(FlushWindow::Day).len(), 1);
    }
}
