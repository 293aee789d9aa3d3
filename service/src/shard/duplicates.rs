//! Decides which of the points that a book refused as out of order are duplicates of points it has taken. `apart` calls
//! it.
//!
//! A retry of a post has for each series the same points in the same order, whatever else it contains. So a series'
//! duplicates are recognised by the digests of its last two posts, and no point of these has to be kept.

use crate::book::PointRefusal;
use crate::journal::Points;
use crate::outbox::PointsDigest;
use ahash::AHashMap;

/// How often a late point is digested on average, if a post has several late points of a series.
const LOOKS: usize = 8;

/// What becomes of a point.
#[derive(Clone, Copy, Debug, PartialEq, Eq)]
pub(super) enum PointFate {
    Taken,
    /// The point was taken before, from another post or from this one.
    Duplicate,
    Refused(PointRefusal),
}

/// Consecutive late points of a series: none between them is taken, and no two neighbours are equal.
struct Late {
    number: u64,
    places: Vec<u32>,
}

/// Sorts the points of a post into fates, as far as their order decides them.
#[derive(Default)]
struct Sorting {
    fates: Vec<PointFate>,
    late: Vec<Late>,
    /// For each series the index of its last point, and of the run in `late` that further late points may join.
    last: AHashMap<u64, (u32, Option<usize>)>,
    /// Points that equal the previous point of their series, with that point's index.
    equal: Vec<(u32, u32)>,
}

/// The fate of each point, given the book's refusals. `recent` returns the digests of the last posts of a series; it is
/// called for series with late points.
pub(super) fn fates(
    points: &Points,
    refusals: &[Option<PointRefusal>],
    mut recent: impl FnMut(u64) -> Vec<PointsDigest>,
) -> Vec<PointFate> {
    let mut sorting = Sorting::default();
    for ((place, point), refusal) in (0..).zip(points.each()).zip(refusals) {
        sorting.add(points, place, point, *refusal);
    }
    let Sorting { mut fates, late, equal, .. } = sorting;
    let mut known_of = AHashMap::new();
    for Late { number, places } in late {
        let known = known_of.entry(number).or_insert_with(|| recent(number));
        let late: Vec<&[u64]> = places.iter().filter_map(|place| Some(&points.point(*place)?[1..])).collect();
        for place in repeated(&late, known) {
            fates[places[place] as usize] = PointFate::Duplicate;
        }
    }
    for (place, before) in equal {
        if !matches!(fates[before as usize], PointFate::Refused(_)) {
            fates[place as usize] = PointFate::Duplicate;
        }
    }
    fates
}

impl Sorting {
    fn add(&mut self, points: &Points, place: u32, point: &[u64], refusal: Option<PointRefusal>) {
        let number = point[0];
        let (last, open) = self.last.get(&number).copied().unzip();
        let open = open.flatten();
        let is_late = matches!(refusal, Some(PointRefusal::OutOfOrder { .. }));
        let equal = last.filter(|last| is_late && points.point(*last) == Some(point));
        let open = match (equal, is_late, open) {
            (Some(last), ..) => {
                self.equal.push((place, last));
                open
            }
            (None, true, Some(open)) => {
                self.late[open].places.push(place);
                Some(open)
            }
            (None, true, None) => {
                self.late.push(Late { number, places: vec![place] });
                Some(self.late.len() - 1)
            }
            (None, false, _) => None,
        };
        self.last.insert(number, (place, open));
        self.fates.push(refusal.map_or(PointFate::Taken, PointFate::Refused));
    }
}

/// The indexes of the points that together, in their order, are what an earlier post had.
fn repeated(points: &[&[u64]], known: &[PointsDigest]) -> Vec<usize> {
    let (mut found, mut begin, mut looks) = (Vec::new(), 0, LOOKS * (points.len() + LOOKS));
    while begin < points.len() && looks > 0 && !known.is_empty() {
        let mut digest = PointsDigest::NONE;
        let ends = points[begin..].iter().zip(begin..).filter_map(|(point, end)| {
            digest = digest.and(point);
            known.contains(&digest).then_some(end)
        });
        let end = ends.last();
        looks = looks.saturating_sub(points.len() - begin);
        match end {
            Some(end) => {
                found.extend(begin..=end);
                begin = end + 1;
            }
            None => begin += 1,
        }
    }
    found
}

#[cfg(test)]
mod tests {
    use super::PointFate::{Duplicate, Taken};
    use super::*;

    const LATE: PointRefusal = PointRefusal::OutOfOrder { frontier: 90, is_by_post: false };
    const REFUSED: PointFate = PointFate::Refused(LATE);

    fn digest(of: &[[u64; 3]]) -> PointsDigest {
        of.iter().fold(PointsDigest::NONE, |digest, point| digest.and(point))
    }

    /// The fates of points of series 5, given these earlier posts and which points are late.
    fn found(points: &[[u64; 3]], posts: &[&[[u64; 3]]], is_late: impl Fn(usize) -> bool) -> Vec<PointFate> {
        let mut all = Points::default();
        points.iter().for_each(|point| all.push_words(5, point));
        let refusals: Vec<_> = (0..points.len()).map(|place| is_late(place).then_some(LATE)).collect();
        fates(&all, &refusals, |number| {
            assert_eq!(number, 5);
            posts.iter().map(|post| digest(post)).collect()
        })
    }

    #[test]
    fn what_a_post_had_is_known_whatever_is_around_it() {
        let [a, b, c, d] = [[1, 2, 7], [2, 3, 8], [3, 4, 9], [4, 5, 9]];
        let all = |_| true;
        for (points, posts, wanted) in [
            (&[a][..], &[&[a][..]][..], &[Duplicate][..]),
            (&[b], &[&[a]], &[REFUSED]),
            (&[a], &[], &[REFUSED]),
            (&[a, b], &[&[b], &[a]], &[Duplicate, Duplicate]),
            (&[a, b, c], &[&[a, b, c]], &[Duplicate; 3]),
            (&[a, b, c], &[&[b, c]], &[REFUSED, Duplicate, Duplicate]),
            (&[a, b, c, d], &[&[c, d], &[a, b]], &[Duplicate; 4]),
            (&[a, b, c, d], &[&[b, c]], &[REFUSED, Duplicate, Duplicate, REFUSED]),
            (&[b, c], &[&[a, b, c]], &[REFUSED, REFUSED]),
            (&[a, a, b, b], &[&[a, b]], &[Duplicate; 4]),
            (&[a, a], &[&[b]], &[REFUSED, REFUSED]),
            (&[b, a], &[&[a, b]], &[REFUSED, REFUSED]),
        ] {
            assert_eq!(found(points, posts, all), wanted, "{points:?} of {posts:?}");
        }
    }

    #[test]
    fn a_point_that_is_equal_to_the_one_before_is_a_duplicate_of_it() {
        let [a, b, c] = [[1, 2, 7], [2, 3, 8], [3, 4, 9]];
        for (points, late, wanted) in [
            (&[a, a, b][..], 1, [Taken, Duplicate, Taken]),
            (&[a, b, a], 2, [Taken, Taken, REFUSED]),
            (&[a, c, c], 2, [Taken, Taken, Duplicate]),
        ] {
            assert_eq!(found(points, &[], |place| place == late), wanted, "{points:?}");
        }
        // A point that is taken between two late ones separates them.
        let points = [a, c, b];
        assert_eq!(found(&points, &[&[a, b]], |place| place != 1), [REFUSED, Taken, REFUSED]);
    }

    /// As after a rewind of the series' end: what the book takes is added, whatever was taken before.
    #[test]
    fn what_the_book_takes_is_no_duplicate() {
        let a = [1, 2, 7];
        assert_eq!(found(&[a, a], &[&[a]], |_| false), [Taken, Taken]);
    }

    #[test]
    fn many_late_points_of_one_series_do_not_take_long() {
        let points: Vec<[u64; 3]> = (1..100_000).map(|end| [end, end + 1, 5]).collect();
        let began = std::time::Instant::now();
        let all_late = |points: &[[u64; 3]], posts: &[&[[u64; 3]]]| found(points, posts, |_| true);
        let found = all_late(&points, &[&points[..2]]);
        assert_eq!((found[0], found[1], found[2]), (Duplicate, Duplicate, REFUSED));
        // Each point is by itself what a post had.
        let in_turn: Vec<[u64; 3]> = (0..100_000).map(|place| points[place % 2]).collect();
        let found = all_late(&in_turn, &[&points[..1], &points[1..2]]);
        assert_eq!((found[0], found[1], found[99_999]), (Duplicate, Duplicate, REFUSED));
        assert!(began.elapsed().as_secs() < 5, "{:?}", began.elapsed());
    }
}
