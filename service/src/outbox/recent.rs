//! Digests of the last posts of each series, by which a repeat is recognised, and the owners of new series.
//!
//! A digest never decides what is added: it is compared only after the book has refused a point as out of order. A
//! sender that makes two points with the same digest hides only a late point of its own series.

use crate::otlp::series::Digest;
use std::collections::HashMap;
use std::sync::Arc;

/// A digest of the points that one post has of a series, in order; zero if there are none. It has 48 bits, so that two
/// of them and a 32-bit id take 16 bytes.
#[derive(Clone, Copy, Debug, Default, PartialEq, Eq)]
pub struct PointsDigest([u16; 3]);

impl PointsDigest {
    pub const NONE: PointsDigest = PointsDigest([0; 3]);

    /// The digest with one more point, given by its words after the series number.
    pub fn and(self, point: &[u64]) -> PointsDigest {
        let digest = point.iter().fold(u64::from(self), |digest, word| mixed(digest ^ word));
        PointsDigest::from(digest.max(1))
    }

    pub fn is_none(self) -> bool {
        self == PointsDigest::NONE
    }
}

/// The last step of Murmur3: each bit depends on all others, and the mapping is one to one. It is the same on all
/// instances and after each start.
fn mixed(number: u64) -> u64 {
    let number = (number ^ number >> 33).wrapping_mul(0xff51_afd7_ed55_8ccd).wrapping_add(1);
    let number = (number ^ number >> 33).wrapping_mul(0xc4ce_b9fe_1a85_ec53);
    number ^ number >> 33
}

impl From<u64> for PointsDigest {
    fn from(number: u64) -> PointsDigest {
        PointsDigest([0, 16, 32].map(|shift| (number >> shift) as u16))
    }
}

impl From<PointsDigest> for u64 {
    fn from(PointsDigest(parts): PointsDigest) -> u64 {
        parts.iter().rev().fold(0, |number, part| number << 16 | u64::from(*part))
    }
}

/// The digests of the last post of a series, and of the one before.
#[derive(Clone, Copy, Debug, Default, PartialEq, Eq)]
pub struct Recent(pub [PointsDigest; POSTS_KNOWN]);

impl Recent {
    /// A new post has this as its first point of the series.
    pub fn begin(&mut self, point: &[u64]) {
        *self = Recent([PointsDigest::default().and(point), self.0[0]]);
    }

    /// The same post has one more point of the series.
    pub fn go_on(&mut self, point: &[u64]) {
        self.0[0] = self.0[0].and(point);
    }

    /// Combines what was known with what became known later, on its own.
    pub fn then(self, later: Recent) -> Recent {
        match later.0 {
            [last, before] if before.is_none() && !last.is_none() => Recent([last, self.0[0]]),
            [last, _] if last.is_none() => self,
            both => Recent(both),
        }
    }

    pub fn is_none(self) -> bool {
        self.0[0].is_none()
    }

    /// The digests that are known.
    pub fn digests(self) -> impl Iterator<Item = PointsDigest> {
        self.0.into_iter().filter(|digest| !digest.is_none())
    }
}

/// How many posts of a series are remembered.
pub const POSTS_KNOWN: usize = 2;

/// What posts say of a series that may be in no group yet.
#[derive(Clone, Debug, Default, PartialEq, Eq)]
pub struct Noted {
    /// The sender, if it is known.
    pub owner: Option<Arc<str>>,
    pub recent: Recent,
}

/// The digests and owners of posted series, as of the moment when a group was taken.
#[derive(Clone, Debug, Default)]
pub struct Recents {
    /// The numbering that the ids belong to.
    pub numbering: u64,
    pub by_id: Vec<(u32, Recent)>,
    pub by_digest: HashMap<Digest, Noted>,
}

#[cfg(test)]
mod tests {
    use super::*;
    use std::collections::HashSet;

    #[test]
    fn a_digest_is_of_all_points_in_their_order() {
        let none = PointsDigest::default();
        let [a, b, c] = [[1, 2, 5], [2, 3, 5], [1, 2, 6]];
        let all = [
            none.and(&a),
            none.and(&b),
            none.and(&c),
            none.and(&a).and(&b),
            none.and(&b).and(&a),
            none.and(&a).and(&b).and(&c),
            none.and(&[0, 0, 0]),
            none.and(&[0]),
        ];
        assert_eq!(all.iter().map(|digest| u64::from(*digest)).collect::<HashSet<_>>().len(), all.len());
        for digest in all {
            assert_eq!(PointsDigest::from(u64::from(digest)), digest);
            assert!(!digest.is_none() && u64::from(digest) >> 48 == 0);
        }
        assert!(none.is_none() && u64::from(none) == 0);
    }

    #[test]
    fn the_last_two_posts_are_known() {
        let [a, b, c] = [[1, 2, 5], [2, 3, 5], [3, 4, 6]];
        let of = |points: &[[u64; 3]]| {
            points.iter().fold(PointsDigest::default(), |digest, point| digest.and(point))
        };
        let mut recent = Recent::default();
        assert!(recent.is_none());
        recent.begin(&a);
        assert_eq!(recent.digests().collect::<Vec<_>>(), [of(&[a])]);
        recent.begin(&b);
        recent.go_on(&c);
        assert_eq!(recent, Recent([of(&[b, c]), of(&[a])]));
        let mut later = Recent::default();
        assert_eq!(recent.then(later), recent);
        later.begin(&a);
        assert_eq!(recent.then(later), Recent([of(&[a]), of(&[b, c])]));
        later.begin(&b);
        assert_eq!(recent.then(later), later);
    }
}
