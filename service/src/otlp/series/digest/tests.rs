//! Digests by what keys have in common.

use super::*;

#[test]
fn digests_are_those_of_whole_texts() {
    let mut digests = Digests::default();
    for (alike, other) in
        [(0, 0), (0, 500), (300, 10), (300, 200), (320, 1), (384, 9), (63, 64), (64, 0), (900, 9)]
    {
        let key = SeriesKey(("a".repeat(alike) + &"b".repeat(other)).into());
        assert_eq!(digests.of(&key), key.digest(), "{alike} {other}");
    }
}
