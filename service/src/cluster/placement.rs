//! Assigns shards to instances by rendezvous hashing with a bound: in order of their numbers, each shard goes to the
//! instance with the highest hash of shard and name among those with room, and no instance gets more than one shard
//! more than another. So all instances that see the same members agree, and when one comes or goes, mainly its own
//! shards move.

use sha2::{Digest, Sha256};
use std::collections::BTreeMap;

/// The assigned instance of each shard; none if no instance may have it. If an instance may not have a shard, only that
/// shard is assigned differently.
pub fn places<'a>(
    shards: &[u16],
    names: &[&'a str],
    may_have: impl Fn(u16, &str) -> bool,
) -> BTreeMap<u16, Option<&'a str>> {
    let mut shares = ShardCounts::of(shards.len(), names);
    let place = |shard: &u16| {
        let may = |name: &&str| may_have(*shard, name);
        let place = shares.give(*shard).filter(may);
        (*shard, place.or_else(|| highest(*shard, names.iter().copied().filter(may))))
    };
    shards.iter().map(place).collect()
}

/// How many shards each instance has, and how many it may get.
struct ShardCounts<'a> {
    counts: BTreeMap<&'a str, usize>,
    each: usize,
    /// How many instances get one more.
    more: usize,
}

impl<'a> ShardCounts<'a> {
    fn of(shards: usize, names: &[&'a str]) -> ShardCounts<'a> {
        let instances = names.len().max(1);
        ShardCounts {
            counts: names.iter().map(|name| (*name, 0)).collect(),
            each: shards / instances,
            more: shards % instances,
        }
    }

    fn give(&mut self, shard: u16) -> Option<&'a str> {
        let most = self.each + usize::from(self.more > 0);
        let with_room = self.counts.iter().filter(|(_, count)| **count < most);
        let name = highest(shard, with_room.map(|(name, _)| *name))?;
        let count = self.counts.entry(name).or_default();
        *count += 1;
        self.more -= usize::from(*count > self.each);
        Some(name)
    }
}

fn highest<'a>(shard: u16, names: impl Iterator<Item = &'a str>) -> Option<&'a str> {
    names.max_by_key(|name| (weight(shard, name), *name))
}

fn weight(shard: u16, name: &str) -> [u8; 32] {
    let hash = Sha256::new().chain_update(shard.to_be_bytes());
    hash.chain_update(name.as_bytes()).finalize().into()
}

#[cfg(test)]
mod tests {
    use super::*;

    fn of<'a>(shards: u16, names: &[&'a str]) -> Vec<&'a str> {
        let shards: Vec<u16> = (0..shards).collect();
        let places = places(&shards, names, |_, _| true);
        places.into_values().flatten().collect()
    }

    #[test]
    fn all_have_as_many_and_few_move_where_one_comes_or_goes() {
        for (shards, most) in [(256, 30), (12, 3)] {
            let (two, three) = (of(shards, &["a", "b"]), of(shards, &["b", "c", "a"]));
            let moved = |(before, after): &(&&str, &&str)| before != after && **after != "c";
            let moved = two.iter().zip(&three).filter(moved).count();
            assert!(moved <= most, "{moved} of {shards} moved beside those of c");
        }
        for shards in 0..40 {
            for names in [&["a"][..], &["a", "b", "c"], &["x", "y", "z", "v", "w"]] {
                let places = of(shards, names);
                let share = |name: &&str| places.iter().filter(|place| *place == name).count();
                let shares = names.iter().map(share);
                let spread = shares.clone().max().unwrap() - shares.clone().min().unwrap();
                assert!(spread <= 1 && shares.sum::<usize>() == usize::from(shards));
            }
        }
        assert_eq!(places(&[3], &[], |_, _| true), [(3, None)].into());
    }

    #[test]
    fn who_may_not_have_a_shard_changes_the_place_of_that_one_alone() {
        let (shards, names) = ((0..12).collect::<Vec<u16>>(), ["a", "b", "c"]);
        let before = places(&shards, &names, |_, _| true);
        for (shard, place) in &before {
            let refused = |other, name: &str| other != *shard || Some(name) != *place;
            let mut after = places(&shards, &names, refused);
            assert!(after[shard].is_some() && after[shard] != *place);
            after.insert(*shard, *place);
            assert_eq!(after, before);
        }
        assert!(places(&shards, &names, |shard, _| shard != 3)[&3].is_none());
    }
}
