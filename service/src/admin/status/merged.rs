//! Merges the statuses of all instances into one.

use super::{AdminApi, InstanceStatus, RoundedStatus, ShardStatus, Status};
use crate::admin::reach::Question;
use crate::cluster::status::{OtherInstance, OwnedShard};
use crate::cluster::Refusal;
use crate::metrics::SHOWN_OF_RULE;
use crate::quota;
use crate::work::side_by_side;
use std::collections::BTreeMap;
use std::sync::Arc;
use std::time::Duration;

/// How long another instance may take to give its status.
const WITHIN: Duration = Duration::from_secs(3);
/// The heartbeat interval, in milliseconds.
const BEAT: u64 = crate::cluster::heartbeats::BEAT.as_millis() as u64;

/// Another instance with its status, or why it gave none.
type Said = (OtherInstance, Result<Status, String>);

impl AdminApi {
    /// The status of this instance, with the shards and counts of all others.
    pub(in crate::admin) async fn status_of_all(self: &Arc<Self>) -> Status {
        let mut status = self.status();
        let Some(others) = &self.others else { return status };
        let seen = others.cluster.status();
        let said = self.ask_each(seen.others).await;
        status.add(said, &seen.shards, &seen.refused);
        status
    }

    async fn ask_each(self: &Arc<Self>, others: Vec<OtherInstance>) -> Vec<Said> {
        let asked = others.into_iter().map(|other| {
            let admin = self.clone();
            async move {
                let said = match &admin.others {
                    Some(others) if !other.is_gone => {
                        let said = others.ask(&other.address, &Question::Status, WITHIN).await;
                        said.map_err(|why| format!("it does not answer: {why}"))
                    }
                    _ => Err("its beats have stopped".to_string()),
                };
                (other, said)
            }
        });
        let mut all = side_by_side(asked).await;
        all.sort_by(|(one, _), (other, _)| one.name.cmp(&other.name));
        all
    }
}

impl Status {
    /// Adds the statuses of other instances, and, from the store, the shards that none of them has.
    fn add(&mut self, said: Vec<Said>, shards: &[OwnedShard], refused: &[Refusal]) {
        let mut silent = BTreeMap::new();
        for (other, said) in said {
            let mut shown = shown(&other, shards);
            match said {
                Ok(status) => self.add_one(status, &mut shown),
                Err(why) => {
                    silent.insert(other.name, why.clone());
                    shown.trouble.get_or_insert(why);
                }
            }
            let instances = self.cluster.iter_mut().map(|cluster| &mut cluster.instances);
            instances.for_each(|instances| instances.push(std::mem::take(&mut shown)));
        }
        self.add_refused(refused);
        self.add_unknown(shards, &silent, refused);
    }

    /// If an instance can't open a shard, that is its trouble, even if another instance has the shard.
    fn add_refused(&mut self, refused: &[Refusal]) {
        for one in self.cluster.iter_mut().flat_map(|cluster| &mut cluster.instances) {
            let mut own = refused.iter().filter(|refusal| refusal.instance == one.name);
            let Some(first) = own.next() else { continue };
            let more = match own.count() {
                0 => String::new(),
                more => format!(" (and {more} more)"),
            };
            let trouble = format!("it can't open shard {}{more}: {}", first.shard, first.reason);
            one.trouble.get_or_insert(trouble);
        }
    }

    fn add_one(&mut self, other: Status, shown: &mut InstanceStatus) {
        let Status { dead_letters, shards, quotas: used, rounded, cumulative, late, cluster, .. } = other;
        if let Some(own) = cluster.and_then(|cluster| cluster.instances.into_iter().next()) {
            shown.shards = own.shards;
            shown.trouble = own.trouble.or(shown.trouble.take());
        }
        self.dead_letters += dead_letters;
        self.shards.extend(shards);
        self.quotas.extend(used);
        self.quotas.sort_by(|one, other| other.part().total_cmp(&one.part()));
        self.quotas.truncate(quota::SHOWN);
        for one in rounded {
            self.add_rounded(one);
        }
        self.cumulative.series += cumulative.series;
        self.cumulative.noted += cumulative.noted;
        self.late.bytes += late.bytes;
        self.late.kept += late.kept;
        self.late.not_kept += late.not_kept;
    }

    fn add_rounded(&mut self, other: RoundedStatus) {
        let Some(same) = self.rounded.iter_mut().find(|one| one.rule == other.rule) else {
            return self.rounded.push(other);
        };
        same.rounding.values += other.rounding.values;
        same.rounding.together += other.rounding.together;
        same.series += other.series;
        same.greatest.extend(other.greatest);
        same.greatest.sort_by(|one, other| other.rounding.together.total_cmp(&one.rounding.together));
        same.greatest.truncate(SHOWN_OF_RULE);
    }

    /// Adds the shards that no instance reported, in the order of the shards. If two instances report a shard, the
    /// later term counts.
    fn add_unknown(&mut self, shards: &[OwnedShard], silent: &BTreeMap<String, String>, refused: &[Refusal]) {
        self.shards.sort_by_key(|shard| (shard.shard, std::cmp::Reverse(shard.term)));
        self.shards.dedup_by_key(|shard| shard.shard);
        for of in shards {
            let Err(place) = self.shards.binary_search_by_key(&of.shard, |shard| shard.shard) else {
                continue;
            };
            let refusal = refused.iter().find(|refusal| refusal.shard == of.shard);
            let why = match (silent.get(&of.owner), refusal) {
                (Some(why), _) => format!("instance {}: {why}", of.owner),
                (None, Some(one)) => format!("instance {} can't open it: {}", one.instance, one.reason),
                (None, None) if of.owner.is_empty() => "no instance has it".to_string(),
                (None, None) => "it is being moved".to_string(),
            };
            self.shards.insert(place, ShardStatus::unknown(of.shard, &of.owner, of.term, why));
        }
    }
}

fn shown(other: &OtherInstance, shards: &[OwnedShard]) -> InstanceStatus {
    InstanceStatus {
        name: other.name.clone(),
        address: other.address.clone(),
        version: other.version.clone(),
        heartbeat_seconds: Some(u64::from(other.still) * BEAT / 1000),
        shards: shards.iter().filter(|shard| shard.owner == other.name).count(),
        trouble: other.leaves.then(|| "it is ending, and hands over its shards".to_string()),
    }
}

#[cfg(test)]
mod tests {
    use super::*;
    use crate::admin::status::{ClusterStatus, Stock};

    fn shard(number: u16, owner: &str, term: u64, waiting: u64) -> ShardStatus {
        ShardStatus {
            shard: number,
            owner: Some(owner.into()),
            term: Some(term),
            waiting,
            journal: Stock { bytes: 1, age_seconds: None },
            ..ShardStatus::default()
        }
    }

    fn status(name: &str, shards: Vec<ShardStatus>) -> Status {
        let own = InstanceStatus { name: name.into(), shards: shards.len(), ..InstanceStatus::default() };
        Status {
            dead_letters: 1,
            shards,
            cluster: Some(ClusterStatus {
                instance: name.into(),
                instances: vec![own],
                ..ClusterStatus::default()
            }),
            ..Status::default()
        }
    }

    fn other(name: &str, still: u32) -> OtherInstance {
        OtherInstance {
            name: name.into(),
            address: format!("{name}:1"),
            operate: String::new(),
            version: "1".into(),
            still,
            is_gone: still > 5,
            leaves: false,
        }
    }

    #[test]
    fn what_all_say_is_one_status_and_shards_of_which_nobody_says_more_are_in_it() {
        let mut all = status("a", vec![shard(4, "a", 3, 5), shard(1, "a", 2, 1)]);
        let owned = |number, owner: &str, term| OwnedShard {
            shard: number,
            term,
            owner: owner.into(),
            is_served: true,
        };
        let rows = [
            owned(0, "b", 7),
            owned(1, "b", 3),
            owned(2, "c", 1),
            owned(3, "", 9),
            owned(4, "a", 3),
            owned(5, "b", 1),
            owned(6, "", 8),
        ];
        // Shard 1 has just moved to b; shard 5 is on its way there.
        let b = status("b", vec![shard(0, "b", 7, 2), shard(1, "b", 3, 1)]);
        let c = Err("its beats have stopped".to_string());
        let refusal = Refusal { shard: 6, instance: "a".into(), reason: "1.seg was changed".into() };
        // Shard 0 is at b by now.
        let of_0 = Refusal { shard: 0, ..refusal.clone() };
        all.add(vec![(other("b", 0), Ok(b)), (other("c", 9), c)], &rows, &[of_0, refusal]);
        let seen: Vec<_> = all.shards.iter().map(|shard| (shard.shard, shard.term.unwrap())).collect();
        assert_eq!(seen, [(0, 7), (1, 3), (2, 1), (3, 9), (4, 3), (5, 1), (6, 8)]);
        assert_eq!((all.waiting(), all.dead_letters), (2 + 1 + 5, 2));
        let unknown: Vec<_> = all.shards.iter().map(|shard| shard.unknown.as_deref()).collect();
        let wanted = [
            None,
            None,
            Some("instance c: its beats have stopped"),
            Some("no instance has it"),
            None,
            Some("it is being moved"),
            Some("instance a can't open it: 1.seg was changed"),
        ];
        assert_eq!(unknown, wanted);
        assert_eq!(all.unknown(), Some((2, "instance c: its beats have stopped")));
        let instances = &all.cluster.unwrap().instances;
        let shown: Vec<_> =
            instances.iter().map(|one| (&*one.name, one.shards, one.trouble.as_deref())).collect();
        let refused = Some("it can't open shard 0 (and 1 more): 1.seg was changed");
        let gone = Some("its beats have stopped");
        assert_eq!(shown, [("a", 2, refused), ("b", 2, None), ("c", 1, gone)]);
        assert_eq!(instances[2].heartbeat_seconds, Some(4));
    }
}
