//! Random schedules of instances over a store in memory.

mod namesake;
mod world;

use super::*;
use crate::storage::test_runs::runs;
use world::World;

#[test]
fn over_random_schedules_two_never_own_a_shard_and_each_has_its_place_in_the_end() {
    for seed in 1..=runs(15, 50) {
        let mut world = World::of(seed, &["a", "b", "c"]);
        world.is_rough = true;
        for _ in 0..60 {
            world.disturb();
            let count = world.random.below(8) as usize;
            world.rounds(count);
        }
        world.is_rough = false;
        world.stalls_for = 0;
        world.nodes.iter_mut().for_each(|node| node.stands_for = 0);
        world.rounds(400);
        assert!(world.is_settled(), "seed {seed}: {:?}", world.store.rows);
        let before = (world.takes, world.hand_overs);
        world.rounds(100);
        assert_eq!((world.takes, world.hand_overs), before, "seed {seed}: shards move without a reason");
    }
}

#[test]
fn a_store_that_stands_still_moves_no_shard() {
    for seed in 1..10 {
        let mut world = World::of(seed, &["a", "b", "c"]);
        world.rounds(300);
        assert!(world.is_settled());
        let before = (world.takes, world.hand_overs);
        world.stalls_for = 120;
        // One instance reconnects to the store later than the others.
        world.nodes[2].stands_for = 130;
        world.rounds(240);
        assert_eq!((world.takes, world.hand_overs), before);
        // An instance that stands still for two seconds changes nothing either.
        world.nodes[1].stands_for = 4;
        world.rounds(60);
        assert_eq!((world.takes, world.hand_overs), before);
    }
}

#[test]
fn who_is_gone_loses_its_shards_after_six_beats_and_gets_them_back_one_by_one() {
    let mut world = World::of(7, &["a", "b"]);
    world.rounds(200);
    let of_a = world.store.rows.iter().filter(|row| row.owner == "a").count();
    assert!(world.is_settled() && of_a > 0);
    world.nodes[0].stands_for = 30;
    world.rounds(GONE as usize - 1);
    assert_eq!(world.store.rows.iter().filter(|row| row.owner == "a").count(), of_a);
    world.rounds(8);
    assert!(world.store.rows.iter().all(|row| row.owner == "b"));
    let before = world.hand_overs;
    for _ in 0..200 {
        world.round();
        let free = world.store.rows.iter().filter(|row| row.owner.is_empty()).count();
        assert!(free <= 1, "{free} shards are on their way at once");
    }
    assert!(world.is_settled());
    assert_eq!(world.hand_overs - before, of_a);
}

#[test]
fn who_hears_nothing_of_the_store_again_and_again_still_sees_that_another_is_gone() {
    let mut world = World::of(7, &["a", "b"]);
    world.rounds(200);
    world.nodes[0].stands_for = 100;
    for round in 0..60 {
        if round % 8 == 0 {
            world.nodes[1].owners.unanswered();
        }
        world.round();
    }
    assert!(world.store.rows.iter().all(|row| row.owner == "b"));
}

/// While a shard may still have the instance's name, the row stays, since it shows the owner.
#[test]
fn who_does_not_come_back_is_forgotten_and_its_return_is_as_that_of_another() {
    let mut world = World::of(7, &["a", "b"]);
    world.rounds(200);
    world.nodes[0].stands_for = u64::from(FORGOTTEN) + 60;
    world.rounds(FORGOTTEN as usize - 30);
    world.nodes[1].owners.leave();
    world.rounds(20);
    let is_there = |world: &World| world.store.instances.contains_key("a");
    assert!(is_there(&world) && world.nodes[1].owners.others().len() == 1);
    // As if no instance could open it.
    world.store.rows[3].owner = "a".into();
    world.rounds(20);
    assert!(is_there(&world), "a shard has its name");
    world.store.rows[3].owner.clear();
    world.rounds(2);
    assert!(!is_there(&world) && world.nodes[1].owners.others().is_empty());
    world.nodes.pop();
    world.join("c");
    world.rounds(300);
    assert!(is_there(&world) && world.is_settled());
}

/// Nor does an instance forget others while it hears nothing from the store.
#[test]
fn who_comes_back_in_time_is_not_forgotten() {
    let mut world = World::of(7, &["a", "b"]);
    world.rounds(200);
    for _ in 0..3 {
        world.nodes[0].stands_for = u64::from(FORGOTTEN) - 10;
        world.rounds(FORGOTTEN as usize - 10);
        assert!(world.store.instances.contains_key("a"));
        world.rounds(60);
    }
    assert!(world.is_settled());
    world.stalls_for = 2 * u64::from(FORGOTTEN);
    world.rounds(2 * FORGOTTEN as usize);
    assert!(world.store.instances.contains_key("a") && world.store.instances.contains_key("b"));
}

#[test]
fn who_comes_gets_shards_one_by_one_and_not_before_it_has_beaten_for_a_while() {
    let mut world = World::of(3, &["a"]);
    world.rounds(20);
    world.join("b");
    world.rounds(SETTLED as usize - 1);
    assert_eq!(world.hand_overs, 0);
    for round in 0..200 {
        if round % 12 == 0 {
            // It takes none for a while, so no further one is handed over to it.
            world.nodes[1].stands_for = 4;
        }
        world.round();
        assert!(world.store.rows.iter().filter(|row| row.owner.is_empty()).count() <= 1);
    }
    world.rounds(40);
    assert!(world.is_settled() && world.hand_overs > 1);
}

#[test]
fn who_leaves_hands_all_over_and_takes_nothing() {
    let mut world = World::of(5, &["a", "b", "c"]);
    world.rounds(200);
    world.nodes[2].owners.leave();
    world.rounds(3);
    assert!(world.nodes[2].owners.has_drained());
    world.nodes.pop();
    world.store.instances.remove("c");
    world.rounds(5);
    assert!(world.store.rows.iter().all(|row| !row.owner.is_empty()));
    // One shard of the others moves, so that both have equally many.
    let before = world.hand_overs;
    world.rounds(SETTLED as usize + 5);
    assert!(world.is_settled() && world.hand_overs - before <= 1);
    // After the last instance leaves, they have no owner.
    world.nodes[0].owners.leave();
    world.nodes[1].owners.leave();
    world.rounds(6);
    assert!(world.store.rows.iter().all(|row| row.owner.is_empty()));
}

/// Otherwise it would reject good points of all senders that post to its shards.
#[test]
fn who_has_a_wrong_clock_hands_all_over_and_takes_nothing_until_it_is_right() {
    let mut world = World::of(29, &["a", "b", "c"]);
    world.rounds(200);
    assert!(world.is_settled());
    world.nodes[1].clock = -61_000_000;
    world.rounds(20);
    assert_eq!(world.nodes[1].owners.clock_off(), Some(-61_000_000));
    assert!(world.store.rows.iter().all(|row| row.owner != "b" && !row.owner.is_empty()));
    world.rounds(100);
    assert!(world.store.rows.iter().all(|row| row.owner != "b"));
    // A new instance with such a clock takes none while another may have them, and all if no other is left.
    world.nodes.truncate(1);
    world.join("d");
    world.nodes[1].clock = 3_600_000_000;
    world.rounds(60);
    assert!(world.store.rows.iter().all(|row| row.owner == "a"));
    world.nodes[0].owners.leave();
    world.rounds(60);
    assert!(world.store.rows.iter().all(|row| row.owner == "d"));
    assert_eq!(world.nodes[1].owners.clock_off(), Some(3_600_000_000), "it is said all the same");
    // If two clocks are wrong in different ways, neither instance yields to the other.
    world.join("e");
    world.nodes[2].clock = -3_600_000_000;
    world.rounds(200);
    let of = |name: &str| world.store.rows.iter().filter(|row| row.owner == name).count();
    assert_eq!((of("d"), of("e")), (4, 4));
    assert!(world.nodes[1..].iter().all(|node| node.owners.clock_off().is_some()));
}

/// Otherwise its shards would be unreachable for as long as it reaches the store.
#[test]
fn whom_most_do_not_reach_hands_all_over_and_gets_shards_again_once_they_do() {
    let mut world = World::of(31, &["a", "b", "c"]);
    world.rounds(200);
    world.cut(&["b"], &["a", "c"]);
    world.rounds(GONE as usize - 1);
    assert!(world.is_settled() && !world.nodes[1].owners.is_cut_off());
    world.rounds(12);
    assert!(world.nodes[1].owners.is_cut_off());
    assert!(world.store.rows.iter().all(|row| row.owner != "b" && !row.owner.is_empty()));
    let misses = [0, 1, 2].map(|node: usize| world.nodes[node].owners.missed_owner().is_some());
    assert_eq!(misses, [false, true, false]);
    world.cut.clear();
    world.rounds(200);
    assert!(world.is_settled());
    // It sends heartbeats and can do nothing else.
    world.nodes[1].is_stuck = true;
    world.cut(&["b"], &["a", "c"]);
    world.rounds(60);
    assert!(world.store.rows.iter().all(|row| row.owner != "b" && !row.owner.is_empty()));
}

#[test]
fn of_those_that_reach_nobody_one_alone_has_all() {
    let mut world = World::of(37, &["a", "b", "c"]);
    world.rounds(200);
    world.cut(&["a"], &["b", "c"]);
    world.cut(&["b"], &["c"]);
    world.rounds(60);
    assert!(world.store.rows.iter().all(|row| row.owner == "a"));
    let missed = |name: usize| world.nodes[name].owners.missed_owner();
    assert_eq!([missed(0), missed(1), missed(2)], [None, Some("a"), Some("a")]);
    let mut world = World::of(41, &["a", "b"]);
    world.rounds(200);
    world.cut(&["a"], &["b"]);
    world.rounds(60);
    assert!(world.store.rows.iter().all(|row| row.owner == "a"));
}

/// Moving their shards would not help; posts can go through the third instance.
#[test]
fn two_that_do_not_reach_each_other_keep_their_shards_and_say_so() {
    let mut world = World::of(43, &["a", "b", "c"]);
    world.rounds(200);
    let before = (world.takes, world.hand_overs);
    world.cut(&["a"], &["b"]);
    world.rounds(GONE as usize);
    assert!(world.nodes.iter().all(|node| node.owners.missed_owner().is_none()), "it may be gone");
    world.rounds(60);
    assert_eq!((world.takes, world.hand_overs), before);
    let missed = |name: usize| world.nodes[name].owners.missed_owner();
    assert_eq!([missed(0), missed(1), missed(2)], [Some("b"), Some("a"), None]);
    assert_eq!([0, 1, 2].map(|name: usize| world.nodes[name].owners.misses_owner()), [true, true, false]);
}

/// Otherwise all would be unready at once, and posts would get nowhere.
#[test]
fn while_nobody_reaches_all_owners_each_stays_ready() {
    let mut world = World::of(47, &["a", "b", "c", "d"]);
    world.rounds(200);
    world.cut(&["a"], &["b"]);
    world.cut(&["c"], &["d"]);
    world.rounds(60);
    assert!(world.nodes.iter().all(|node| node.owners.missed_owner().is_some()));
    assert!(world.nodes.iter().all(|node| !node.owners.misses_owner()));
}

/// As where a store was set back.
#[test]
fn a_shard_that_another_has_under_the_same_term_is_dropped() {
    let mut world = World::of(13, &["a"]);
    world.rounds(20);
    let term = world.store.rows[3].term;
    world.store.rows[3].owner = "z".into();
    let steps = world.nodes[0].owners.heartbeat(world.store.heartbeat("a", here(), 0, &mut 1));
    assert_eq!(steps, [Step { act: ShardAction::Drop, shard: 3, term }]);
}

#[test]
fn a_shard_that_was_lost_is_dropped_once() {
    let mut world = World::of(13, &["a"]);
    world.rounds(20);
    world.store.rows[3].term += 1;
    world.store.rows[3].owner = "z".into();
    let node = &mut world.nodes[0];
    let term = world.store.rows[3].term - 1;
    let steps = node.owners.heartbeat(world.store.heartbeat("a", here(), 0, &mut 1));
    assert_eq!(steps, [Step { act: ShardAction::Drop, shard: 3, term }]);
    assert_eq!(node.owners.whose()[&3], ShardOwner::Nobody);
    assert!(!node.owners.lost(3, term));
    assert_eq!(node.owners.heartbeat(world.store.heartbeat("a", here(), 0, &mut 1)), []);
    // `z` has no row, so it sends no heartbeats.
    world.rounds(GONE as usize + 2);
    assert_eq!(world.store.rows[3].owner, "a");
}

fn here() -> (Eligibility, InstanceReport) {
    (Eligibility::Here, InstanceReport::default())
}

#[test]
fn what_its_place_can_not_open_goes_to_another_and_stays_there() {
    let mut world = World::of(17, &["a", "b", "c"]);
    world.broken = (0..4).map(|shard| (shard, "a".into())).collect();
    world.broken.extend([(5, "a".into()), (5, "b".into())]);
    world.rounds(100);
    assert!(world.is_settled(), "{:?}", world.store.rows);
    let row = |world: &World, shard: usize| world.store.rows[shard].clone();
    assert!((0..4).all(|shard| row(&world, shard).owner != "a") && row(&world, 5).owner == "c");
    let before = (world.takes, world.hand_overs);
    world.rounds(600);
    assert_eq!((world.takes, world.hand_overs), before, "it is thrown to and fro");
    // If only instances that could not open it are left, they try again.
    world.nodes.pop();
    world.store.instances.remove("c");
    world.rounds(30);
    assert_eq!(row(&world, 5).owner, "");
    let refused = world.nodes[0].owners.all_refused();
    let of_five: Vec<&str> =
        refused.iter().filter(|one| one.shard == 5).map(|one| one.instance.as_str()).collect();
    assert_eq!(of_five, ["a", "b"]);
    world.broken.remove(&(5, "b".into()));
    world.rounds(300);
    assert_eq!(row(&world, 5).owner, "b");
    // A restarted instance does not remember that it failed, and finds out once more.
    world.nodes[0].owners = Owners::new("a", None);
    world.rounds(200);
    let before = (world.takes, world.hand_overs);
    world.rounds(300);
    assert_eq!((world.takes, world.hand_overs), before, "it is thrown to and fro");
    assert_eq!(row(&world, 5).owner, "b");
}

#[test]
fn what_nobody_can_open_is_tried_again_later_and_later() {
    let mut world = World::of(19, &["a", "b"]);
    world.broken = [(3, "a".into()), (3, "b".into())].into();
    world.rounds(400);
    let terms = world.store.rows[3].term;
    assert!((6..20).contains(&terms), "{terms} tries in 400 beats");
    world.rounds(400);
    assert!(world.store.rows[3].term - terms <= 8, "each tries it once a minute");
    world.broken.clear();
    world.rounds(150);
    assert!(world.is_settled());
}

#[test]
fn what_fails_once_it_is_open_is_let_go_with_its_reason() {
    let mut world = World::of(23, &["a", "b"]);
    world.rounds(200);
    let row = world.store.rows.iter().find(|row| row.owner == "a").unwrap().clone();
    assert!(world.nodes[0].owners.failed(row.shard, row.term, "no memory"));
    assert_eq!(world.nodes[0].owners.whose()[&row.shard], ShardOwner::Nobody);
    world.rounds(4);
    assert_eq!(world.store.rows[usize::from(row.shard)].owner, "b");
    let refused = world.nodes[1].owners.all_refused();
    let refused: Vec<_> = refused.iter().map(|one| (one.shard, &*one.instance, &*one.reason)).collect();
    assert_eq!(refused, [(row.shard, "a", "no memory")]);
    assert!(!world.nodes[0].owners.failed(row.shard, row.term, "late") || refused.len() == 1);
}
