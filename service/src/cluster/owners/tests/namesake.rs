//! Several processes of one name.

use super::world::World;

#[test]
fn of_two_with_one_name_none_takes_a_shard_from_the_other() {
    let mut world = World::of(11, &["a"]);
    world.rounds(20);
    assert!(world.is_settled());
    let takes = world.takes;
    world.join("a");
    world.rounds(10);
    assert_eq!(world.takes, takes);
    assert!(world.nodes.iter().all(|node| node.owners.has_namesake()));
    let came_later =
        |world: &World| world.nodes.iter().map(|node| node.owners.came_later()).collect::<Vec<_>>();
    assert_eq!(came_later(&world), [false, true]);
    world.nodes.pop();
    world.rounds(20);
    assert!(world.is_settled() && !world.nodes[0].owners.has_namesake());
    world.nodes.pop();
    world.join("a");
    world.rounds(60);
    assert_eq!((came_later(&world), world.is_settled()), (vec![false], true), "the one before was killed");
}

/// As where systemd starts a later one again and again: each ends, and none may have what is free, however slowly the one before
/// beats.
#[test]
fn a_later_process_of_a_name_keeps_no_shard_from_the_one_before() {
    let mut world = World::of(11, &["a"]);
    world.rounds(20);
    (world.store.rows[3].term, world.store.rows[3].owner) = (2, String::new());
    world.join("a");
    for _ in 0..8 {
        world.nodes[0].stands_for = 2;
        world.rounds(3);
        assert!(world.nodes[1].owners.terms().is_empty());
    }
    assert!(world.nodes[0].owners.has_namesake() && world.nodes[1].owners.came_later());
    assert_eq!(world.nodes[0].owners.terms().get(&3), Some(&3));
}

/// As where a script starts it again and again: each later one has begun before the one before knew of the first, which stands still
/// for longer than is waited for its beats.
#[test]
fn of_three_with_one_name_the_first_alone_goes_on() {
    for stands_for in 0..12 {
        let mut world = World::of(11 + stands_for, &["a"]);
        world.rounds(20);
        world.nodes[0].stands_for = stands_for;
        for _ in 0..2 {
            world.join("a");
            world.rounds(2);
        }
        end_later_ones(&mut world, 40);
        assert_eq!(world.nodes.len(), 1, "stands still for {stands_for} beats");
        assert_eq!(world.nodes[0].life, 1);
        world.rounds(60);
        assert!(world.is_settled() && !world.nodes[0].owners.has_namesake());
    }
}

/// Else none would be left.
#[test]
fn of_three_with_one_name_the_second_goes_on_where_the_first_is_gone() {
    let mut world = World::of(11, &["a"]);
    world.rounds(20);
    world.nodes.pop();
    for _ in 0..2 {
        world.join("a");
        world.rounds(2);
    }
    end_later_ones(&mut world, 40);
    assert_eq!(world.nodes.iter().map(|node| node.life).collect::<Vec<_>>(), [2]);
    world.rounds(60);
    assert!(world.is_settled());
}

/// Each that finds that it came later ends.
fn end_later_ones(world: &mut World, rounds: usize) {
    for _ in 0..rounds {
        world.round();
        world.nodes.retain(|node| !node.owners.came_later());
    }
}
