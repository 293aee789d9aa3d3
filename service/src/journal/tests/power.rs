//! Losses of power, and a second one at each call of the start that follows.

use super::*;
use crate::storage::power::{copy, disk, place, Shadow};

/// The posts of a run, up to a loss of power.
#[derive(Default)]
struct Posted {
    /// The posts from the first segment that counts.
    texts: Vec<String>,
    /// How many of them are durable.
    durable: usize,
    reach: u64,
}

fn run(folder: &Path, left: &Path, durability: Durability, chance: &mut TestRandom) -> Posted {
    std::fs::create_dir(folder).unwrap();
    let shadow = Arc::new(Mutex::new(Shadow::of(folder)));
    let journal = open_on(&disk(&shadow, u64::MAX), folder, durability).unwrap();
    let mut posted = Posted { reach: 1, ..Posted::default() };
    for step in 0..2 + chance.below(12) {
        match chance.below(16) {
            0..=9 => {
                let width = [3, 100, 700, 3000][chance.below(4) as usize];
                let text = format!("{step}-{:a>width$}", "", width = chance.below(width) as usize);
                append(&journal, &text);
                posted.texts.push(text);
            }
            10 => {
                journal.shared.sync();
                posted.durable = posted.texts.len();
            }
            11..=14 => drop(journal.roll()),
            _ => {
                // The outbox has a group with all of them.
                posted = Posted { reach: journal.roll().0, ..Posted::default() };
                journal.shared.sync();
                journal.truncate_before(posted.reach).unwrap();
            }
        }
    }
    kill(journal);
    locked(&shadow).lose_power(left, chance);
    posted
}

#[test]
fn what_was_durable_is_there_and_of_the_rest_the_first_posts() {
    for seed in 0..runs(10, 45) {
        let place = place();
        let at = |name: &str| place.path().join(name);
        let mut chance = TestRandom(seed);
        let durability = [Durability::Disk, Durability::Process][chance.below(2) as usize];
        let posted = run(&at("run"), &at("left"), durability, &mut chance);
        for calls in 0.. {
            let (again, left) = (at(&format!("again-{calls}")), at(&format!("left-{calls}")));
            copy(&at("left"), &again);
            let shadow = Arc::new(Mutex::new(Shadow::of(&again)));
            // The first start has recorded its segment.
            let open =
                |disk: &Disk, folder: &Path| open_begun(disk, folder, durability, posted.reach, Some(1));
            let opened = open(&disk(&shadow, calls), &again);
            let is_whole = opened.map(kill).is_ok();
            locked(&shadow).lose_power(&left, &mut chance);
            let journal = open(&Disk::default(), &left);
            let journal = journal.unwrap_or_else(|fault| panic!("seed {seed} call {calls}: {fault}"));
            let found = texts(&journal, posted.reach);
            assert!(
                posted.texts.starts_with(&found) && found.len() >= posted.durable,
                "seed {seed} call {calls}: {} of {} were durable, and {} are there: {:?}",
                posted.durable,
                posted.texts.len(),
                found.len(),
                found
            );
            kill(journal);
            for folder in [again, left] {
                std::fs::remove_dir_all(folder).unwrap();
            }
            if is_whole {
                break;
            }
        }
    }
}
