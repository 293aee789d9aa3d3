//! Losses of power during any call, and a second one at each call of the start that follows.

use super::*;
use crate::storage::power::{copy, disk, place, Shadow};
use std::collections::BTreeMap;

enum Step {
    Commit(Vec<Vec<u8>>),
    Hold(bool),
    PutBack(u64),
    Beside(UnitOfMetric),
    NotBeside(UnitOfMetric),
    Acknowledge,
}

/// Requests of up to three series, some of them longer than a sector.
fn steps(chance: &mut TestRandom) -> Vec<Step> {
    let mut end = 0;
    let mut request = |chance: &mut TestRandom| {
        end += 1;
        let series = ["a", "b", "c"][chance.below(3) as usize];
        let noise = (0..chance.below(1500)).map(|_| char::from(b'a' + chance.below(26) as u8));
        body(&[(series, end)], &noise.collect::<String>())
    };
    let unit = |chance: &mut TestRandom| unit_of("m", ["ms", "us"][chance.below(2) as usize]);
    let mut step = |chance: &mut TestRandom| match chance.below(12) {
        0..=4 => Step::Commit((0..chance.below(4)).map(|_| request(chance)).collect()),
        5 => Step::Hold(chance.below(2) == 0),
        6 => Step::PutBack(chance.below(6)),
        7 => Step::Beside(unit(chance)),
        8 => Step::NotBeside(unit(chance)),
        _ => Step::Acknowledge,
    };
    (0..12).map(|_| step(chance)).collect()
}

/// Returns whether everything is durable after the step.
fn make(outbox: &Outbox, step: &Step) -> Result<bool, Fault> {
    match step {
        Step::Commit(bodies) => {
            let owners = owned(&[("a", "me"), ("b", "me"), ("c", "you")]);
            outbox.commit_with(bodies, outbox.journal() + 1, Runs::new(), &owners).map(drop)?
        }
        Step::Hold(true) => outbox.quarantine("me")?,
        Step::Hold(false) => outbox.lift("me")?,
        Step::PutBack(to) => {
            let series: Vec<_> = outbox.series().into_keys().collect();
            outbox.put_back(&series, *to)?
        }
        Step::Beside(unit) => outbox.put_beside(std::slice::from_ref(unit))?,
        Step::NotBeside(unit) => outbox.leave_beside(std::slice::from_ref(unit))?,
        Step::Acknowledge => {
            if let Some(first) = outbox.waiting().2 {
                outbox.acknowledge(first.number)?;
            }
            return Ok(false);
        }
    }
    Ok(matches!(step, Step::Commit(_) | Step::PutBack(_)))
}

/// What the outbox contains, without times.
fn said(outbox: &Outbox) -> String {
    let series: BTreeMap<_, _> = outbox.series().into_iter().collect();
    let series: Vec<_> = series.iter().map(|(key, it)| (&key.0, it.frontier, &it.owner)).collect();
    let (count, bytes, first) = outbox.waiting();
    let first = first.map(|first| first.number);
    let (held, beside) = (outbox.quarantined(), outbox.beside());
    format!("{} {held:?} {beside:?} {count} {bytes} {first:?} {series:?}", outbox.journal())
}

/// A run up to a loss of power: returns the states that may be found after it.
fn run(at: impl Fn(&str) -> PathBuf, chance: &mut TestRandom) -> Vec<String> {
    let steps = steps(chance);
    for name in ["run", "whole"] {
        std::fs::create_dir(at(name)).unwrap();
    }
    let whole = open_on(&Disk::default(), &at("whole"), "e", 3000).unwrap();
    let shadow = Arc::new(Mutex::new(Shadow::of(&at("run"))));
    let mut may_be = vec![said(&whole)];
    let opened = open_on(&disk(&shadow, 8 + chance.below(60)), &at("run"), "e", 3000);
    if let Ok(outbox) = opened {
        for step in &steps {
            make(&whole, step).unwrap();
            may_be.push(said(&whole));
            match make(&outbox, step) {
                Ok(true) => drop(may_be.drain(..may_be.len() - 1)),
                Ok(false) => {}
                Err(_) => break,
            }
        }
        kill(outbox);
    }
    locked(&shadow).lose_power(&at("left"), chance);
    may_be
}

#[tokio::test]
async fn what_was_durable_is_there_and_of_the_rest_what_was_made_first() {
    for seed in 0..runs(15, 45) {
        let place = place();
        let at = |name: &str| place.path().join(name);
        let mut chance = TestRandom(seed);
        let may_be = run(at, &mut chance);
        for calls in 0.. {
            let (again, left) = (at(&format!("again-{calls}")), at(&format!("left-{calls}")));
            copy(&at("left"), &again);
            let shadow = Arc::new(Mutex::new(Shadow::of(&again)));
            let is_whole = open_on(&disk(&shadow, calls), &again, "e", 3000).map(kill).is_ok();
            locked(&shadow).lose_power(&left, &mut chance);
            let outbox = open_on(&Disk::default(), &left, "e", 3000);
            let outbox = outbox.unwrap_or_else(|fault| panic!("seed {seed} call {calls}: {fault}"));
            let found = said(&outbox);
            assert!(may_be.contains(&found), "seed {seed} call {calls}: {found}\n{may_be:#?}");
            while outbox.waiting().0 > 0 {
                take(&outbox).await;
            }
            kill(outbox);
            for folder in [again, left] {
                std::fs::remove_dir_all(folder).unwrap();
            }
            if is_whole {
                break;
            }
        }
    }
}

#[tokio::test]
async fn any_of_the_segments_that_were_deleted_may_be_back() {
    let place = place();
    let at = |name: &str| place.path().join(name);
    std::fs::create_dir(at("run")).unwrap();
    let outbox = open_on(&Disk::default(), &at("run"), "e", 300).unwrap();
    for number in 1..6 {
        let bodies = [body(&[("a", number)], "filling")];
        outbox.commit(&bodies, number + 1).unwrap();
    }
    copy(&at("run"), &at("before"));
    while outbox.waiting().0 > 1 {
        take(&outbox).await;
    }
    let found = view(&outbox);
    kill(outbox);
    let numbers = |name: &str| segment::numbers(&Disk::default(), &at(name)).unwrap();
    let deleted: Vec<u64> = numbers("before").into_iter().filter(|it| !numbers("run").contains(it)).collect();
    assert!(deleted.len() > 1);
    for number in deleted {
        let left = at(&format!("left-{number}"));
        copy(&at("run"), &left);
        std::fs::copy(segment::path(&at("before"), number), segment::path(&left, number)).unwrap();
        let outbox = open_on(&Disk::default(), &left, "e", 300).unwrap();
        assert_eq!(view(&outbox), found, "{number}");
        assert_eq!(segment::numbers(&Disk::default(), &left).unwrap()[0], numbers("run")[0]);
    }
}
