//! Simulated instances and the store that they share. A round is half a second.

use super::*;
use crate::cluster::terms::{Instance, InstanceReport};
use std::collections::{BTreeSet, HashMap};

const SHARDS: u16 = 8;
/// How far an instance's clock may be off.
const MOST_OFF: Duration = Duration::from_secs(60);

pub struct Random(u64);

impl Random {
    pub fn below(&mut self, most: u64) -> u64 {
        self.0 = self.0.wrapping_mul(6364136223846793005).wrapping_add(1442695040888963407);
        (self.0 >> 33) % most
    }

    fn once_in(&mut self, times: u64) -> bool {
        self.below(times) == 0
    }
}

#[derive(Default)]
pub struct Store {
    pub rows: Vec<Row>,
    pub instances: BTreeMap<String, (u64, Option<Eligibility>, InstanceReport)>,
    /// How often each process of a name has beaten, by its number.
    lives: BTreeMap<String, BTreeMap<u64, u64>>,
    /// Who was the owner under which term.
    pub terms: HashMap<(u16, u64), usize>,
}

impl Store {
    /// `clock` is how many microseconds the instance's clock is ahead; `life` is the number of its process, 0 for a new
    /// one.
    pub fn heartbeat(
        &mut self,
        name: &str,
        (stay, told): (Eligibility, InstanceReport),
        clock: i64,
        life: &mut u64,
    ) -> Seen {
        let lives = self.lives.entry(name.into()).or_default();
        let last = |lives: &BTreeMap<u64, u64>| lives.keys().next_back().copied().unwrap_or_default();
        *life = if *life == 0 { last(lives) + 1 } else { *life };
        *lives.entry(*life).or_default() += 1;
        let row = self.instances.entry(name.into()).or_default();
        *row = (row.0 + 1, Some(stay), told);
        let instances = self.instances.iter().map(|(name, (beat, stay, told))| Instance {
            name: name.clone(),
            address: if *stay == Some(Eligibility::Here) { format!("{name}:1") } else { String::new() },
            operate: String::new(),
            version: "1".into(),
            beat: *beat,
            life: last(&self.lives[name]),
            lives: self.lives[name].clone(),
            told: told.clone(),
        });
        Seen { instances: instances.collect(), shards: self.rows.clone(), clock: Some(clock), life: *life }
    }

    fn take(&mut self, node: usize, name: &str, shard: u16, seen: u64) -> Option<u64> {
        let row = &mut self.rows[usize::from(shard)];
        if row.term != seen {
            return None;
        }
        (row.term, row.owner) = (seen + 1, name.into());
        let before = self.terms.insert((shard, row.term), node);
        assert_eq!(before, None, "shard {shard} has two owners under term {}", row.term);
        Some(row.term)
    }

    fn release(&mut self, shard: u16, term: u64) {
        let row = &mut self.rows[usize::from(shard)];
        if row.term == term {
            row.owner.clear();
        }
    }
}

pub struct Node {
    pub name: String,
    pub owners: Owners,
    /// Steps in progress, which finish in any order.
    pub under_way: Vec<Step>,
    pub opening: Vec<(u16, u64)>,
    pub stands_for: u64,
    /// How many microseconds its clock is ahead.
    pub clock: i64,
    /// The number of its process; 0 before its first heartbeat.
    pub life: u64,
    /// It sends heartbeats and does nothing else.
    pub is_stuck: bool,
}

pub struct World {
    pub random: Random,
    pub store: Store,
    pub nodes: Vec<Node>,
    /// Whether answers get lost, openings fail, and so on.
    pub is_rough: bool,
    /// Shards that an instance can't open.
    pub broken: BTreeSet<(u16, String)>,
    pub stalls_for: u64,
    /// Which instance can't reach which.
    pub cut: BTreeSet<(String, String)>,
    pub takes: usize,
    pub hand_overs: usize,
}

impl World {
    pub fn of(seed: u64, names: &[&str]) -> World {
        let row = |shard| Row { shard, term: 0, owner: String::new() };
        let store = Store { rows: (0..SHARDS).map(row).collect(), ..Store::default() };
        let mut world = World {
            random: Random(seed.wrapping_mul(0x9e37_79b9_7f4a_7c15)),
            store,
            nodes: Vec::new(),
            is_rough: false,
            broken: BTreeSet::new(),
            stalls_for: 0,
            cut: BTreeSet::new(),
            takes: 0,
            hand_overs: 0,
        };
        names.iter().for_each(|name| world.join(name));
        world
    }

    pub fn join(&mut self, name: &str) {
        self.nodes.push(Node {
            name: name.into(),
            owners: Owners::new(name, Some(MOST_OFF)),
            under_way: Vec::new(),
            opening: Vec::new(),
            stands_for: 0,
            clock: 0,
            life: 0,
            is_stuck: false,
        });
    }

    /// One round: each instance that does not stand still sends a heartbeat and finishes some of its steps, in any
    /// order.
    pub fn round(&mut self) {
        let first = self.random.below(self.nodes.len() as u64) as usize;
        for place in 0..self.nodes.len() {
            let node = (first + place) % self.nodes.len();
            if self.nodes[node].stands_for > 0 {
                self.nodes[node].stands_for -= 1;
                continue;
            }
            self.heartbeat(node);
            for _ in 0..SHARDS {
                self.work(node);
            }
        }
        self.stalls_for = self.stalls_for.saturating_sub(1);
        self.look();
    }

    fn heartbeat(&mut self, node: usize) {
        let is_lost = self.is_rough && self.random.once_in(20);
        let reached = self.reached(node);
        let one = &mut self.nodes[node];
        one.owners.has_reached(Some(reached));
        if self.stalls_for > 0 {
            return one.owners.unanswered();
        }
        let seen = self.store.heartbeat(&one.name, one.owners.told(), one.clock, &mut one.life);
        if is_lost {
            return one.owners.unanswered();
        }
        let steps = one.owners.heartbeat(seen);
        one.under_way.extend(steps);
        if let Some((name, beat)) = one.owners.forgotten() {
            let is_it = self.store.instances.get(&name).is_some_and(|row| row.0 == beat);
            assert!(is_it, "{name} has beaten since");
            self.store.instances.remove(&name);
        }
    }

    /// The instances that this one reaches.
    fn reached(&self, node: usize) -> BTreeSet<String> {
        let name = &self.nodes[node].name;
        let others = self.nodes.iter().filter(|one| one.name != *name && one.stands_for == 0);
        let names = others.map(|other| other.name.clone());
        names.filter(|other| !self.cut.contains(&(name.clone(), other.clone()))).collect()
    }

    /// From now on none of these reaches one of those, or the reverse.
    pub fn cut(&mut self, these: &[&str], those: &[&str]) {
        for (one, other) in these.iter().flat_map(|one| those.iter().map(move |other| (*one, *other))) {
            self.cut.insert((one.into(), other.into()));
            self.cut.insert((other.into(), one.into()));
        }
    }

    fn work(&mut self, node: usize) {
        let is_slow = self.is_rough && self.random.once_in(2) || self.nodes[node].is_stuck;
        let one = &mut self.nodes[node];
        let count = one.under_way.len() as u64;
        if is_slow || self.stalls_for > 0 {
            return;
        }
        if count > 0 {
            let step = one.under_way.remove(self.random.below(count) as usize);
            self.does(node, step);
        } else if let Some((shard, term)) = one.opening.pop() {
            let is_broken = self.broken.contains(&(shard, one.name.clone()));
            match is_broken || self.is_rough && self.random.once_in(10) {
                true => one.owners.failed(shard, term, "broken"),
                false => one.owners.opened(shard, term),
            };
        }
    }

    fn does(&mut self, node: usize, Step { act, shard, term }: Step) {
        let is_lost = self.is_rough && self.random.once_in(5);
        let one = &mut self.nodes[node];
        match act {
            ShardAction::Take => {
                let term = self.store.take(node, &one.name, shard, term);
                self.takes += usize::from(term.is_some());
                let told = term.filter(|_| !is_lost);
                one.owners.taken(shard, told);
                one.opening.extend(told.map(|term| (shard, term)));
            }
            ShardAction::HandOver => {
                self.hand_overs += 1;
                let others = one.under_way.iter().filter(|step| step.act == ShardAction::HandOver);
                assert_eq!(others.count(), 0, "two shards are handed over at once");
                if !is_lost {
                    self.store.release(shard, term);
                }
                let next = one.owners.released(shard, term);
                one.under_way.extend(next);
            }
            ShardAction::Release => self.store.release(shard, term),
            ShardAction::Drop => {}
        }
    }

    /// Two instances never serve a shard under one term, and a server has the term of its own takeover.
    fn look(&self) {
        for (place, node) in self.nodes.iter().enumerate() {
            for (shard, whose) in node.owners.whose() {
                if let ShardOwner::Here { term } = whose {
                    assert_eq!(
                        self.store.terms.get(&(shard, term)),
                        Some(&place),
                        "shard {shard}, term {term}"
                    );
                }
            }
        }
    }

    pub fn rounds(&mut self, count: usize) {
        (0..count).for_each(|_| self.round());
    }

    /// Each shard is served only where it belongs, and all instances know it.
    pub fn is_settled(&self) -> bool {
        let shards: Vec<u16> = (0..SHARDS).collect();
        let names: Vec<&str> = self.nodes.iter().map(|node| node.name.as_str()).collect();
        let refuses = |node: &Node, shard| node.owners.told().1.refused.contains_key(&shard);
        let places = places(&shards, &names, |shard, name| {
            !self.nodes.iter().any(|node| node.name == name && refuses(node, shard))
        });
        self.store.rows.iter().all(|row| {
            let served = |node: &Node| match &node.owners.whose()[&row.shard] {
                ShardOwner::Here { term } => node.name == row.owner && *term == row.term,
                ShardOwner::There { name, address, term } => {
                    *name == row.owner
                        && *address == format!("{name}:1")
                        && *term == row.term
                        && *name != node.name
                }
                ShardOwner::Nobody => false,
            };
            places[&row.shard] == Some(&row.owner) && self.nodes.iter().all(served)
        })
    }

    /// Disturbs a random instance.
    pub fn disturb(&mut self) {
        let node = self.random.below(self.nodes.len() as u64) as usize;
        match self.random.below(8) {
            0 => self.nodes[node].stands_for = self.random.below(40),
            1 => self.stalls_for = self.random.below(60),
            2 => {
                // It is killed and starts again under its name; calls that it had sent are carried out or not.
                let one = self.nodes.remove(node);
                for Step { act, shard, term } in one.under_way {
                    if let (ShardAction::Release | ShardAction::HandOver, true) =
                        (act, self.random.once_in(2))
                    {
                        self.store.release(shard, term);
                    }
                }
                self.store.terms.values_mut().for_each(|place| {
                    *place = match *place {
                        place if place == node => usize::MAX,
                        place if place > node && place != usize::MAX => place - 1,
                        place => place,
                    }
                });
                self.join(&one.name);
            }
            _ => {}
        }
    }
}
