//! The outbox behaves as a model of it in memory, over any calls and starts.

use super::*;

/// What an outbox has to contain.
#[derive(Default)]
struct Model {
    waiting: std::collections::VecDeque<(u64, Vec<u8>)>,
    next: u64,
    journal: u64,
    series: std::collections::BTreeMap<String, (u64, Option<String>)>,
    quarantined: BTreeSet<String>,
    beside: BTreeSet<UnitOfMetric>,
}

impl Model {
    fn change(&mut self, outbox: &Outbox, numbers: &mut TestRandom) {
        let key = format!("key {}", numbers.below(30));
        let sender = format!("s{}", numbers.below(4));
        match numbers.below(10) {
            0..=2 | 5 => self.commit(outbox, &sender, numbers),
            3 | 4 => {
                if let Some((number, _)) = self.waiting.pop_front() {
                    outbox.acknowledge(number).unwrap();
                }
            }
            6 if numbers.below(2) == 0 => {
                outbox.quarantine(&sender).unwrap();
                self.quarantined.insert(sender);
            }
            6 => {
                outbox.lift(&sender).unwrap();
                self.quarantined.remove(&sender);
            }
            8 => {
                let unit = [unit_of(&key, "ms")];
                if numbers.below(2) == 0 {
                    outbox.put_beside(&unit).unwrap();
                    self.beside.extend(unit);
                } else {
                    outbox.leave_beside(&unit).unwrap();
                    self.beside.remove(&unit[0]);
                }
            }
            7 => {
                let to = numbers.below(self.journal + 1);
                outbox.put_back(&[key_of(&key)], to).unwrap();
                if let Some(known) = self.series.get_mut(&key) {
                    known.0 = known.0.min(to);
                }
            }
            _ => {
                let keep = HashSet::from([key_of(&key).digest()]);
                let count = self.series.len();
                self.series.retain(|one, _| *one == key);
                let forgotten = outbox.forget_of(AT_ONCE, &keep).unwrap();
                assert_eq!(forgotten.len(), count - self.series.len());
            }
        }
    }

    fn commit(&mut self, outbox: &Outbox, sender: &str, numbers: &mut TestRandom) {
        let (mut bodies, mut keys) = (Vec::new(), Vec::new());
        self.journal += 1;
        for _ in 0..numbers.below(4) {
            let (key, end) = (format!("key {}", numbers.below(30)), self.journal);
            bodies.push(body(&[(&key, end)], &"x".repeat(numbers.below(3000) as usize)));
            self.next += 1;
            self.waiting.push_back((self.next, bodies[bodies.len() - 1].clone()));
            let owner = (numbers.below(4) > 0).then(|| sender.to_string());
            let known = self.series.entry(key.clone()).or_insert((0, owner));
            known.0 = end;
            if known.1.is_some() {
                keys.push(key);
            }
        }
        let owners: Vec<(&str, &str)> = keys.iter().map(|key| (&**key, sender)).collect();
        commit_owned(outbox, &bodies, self.journal, &owners);
    }

    async fn check(&self, outbox: &Outbox, about: &str) {
        let known = |(key, known): (SeriesKey, Series)| {
            let owner = known.owner.map(|owner| owner.to_string());
            (key.0.to_string(), (known.frontier, owner))
        };
        let series: std::collections::BTreeMap<_, _> = outbox.series().into_iter().map(known).collect();
        assert_eq!(series, self.series, "{about}");
        assert_eq!(
            (outbox.journal().max(1), outbox.quarantined(), outbox.beside()),
            (self.journal.max(1), self.quarantined.clone(), self.beside.clone()),
            "{about}"
        );
        assert_eq!(outbox.waiting().0, self.waiting.len() as u64, "{about}");
        if let Some(first) = self.waiting.front() {
            let (waiting, body) = outbox.first().await.unwrap();
            assert_eq!((waiting.number, &body), (first.0, &first.1), "{about}");
        }
    }
}

#[tokio::test]
async fn it_is_as_its_model_over_any_calls_and_starts() {
    for seed in 0..runs(4, 10) {
        let mut numbers = TestRandom(seed);
        let folder = tempfile::tempdir().unwrap();
        let open = || open_on(&Disk::default(), folder.path(), "e", 2500).unwrap();
        let (mut outbox, mut model) = (open(), Model::default());
        for step in 0..120 {
            model.change(&outbox, &mut numbers);
            match numbers.below(12) {
                0 => {
                    drop(outbox);
                    outbox = open();
                }
                1 => {
                    kill(outbox);
                    outbox = open();
                }
                2 => {
                    kill(outbox);
                    let mut file = File::options().append(true).open(last_segment(folder.path())).unwrap();
                    let mut torn = Vec::new();
                    crate::storage::records::put(&mut torn, rows::GROUP, &[&[9; 60]]);
                    torn.truncate(numbers.below(torn.len() as u64) as usize);
                    io::Write::write_all(&mut file, &torn).unwrap();
                    outbox = open();
                }
                _ => {}
            }
            model.check(&outbox, &format!("seed {seed} step {step}")).await;
        }
        while let Some((number, body)) = model.waiting.pop_front() {
            assert_eq!(take(&outbox).await, (number, body));
        }
        outbox.commit(&[], model.journal + 1).unwrap();
        assert!(
            segment::numbers(&Disk::default(), folder.path()).unwrap().len() <= 1,
            "segments without a waiting request are deleted"
        );
    }
}
