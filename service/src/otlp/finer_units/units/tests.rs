use super::*;

fn unit(name: &str) -> Unit {
    Unit::of(name).unwrap()
}

/// As a post decides that is taken, or refused.
fn decide(units: &Arc<Units>, metric: &str, own: Unit, has_doubles: bool, is_taken: bool) -> Unit {
    let mut decided = Decided::default();
    let found = units.decide(metric, own, has_doubles, &mut decided);
    decided.stays(is_taken);
    found
}

#[test]
fn a_metric_is_decided_once() {
    let units = Arc::new(Units::default());
    let decide = |metric, own, has_doubles| decide(&units, metric, unit(own), has_doubles, true).name();
    assert_eq!(decide("a", "s", true), "us");
    assert_eq!(decide("a", "s", false), "us");
    assert_eq!(decide("a", "ms", false), "us");
    assert_eq!([decide("a", "us", true), decide("a", "ns", true)], ["us", "ns"]);
    assert_eq!(decide("b", "s", false), "s");
    assert_eq!(decide("b", "s", true), "s");
    assert_eq!(decide("b", "ms", true), "us");
    assert_eq!(decide("b", "s", true), "s");
    assert_eq!(decide("c", "%", true), "[ppm]");
    assert_eq!(decide("c", "1", false), "[ppm]");
    assert_eq!(decide("d", "KiBy", true), "By");
    assert_eq!(decide("d", "kBy", false), "By");
    assert_eq!(units.decided("e", unit("s")), None);
    assert!(Unit::of("").is_none() && Unit::of("{request}").is_none());
}

fn drawn() -> impl FnMut(usize) -> usize {
    let mut draw = 88_172_645_463_325_252u64;
    move |most| {
        draw ^= draw << 13;
        draw ^= draw >> 7;
        draw ^= draw << 17;
        draw as usize % most
    }
}

/// Else the doubles of a metric are foreign until the next start, for a post that counts as never sent.
#[test]
fn what_was_refused_decides_nothing() {
    let all = Arc::new(Units::default());
    let units = Arc::new(Units::of_shard(all.clone()));
    let decide = |has_doubles, is_taken| decide(&units, "a", unit("s"), has_doubles, is_taken).name();
    assert_eq!(decide(false, false), "s");
    let mut by_rule = Decided::default();
    units.note_of_rule("a", unit("min"), &mut by_rule);
    drop(by_rule);
    assert!([&all, &units].into_iter().all(|units| units.read().units.is_empty()));
    assert_eq!([all.read().taken, units.read().taken], [0; 2]);
    // Who comes while one is under way hangs on it.
    let [mut one, mut other] = [(); 2].map(|()| Decided::default());
    let held = [(true, &mut one), (false, &mut other)]
        .map(|(has_doubles, decided)| units.decide("a", unit("s"), has_doubles, decided).name());
    assert_eq!((held, units.decided("a", unit("s"))), (["us"; 2], None));
    drop(one);
    assert_eq!(decide(false, false), "us");
    other.stays(true);
    drop(other);
    assert_eq!([&all, &units].map(|units| units.decided("a", unit("s"))), [Some(unit("us")); 2]);
    assert!(units.read().pending.is_empty() && all.read().pending.is_empty());
}

/// What a start begins with.
fn fresh(all: &Arc<Units>) -> Arc<Units> {
    Arc::new(Units { of_all: None, ..Units::of_shard(all.clone()) })
}

/// Whatever comes, in whatever order, and whatever of it a start finds: the same unit as before.
#[test]
fn what_a_start_finds_decides_as_before() {
    let (mut next, count, all) = (drawn(), all().count(), Arc::default());
    for _ in 0..2_000 {
        let mut units = fresh(&all);
        let mut taken: HashMap<usize, Unit> = HashMap::new();
        for _ in 0..40 {
            let own = Unit(next(count));
            // A post may be refused, or lost by a kill.
            let is_taken = next(3) > 0;
            let found = decide(&units, "a", own, next(2) == 0, is_taken);
            if is_taken {
                let before = *taken.entry(own.0).or_insert(found);
                assert_eq!(found, before, "{}", own.name());
            }
            if next(8) == 0 {
                units = fresh(&all);
                taken.values().for_each(|unit| units.note("a", *unit));
            }
        }
    }
}

/// A metric of one name, and what is on disk of it.
struct OnDisk {
    all: Arc<Units>,
    units: Arc<Units>,
    series: Set,
    beside: Vec<Named>,
    /// In which unit points were taken, by their own.
    taken: HashMap<usize, Unit>,
    under_way: Vec<Post>,
}

struct Post {
    decided: Decided,
    /// None where a rule has put it into its unit.
    own: Option<Unit>,
    unit: Unit,
}

impl OnDisk {
    fn new(all: &Arc<Units>) -> OnDisk {
        let (all, units) = (all.clone(), fresh(all));
        let (beside, taken, under_way) = (Vec::new(), HashMap::new(), Vec::new());
        let mut made = OnDisk { all, units, series: 0, beside, taken, under_way };
        made.start();
        made
    }

    fn start(&mut self) {
        self.under_way.clear();
        self.units = fresh(&self.all);
        self.units.begin(self.beside.iter().map(|(metric, unit)| (metric.to_string(), *unit)));
        units_of(self.series).for_each(|unit| self.units.note("a", unit));
        let left = self.units.settle();
        self.beside.retain(|one| !left.contains(one));
    }

    fn post(&mut self, own: Unit, has_doubles: bool) {
        let mut decided = Decided::default();
        let unit = self.units.decide("a", own, has_doubles, &mut decided);
        self.under_way.push(Post { decided, own: Some(own), unit });
    }

    fn post_by_rule(&mut self, unit: Unit) {
        let mut decided = Decided::default();
        self.units.note_of_rule("a", unit, &mut decided);
        self.under_way.push(Post { decided, own: None, unit });
    }

    fn end(&mut self, place: usize, is_taken: bool) {
        let Post { mut decided, own, unit } = self.under_way.swap_remove(place);
        self.keep();
        decided.stays(is_taken);
        if is_taken {
            self.series |= bit(unit);
        }
        if let (Some(own), true) = (own, is_taken) {
            let before = *self.taken.entry(own.0).or_insert(unit);
            assert_eq!(unit, before, "{}", own.name());
        }
    }

    /// As each post does before it is taken, or refused.
    fn keep(&mut self) {
        let unsaved = self.units.unsaved();
        self.units.kept(&unsaved);
        let [more, less] = unsaved;
        self.beside.retain(|one| !less.contains(one));
        self.beside.extend(more);
        assert!(!self.units.has_unkept());
    }

    fn forget(&mut self, unit: Unit) {
        self.series &= !bit(unit);
        self.taken.retain(|_, taken| *taken != unit);
    }
}

/// The same where rules bring units between, posts are refused or lost by a kill, and series are forgotten.
#[test]
fn what_rules_bring_between_decides_nothing_behind_a_start_either() {
    let (mut next, count, all) = (drawn(), all().count(), Arc::default());
    let mut beside = 0;
    for round in 0..3_000 {
        let mut disk = OnDisk::new(&all);
        // Of a few that are parts of each other more comes to pass.
        let count = if round % 2 == 0 { count } else { TIMES.len() };
        for _ in 0..90 {
            let unit = Unit(next(count));
            match next(15) {
                0..=4 => disk.post(unit, next(2) == 0),
                5..=7 => disk.post_by_rule(unit),
                8 => disk.forget(unit),
                9 => disk.start(),
                _ if disk.under_way.is_empty() => {}
                _ => disk.end(next(disk.under_way.len()), next(3) > 0),
            }
        }
        beside += disk.beside.len();
    }
    assert!(beside > 3_000, "{beside}");
}

#[test]
fn what_is_beside_nothing_any_more_decides_again() {
    for (found, left, decided) in [(&["ms", "us"][..], &["b"][..], "us"), (&["ms"], &["a", "b"], "ms")] {
        let units = Arc::new(Units::default());
        units.begin(["a", "b"].map(|metric| (metric.to_string(), unit("ms"))));
        found.iter().for_each(|name| units.note("a", unit(name)));
        let mut names: Vec<_> = units.settle().into_iter().map(|(metric, _)| metric).collect();
        names.sort();
        assert_eq!(names, left.iter().map(|name| (*name).into()).collect::<Vec<Box<str>>>());
        let decide = |metric, own| decide(&units, metric, unit(own), false, true).name();
        assert_eq!([decide("a", "s"), decide("b", "ms")], [decided, "ms"]);
    }
}

/// The outbox may have it already, and a start believes that: it is told before the unit may decide.
#[test]
fn what_a_refused_post_put_beside_another_is_gone() {
    for is_kept in [false, true] {
        let units = Arc::new(Units::default());
        units.begin([]);
        let [mut finer, mut by_rule, mut again] = [(); 3].map(|()| Decided::default());
        assert_eq!(units.decide("a", unit("s"), true, &mut finer).name(), "us");
        units.note_of_rule("a", unit("ms"), &mut by_rule);
        let ms = vec![("a".into(), unit("ms"))];
        assert_eq!(units.unsaved(), [ms.clone(), vec![]]);
        if is_kept {
            units.kept(&units.unsaved());
        }
        drop((by_rule, finer));
        assert!(!units.has_of_rule("a", unit("ms")) && units.unsaved() == [vec![], vec![]]);
        units.note_of_rule("a", unit("ms"), &mut again);
        assert_eq!(units.unsaved(), [vec![], if is_kept { ms } else { vec![] }]);
        units.kept(&units.unsaved());
        again.stays(true);
        drop(again);
        assert_eq!(decide(&units, "a", unit("s"), true, false).name(), "ms");
    }
}

/// As behind a start, which would find no finer one.
#[test]
fn what_was_beside_a_refused_one_decides() {
    for is_taken in [false, true] {
        let units = Arc::new(Units::default());
        units.begin([]);
        let [mut finer, mut by_rule] = [(); 2].map(|()| Decided::default());
        units.decide("a", unit("s"), true, &mut finer);
        units.note_of_rule("a", unit("ms"), &mut by_rule);
        units.kept(&units.unsaved());
        by_rule.stays(true);
        // It may be taken before the other one is refused, or behind that.
        let (first, last) = if is_taken { (by_rule, finer) } else { (finer, by_rule) };
        drop(first);
        drop(last);
        assert!(units.has("a", unit("ms")) && units.has_unkept());
        assert_eq!(units.unsaved(), [vec![], vec![("a".into(), unit("ms"))]]);
        assert_eq!(decide(&units, "a", unit("s"), true, false).name(), "ms");
    }
}

#[test]
fn a_shard_decides_by_what_it_has_and_else_as_the_others_here() {
    let all = Arc::new(Units::default());
    let shard = || Arc::new(Units::of_shard(all.clone()));
    let (one, other) = (shard(), shard());
    assert!(one.number > 0 && other.number > one.number);
    let decide =
        |units: &Arc<Units>, own, has_doubles| decide(units, "a", unit(own), has_doubles, true).name();
    assert_eq!(decide(&one, "s", true), "us");
    assert_eq!(decide(&other, "s", false), "us", "as the first one");
    // It comes back from an instance where it was taken otherwise.
    let back = shard();
    back.note("a", unit("s"));
    assert_eq!(decide(&back, "s", true), "s");
    assert_eq!([decide(&one, "s", false), decide(&other, "s", true)], ["us", "us"]);
    // What another shard has since been found to have changes nothing of a shard that has decided.
    let late = shard();
    late.note("a", unit("ms"));
    assert_eq!(["s", "ms"].map(|own| decide(&one, own, false)), ["us", "us"]);
    assert_eq!(["s", "ms"].map(|own| decide(&back, own, false)), ["s", "ms"]);
}

#[test]
fn there_is_a_bound_for_names() {
    let units = Arc::new(Units::default());
    units.write().taken = MOST - 2 * (ENTRY + 1);
    let decide = |metric| decide(&units, metric, unit("s"), true, true).name();
    assert_eq!(["a", "b", "c", "a", "c"].map(decide), ["us", "us", "s", "us", "s"]);
}
