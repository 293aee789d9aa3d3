//! Tests that hours are kept apart over checkpoints, quarantines, kills and starts: by hour, the sums are those of the
//! posts.

use crate::numbered::{points, post_by_number, Chance};
use crate::support::{all, message, sums, text, Place, Run};
use std::collections::{BTreeMap, BTreeSet};
use std::sync::Arc;
use std::time::{Duration, SystemTime, UNIX_EPOCH};
use totxegun::otlp::series::{forwarded, Value};
use totxegun::otlp::{Outcome, Reading};
use totxegun::outbox::Outbox;
use totxegun::worker::{Done, Order};

const HOUR: u64 = 3_600_000_000_000;
const SENDERS: u64 = 3;
const SERIES: u64 = 4;

/// By the metric's name and the hour in which a point ends.
type Sums = BTreeMap<(String, u64), i64>;

/// Takes all that waits, like a sink. The intervals of a series have to follow one another, each within an hour.
async fn deliver(outbox: &Outbox, sums: &mut Sums, last: &mut BTreeMap<String, u64>) {
    while outbox.waiting().0 > 0 {
        let (waiting, body) = outbox.first().await.unwrap();
        for point in forwarded(&body).unwrap() {
            let Value::Sum(value) = point.value else { panic!("{point:?}") };
            let name = point.series.parts().unwrap().name;
            let hour = (point.end - 1) / HOUR;
            assert_eq!(point.start / HOUR, hour, "a span of two hours: {point:?}");
            let before = last.insert(name.clone(), point.end).unwrap_or(0);
            assert!(before <= point.start, "{name}: {before}, then {}", point.start);
            *sums.entry((name, hour)).or_default() += value;
        }
        outbox.acknowledge(waiting.number).unwrap();
    }
}

#[derive(Default)]
struct Model {
    /// The end of each series.
    ends: BTreeMap<String, u64>,
    sums: Sums,
    quarantined: BTreeSet<String>,
    lumps: usize,
}

impl Model {
    /// Draws one point of a series, or one for each of several hours. Points begin a second before they end.
    fn draw(&mut self, sender: &str, chance: &mut Chance) -> Vec<(String, u64, u64, i64)> {
        let hours = match chance.below(4) {
            0 => 2 + chance.below(24),
            _ => 1,
        };
        self.lumps += usize::from(hours > 1);
        let mut post = Vec::new();
        for number in 0..1 + chance.below(SERIES) {
            let name = format!("{sender}-{number}");
            let mut end = self.ends.get(&name).copied().unwrap_or(HOUR * (1 + chance.below(9)));
            for _ in 0..hours {
                end += 1_000_000_000 * (2 + chance.below(if hours > 1 { 4000 } else { 900 }));
                if (end - 1_000_000_000) / HOUR != (end - 1) / HOUR {
                    end += 1_000_000_000; // otherwise the point itself would span two hours
                }
                post.push((name.clone(), end - 1_000_000_000, end, 1 + chance.below(50) as i64));
            }
        }
        post
    }

    async fn post(&mut self, run: &Run, chance: &mut Chance, reading: &Arc<Reading>) {
        let sender = format!("s{}", chance.below(SENDERS));
        let post = self.draw(&sender, chance);
        let outcome = match chance.below(2) {
            0 => post_by_number(run, &sender, points(&post), reading).await,
            _ => run.shard.post(sender.clone(), text(&post)).await,
        };
        if self.quarantined.contains(&sender) {
            assert_eq!(message(&outcome), (403, "quarantined"));
            return;
        }
        assert_eq!(outcome, all(), "{post:?}");
        for (name, _, end, value) in post {
            *self.sums.entry((name.clone(), (end - 1) / HOUR)).or_default() += value;
            self.ends.insert(name, end);
        }
    }

    async fn change_quarantine(&mut self, run: &Run, sender: String) {
        let order = match self.quarantined.remove(&sender) {
            true => Order::Lift(sender),
            false => {
                self.quarantined.insert(sender.clone());
                Order::Quarantine(sender)
            }
        };
        let done = run.order(order).await;
        assert!(matches!(&done, Done::Answered(Outcome::Taken { .. })), "{done:?}");
    }
}

#[tokio::test(flavor = "multi_thread")]
async fn each_hour_has_what_was_posted_of_it() {
    for seed in 0..3 {
        let (place, mut chance, mut model) = (Place::new(), Chance(seed), Model::default());
        let (mut found, mut last) = (Sums::new(), BTreeMap::new());
        let reading = Arc::new(Reading::default());
        let mut run = place.run().await;
        for _ in 0..250 {
            match chance.below(24) {
                0 => drop(run.checkpoint().await),
                1 => {
                    run.abort().await;
                    run = place.run().await;
                }
                2 => deliver(&run.outbox, &mut found, &mut last).await,
                3 => {
                    let sender = format!("s{}", chance.below(SENDERS));
                    model.change_quarantine(&run, sender).await;
                }
                _ => model.post(&run, &mut chance, &reading).await,
            }
        }
        for sender in model.quarantined.clone() {
            model.change_quarantine(&run, sender).await;
        }
        run.checkpoint().await;
        deliver(&run.outbox, &mut found, &mut last).await;
        assert!(model.lumps > 20);
        assert_eq!(found, model.sums, "seed {seed}");
        let faults = String::from_utf8(run.metrics.page()).unwrap();
        let is_fault = |line: &&str| line.starts_with("totxegun_faults_total") && !line.ends_with(" 0");
        assert_eq!(faults.lines().filter(is_fault).collect::<Vec<_>>(), [""; 0]);
        run.stop().await;
    }
}

/// Otherwise each right point of its series would be refused until that time has come.
#[tokio::test(flavor = "multi_thread")]
async fn a_point_of_a_clock_ahead_is_left_out() {
    const SECOND: u64 = 1_000_000_000;
    const YEAR: u64 = 365 * 24 * HOUR;
    let mut place = Place::new();
    place.clock.max_ahead = Some(Duration::from_secs(600));
    place.clock.max_age = Some(Duration::from_secs(86_400));
    let reading = Arc::new(Reading::default());
    let since = SystemTime::now().duration_since(UNIX_EPOCH).unwrap();
    // Within an hour.
    let now = since.as_nanos() as u64 / HOUR * HOUR - 60 * SECOND;
    let point = |name: &str, end: u64| (name.to_string(), end - SECOND, end, 5);
    let run = place.run().await;
    let post = [
        point("a", now),
        point("a", now + YEAR),
        point("b", now - YEAR),
        point("c", now),
        point("c", now + YEAR),
    ];
    match post_by_number(&run, "s", points(&post), &reading).await {
        Outcome::Taken { rejected, off, .. } => assert_eq!((rejected, off.ahead, off.behind), (3, 2, 1)),
        other => panic!("{other:?}"),
    }
    let next = points(&[point("a", now + 2 * SECOND), point("b", now), point("c", now + 2 * SECOND)]);
    assert_eq!(post_by_number(&run, "s", next.clone(), &reading).await, all());
    // The indexes of refused points are those in the request.
    let other = points(&[point("d", now + YEAR), point("d", now), point("a", now + 4 * SECOND)]);
    let refused = post_by_number(&run, "t", other, &reading).await;
    let Outcome::Taken { rejected, parts, .. } = &refused else { panic!("{refused:?}") };
    assert_eq!((*rejected, parts.len()), (2, 1), "one is off by its clock");
    assert!(parts[0].1.message.starts_with("other writer: point 2: `a` {} "), "{refused:?}");
    run.abort().await;
    // A replay looks at no clock.
    place.clock.max_age = Some(Duration::from_nanos(1));
    let run = place.run().await;
    place.clock.max_age = None;
    let taken = run.stop().await;
    assert_eq!(sums(&taken), [("a", 10), ("b", 5), ("c", 10), ("d", 5)]);
    let run = place.run().await;
    assert_eq!(post_by_number(&run, "s", next, &reading).await, all(), "a repeat");
    run.stop().await;
}
