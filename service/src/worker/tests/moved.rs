//! A shard whose files are in a store: another instance takes it over at each call of the shard store, one after
//! another, and has exactly what was answered. Senders retry what got no answer.

use super::cumulative::{self, text, BEGIN};
use super::*;
use crate::ingest::{Budget, Ingest};
use crate::otlp::series::{forwarded, Value};
use crate::otlp::{Encoding, Original, Reason, Resources};
use crate::shard::Shards;
use crate::storage::shard_store::memory::{Owner, Step, Store};
use crate::storage::shard_store::{self, fenced};
use crate::storage::{Fault, ShardStore};
use std::collections::BTreeMap;
use std::io;
use std::sync::atomic::AtomicU64;

const EPOCH: &str = "00000000000000aa";

/// The steps, one after another.
#[derive(Clone, Copy, Debug)]
enum Act {
    /// Posts the next delta point of a sender's series.
    Delta(&'static str),
    /// Posts a point of A's run with this value.
    Run(i64),
    Checkpoint,
    Quarantine,
    Lift,
    Deliver,
}

use Act::{Checkpoint, Deliver, Delta, Lift, Quarantine, Run as OfRun};

const ACTS: [Act; 24] = [
    Delta("A"),
    OfRun(5),
    Delta("B"),
    Checkpoint,
    Deliver,
    Delta("A"),
    Delta("B"),
    Quarantine,
    OfRun(9),
    Checkpoint,
    Delta("A"),
    Deliver,
    Lift,
    Delta("B"),
    OfRun(11),
    Checkpoint,
    Delta("B"),
    Quarantine,
    Checkpoint,
    Deliver,
    Lift,
    Delta("A"),
    Checkpoint,
    Deliver,
];

/// How the owner loses the shard.
#[derive(Clone, Copy, Debug)]
enum How {
    /// The call itself fails.
    Told,
    /// The next sync fails.
    Unseen,
}

/// The instance that owns the shard, and everything that came of it.
struct World {
    run: Option<Run>,
    /// The next owner, once there is one.
    next: Next,
    moves: u64,
    sink: BTreeMap<(String, u64), Vec<u8>>,
    points: BTreeMap<&'static str, u64>,
    time: u64,
}

/// The shard is fenced: the step got no answer.
struct Moved;

impl World {
    fn is_taken(&self) -> bool {
        self.next.lock().unwrap().is_some()
    }

    /// The instance that owns the shard now.
    async fn begun(&mut self) {
        while self.run.is_none() {
            let owner = self.next.lock().unwrap().take().unwrap();
            self.run = began(owner).await;
            self.moves += 1;
        }
    }

    async fn act(&mut self, act: Act) {
        for tries in 0.. {
            self.begun().await;
            let was_taken = self.is_taken();
            match self.tried(act, tries > 0).await {
                Ok(()) => {
                    let may_be = matches!(act, Deliver); // the same under the same key
                    assert!(!was_taken || may_be, "{act:?} was answered after the loss");
                    return;
                }
                Err(Moved) => self.move_on().await,
            }
        }
    }

    /// The former instance has ended this shard and nothing else.
    async fn move_on(&mut self) {
        let run = self.run.take().unwrap();
        let ended = run.running.await.unwrap();
        assert!(matches!(ended, Err(WorkerError::Fenced(_))), "{ended:?}");
        assert_eq!(run.shard.unavailable(), Some(Reason::ShardMoves));
        let late = run.shard.post("C".into(), point("c", 1).into()).await;
        assert_eq!(late, Reason::ShardMoves.into());
    }

    async fn tried(&mut self, act: Act, again: bool) -> Result<(), Moved> {
        let run = self.run.as_ref().unwrap();
        match act {
            Delta(sender) => {
                let number = self.points.entry(sender).or_default();
                let body = point(sender, *number + 1);
                match answered(run.shard.post(sender.into(), body.into()).await)? {
                    (200, _) => {}
                    other => panic!("{act:?}: {other:?}"),
                }
                *number += 1;
            }
            OfRun(value) => {
                let points = [cumulative::point("m", BEGIN, BEGIN + value as u64, value)];
                let by = run.shard.numbered_text(&text(&points, 2).into()).unwrap().unwrap();
                let outcome = run.shard.request("A".into(), by.into()).await;
                assert_eq!(answered(outcome)?.0, 200);
                self.time = self.time.max(value as u64);
            }
            Checkpoint => drop(run.orders.send(Order::Checkpoint).await.ok_or(Moved)?),
            Quarantine | Lift => {
                let order = match act {
                    Lift => Order::Lift("B".into()),
                    _ => Order::Quarantine("B".into()),
                };
                match run.orders.send(order).await.ok_or(Moved)? {
                    Done::Answered(outcome) if outcome.status() == 200 => {}
                    // The first try was durable.
                    Done::Answered(outcome) if again && outcome.status() == 400 => {}
                    other => panic!("{act:?}: {other:?}"),
                }
            }
            Deliver => self.deliver().await.map_err(|fault| match fault {
                Fault::Fenced(_) => Moved,
                fault => panic!("{fault}"),
            })?,
        }
        Ok(())
    }

    async fn deliver(&mut self) -> Result<(), Fault> {
        let outbox = self.run.as_ref().unwrap().shard.outbox.clone();
        while outbox.waiting().0 > 0 {
            let (waiting, body) = outbox.first().await?;
            if !outbox.may_deliver(waiting.number) {
                outbox.sync()?;
            }
            let known = self.sink.insert((outbox.epoch(), waiting.number), body.clone());
            assert!(known.is_none_or(|known| known == body), "another body under one key");
            outbox.acknowledge(waiting.number)?;
        }
        Ok(())
    }

    fn sums(&self) -> BTreeMap<String, i64> {
        let mut sums = BTreeMap::new();
        for point in self.sink.values().flat_map(|body| forwarded(body).unwrap()) {
            let Value::Sum(value) = point.value else { panic!("{point:?}") };
            *sums.entry(point.series.parts().unwrap().name).or_default() += value;
        }
        sums
    }
}

/// Status and text; an error if the shard is fenced.
fn answered(outcome: Outcome) -> Result<(u16, String), Moved> {
    let why = outcome.refusal().unwrap_or_default().to_string();
    match outcome.reason() {
        Some(Reason::ShardMoves) => Err(Moved),
        _ => Ok((outcome.status(), why)),
    }
}

/// An instance that takes posts; none if it lost the shard before.
async fn began(owner: Arc<dyn ShardStore>) -> Option<Run> {
    let (journal, outbox, _dead) = match shard_store::open(owner, EPOCH) {
        Err(Fault::Fenced(_)) => return None,
        opened => opened.unwrap(),
    };
    let run = Run::over(journal, outbox, settings());
    while !run.shard.is_ready() {
        if run.running.is_finished() {
            let ended = run.running.await.unwrap();
            assert!(matches!(ended, Err(WorkerError::Fenced(_))), "{ended:?}");
            return None;
        }
        tokio::time::sleep(Duration::from_millis(1)).await;
    }
    Some(run)
}

/// The next owner of the shard, as soon as there is one.
type Next = Arc<Mutex<Option<Arc<Owner>>>>;

/// An owner that loses the shard at its call of this number. The next one loses it `more` calls later, if that is
/// given.
fn losing(store: &Arc<Store>, next: &Next, call: u64, more: Option<u64>, how: How) -> Arc<Owner> {
    let (calls, of_store, of_next) = (AtomicU64::new(0), store.clone(), next.clone());
    store.take_with(move |_: Step| -> io::Result<()> {
        if calls.fetch_add(1, SeqCst) != call {
            return Ok(());
        }
        let taken = match more {
            Some(more) => losing(&of_store, &of_next, call + more, Some(more), how),
            None => of_store.take(),
        };
        *of_next.lock().unwrap() = Some(taken);
        match how {
            How::Told => Err(fenced()),
            How::Unseen => Ok(()),
        }
    })
}

/// Does all steps with a shard store that loses the shard at its call of this number; returns how often the shard moved.
async fn lose_at(call: u64, more: Option<u64>, how: How) -> u64 {
    let (store, next) = (Arc::new(Store::default()), Next::default());
    let run = began(losing(&store, &next, call, more, how)).await;
    let (sink, points, time) = Default::default();
    let mut world = World { run, next, moves: 0, sink, points, time };
    for act in ACTS {
        world.act(act).await;
    }
    let mut wanted: BTreeMap<String, i64> = BTreeMap::new();
    for (name, points) in &world.points {
        wanted.insert(name.to_string(), *points as i64);
    }
    wanted.insert("m".into(), world.time as i64);
    assert_eq!(world.sums(), wanted, "call {call}, {how:?}");
    let run = world.run.take().unwrap();
    for kind in ["replay", "owner"] {
        let faults = run.shard.metrics.faults.with_label_values(&[kind]);
        assert_eq!(faults.get(), 0, "{kind}, call {call}, {how:?}");
    }
    world.moves + u64::from(world.is_taken())
}

/// As many at once as there usually are processors.
const AT_ONCE: u64 = 4;

/// Tries all calls; returns up to which.
async fn lose_at_each(how: How) -> u64 {
    for first in (0..).step_by(AT_ONCE as usize) {
        let calls = first..first + AT_ONCE;
        let runs: Vec<_> = calls.map(|call| tokio::spawn(lose_at(call, None, how))).collect();
        let mut was_there = true;
        for run in runs {
            was_there &= run.await.unwrap() > 0;
        }
        if !was_there {
            return first;
        }
    }
    0
}

#[tokio::test(flavor = "multi_thread", worker_threads = 4)]
async fn what_was_answered_is_there_for_who_takes_the_shard_at_any_call_that_says_so() {
    let calls = lose_at_each(How::Told).await;
    assert!(calls > 100, "{calls}");
}

#[tokio::test(flavor = "multi_thread", worker_threads = 4)]
async fn what_was_answered_is_there_for_who_takes_the_shard_unseen() {
    let calls = lose_at_each(How::Unseen).await;
    assert!(calls > 100, "{calls}");
}

/// Even while the next owner opens its files and fills its book.
#[tokio::test(flavor = "multi_thread", worker_threads = 4)]
async fn what_was_answered_is_there_over_many_owners() {
    for how in [How::Told, How::Unseen] {
        for more in 1..8 {
            let moves = lose_at(0, Some(more), how).await;
            assert!(moves > 3, "{moves} moves, {more}, {how:?}");
        }
    }
}

/// An instance whose syncs stall while the flag is set.
async fn stalling(store: &Arc<Store>) -> (Run, Arc<AtomicBool>) {
    let stalls = Arc::new(AtomicBool::new(false));
    let is_on = stalls.clone();
    let owner = store.take_with(move |step| {
        while step == Step::Sync && is_on.load(SeqCst) {
            std::thread::sleep(Duration::from_millis(1));
        }
        Ok(())
    });
    (began(owner).await.unwrap(), stalls)
}

/// The instance that forwarded a post gets the outcome only once the store has it; if the shard is fenced by then, it is
/// told to retry.
#[tokio::test(flavor = "multi_thread", worker_threads = 4)]
async fn what_was_forwarded_waits_for_the_store_too() {
    let store = Arc::new(Store::default());
    let (run, stalls) = stalling(&store).await;
    let shards = Shards::several(Resources::new(1, Arc::default()), None);
    shards.set(0, Some(run.shard.clone()));
    let (budget, metrics) = (Budget::new(8 << 20), run.shard.metrics.clone());
    let ingest = Ingest::of(shards, Arc::new(()), Arc::default(), budget, metrics);
    stalls.store(true, SeqCst);
    let part = Original { encoding: Encoding::Json, body: point("a", 1).into() };
    let forwarded = tokio::spawn(async move { ingest.forwarded(0, "A", part).await });
    while run.shard.ungrouped() == 0 {
        tokio::time::sleep(Duration::from_millis(1)).await;
    }
    tokio::time::sleep(Duration::from_millis(50)).await;
    let waits = !forwarded.is_finished();
    store.take();
    stalls.store(false, SeqCst);
    let told = forwarded.await.unwrap().unwrap();
    assert!(waits, "{told:?}");
    assert_eq!(told, Reason::ShardMoves.into());
}

/// A store may take long, and posts are put into the book meanwhile; later ones are refused at once.
#[tokio::test(flavor = "multi_thread", worker_threads = 4)]
async fn nobody_waits_for_the_store_with_the_lock_of_the_book() {
    let (run, stalls) = stalling(&Arc::default()).await;
    assert_eq!(run.post(1).await, Outcome::taken(0));
    stalls.store(true, SeqCst);
    let (orders, shard) = (run.orders.clone(), run.shard.clone());
    let checkpoint = tokio::spawn(async move { orders.send(Order::Checkpoint).await });
    while run.shard.outbox.waiting().0 == 0 {
        tokio::time::sleep(Duration::from_millis(1)).await;
    }
    let post = tokio::spawn(async move { shard.post("A".into(), point("a", 2).into()).await });
    let began = Instant::now();
    while run.shard.ungrouped() == 0 || run.shard.unavailable().is_none() {
        assert!(began.elapsed() < Duration::from_secs(10), "it waits for the store");
        tokio::time::sleep(Duration::from_millis(5)).await;
    }
    let shown = (run.shard.unavailable(), run.shard.outbox.may_deliver(1));
    let wait = !post.is_finished() && !checkpoint.is_finished();
    stalls.store(false, SeqCst);
    assert!(wait && shown == (Some(Reason::StoreSilent), false), "{shown:?}");
    assert_eq!(post.await.unwrap(), Outcome::taken(0));
    assert_eq!(checkpoint.await.unwrap(), Some(Done::Flushed { requests: 1 }));
    assert_eq!(run.flush().await, 1);
    run.end().await;
}

/// Afterwards another instance has the shard: a durable post would be answered 503, and its retry 400.
#[tokio::test(flavor = "multi_thread", worker_threads = 4)]
async fn who_waits_is_answered_before_the_shard_is_handed_over() {
    let (store, is_held) = (Arc::new(Store::default()), Arc::new(AtomicBool::new(false)));
    let held = is_held.clone();
    let owner = store.take_with(move |step| {
        // Only the journal's thread: the checkpoint is durable before it.
        let is_its = step == Step::Sync && std::thread::current().name() == Some("journal");
        while is_its && held.load(SeqCst) {
            std::thread::sleep(Duration::from_millis(1));
        }
        Ok(())
    });
    let run = began(owner).await.unwrap();
    is_held.store(true, SeqCst);
    let shard = run.shard.clone();
    let post = tokio::spawn(async move { post_of(&shard, 1).await });
    while run.shard.ungrouped() == 0 {
        tokio::time::sleep(Duration::from_millis(1)).await;
    }
    let shard = run.shard.clone();
    let mut handing_over = tokio::spawn(run.end());
    while shard.outbox.waiting().0 == 0 {
        tokio::time::sleep(Duration::from_millis(1)).await;
    }
    let handed_over = tokio::time::timeout(Duration::from_millis(200), &mut handing_over).await.is_ok();
    if handed_over {
        store.take();
    }
    is_held.store(false, SeqCst);
    assert_eq!(post.await.unwrap(), Outcome::taken(0), "handed over before: {handed_over}");
    handing_over.await.unwrap();
}
