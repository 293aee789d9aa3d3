//! What becomes of requests, with a sink that follows a script and files in memory.

use super::*;
use crate::outbox::{Epochs, Waiting};
use crate::sink::{AheadOfOutbox, Answer, Keys};
use crate::storage::{Fenced, Tenure};
use std::collections::VecDeque;

mod epochs;
mod files;
mod held;
mod lost;
mod several;

/// Answers with these fates, and then always `Taken`.
#[derive(Default)]
struct Script {
    fates: Mutex<VecDeque<DeliveryOutcome>>,
    came: Mutex<Vec<Forwarded>>,
    at: Mutex<Vec<Instant>>,
    /// Its answers about epochs; after these, that it has nothing beyond.
    beyond: Mutex<VecDeque<Result<AheadOfOutbox, DeliveryOutcome>>>,
    asked: Mutex<u64>,
    held: Keys,
}

impl Sink for Script {
    fn deliver_of<'a>(
        &'a self,
        request: &'a Forwarded,
        _tenure: Option<&'a Tenure>,
    ) -> Answer<'a, DeliveryOutcome> {
        self.came.lock().expect("came").push(request.clone());
        self.at.lock().expect("at").push(Instant::now());
        let fate = self.fates.lock().expect("fates").pop_front().unwrap_or(DeliveryOutcome::Taken);
        Box::pin(async move { fate })
    }

    fn goes_on<'a>(
        &'a self,
        shard: u16,
        _epochs: &'a Epochs,
    ) -> Answer<'a, Result<AheadOfOutbox, DeliveryOutcome>> {
        assert_eq!(shard, 2);
        *self.asked.lock().expect("asked") += 1;
        let beyond = self.beyond.lock().expect("beyond").pop_front().unwrap_or(Ok(AheadOfOutbox::default()));
        Box::pin(std::future::ready(beyond))
    }

    fn name(&self) -> String {
        "script".into()
    }

    fn keys(&self) -> &Keys {
        &self.held
    }
}

type DeadLetter = (String, String, Vec<u8>);

/// The waiting requests are in memory. A fault ends a delivery, so a test ends it by running out of requests.
#[derive(Default)]
struct Memory {
    /// Set during a call on a file, which then goes on for a while.
    stop: Option<watch::Sender<bool>>,
    waiting: Mutex<VecDeque<u64>>,
    dead: Mutex<Vec<DeadLetter>>,
    acknowledged: Mutex<Vec<u64>>,
    dead_fails: bool,
    /// How often the disk has no room for a dead letter.
    full: Mutex<u64>,
    acknowledge_fails: bool,
    /// Set when another instance owns the shard.
    lost: Option<watch::Receiver<bool>>,
    term: Option<u64>,
    /// How often we are still found to own the shard, if that ends.
    ours: Option<Mutex<u64>>,
    /// Set when it is proven that we own the shard.
    sure: Option<watch::Receiver<bool>>,
}

fn fault() -> Fault {
    Fault::Io { path: "f".into(), source: std::io::Error::other("broken") }
}

impl Memory {
    async fn change(&self) {
        if let Some(stop) = &self.stop {
            stop.send_replace(true);
            tokio::time::sleep(Duration::from_millis(20)).await;
        }
    }
}

impl Store for &Memory {
    fn epoch(&self) -> String {
        "e".into()
    }

    fn tenure(&self) -> Option<Tenure> {
        Some(Tenure { term: self.term?, epoch: "e".into() })
    }

    fn epochs(&self) -> Epochs {
        Epochs::default()
    }

    async fn first(&self) -> Result<(Waiting, Vec<u8>), Fault> {
        match self.waiting.lock().expect("waiting").front() {
            Some(number) => {
                Ok((Waiting { number: *number, since: 0 }, format!("body {number}").into_bytes()))
            }
            None => Err(fault()),
        }
    }

    async fn may_deliver(&self, _number: u64) -> Result<(), Fault> {
        if let Some(mut sure) = self.sure.clone() {
            sure.wait_true().await;
        }
        let Some(ours) = &self.ours else {
            return Ok(());
        };
        let mut ours = ours.lock().expect("ours");
        *ours = ours.checked_sub(1).ok_or(Fenced)?;
        Ok(())
    }

    async fn behind_first(&self, most: usize, _bytes: usize) -> Vec<(u64, Vec<u8>)> {
        let waiting = self.waiting.lock().expect("waiting");
        let behind = waiting.iter().skip(1).take(most);
        behind.map(|number| (*number, format!("body {number}").into_bytes())).collect()
    }

    async fn fenced(&self) -> Fenced {
        match self.lost.clone() {
            Some(mut lost) => lost.wait_true().await,
            None => std::future::pending().await,
        }
        Fenced
    }

    async fn acknowledge(&self, number: u64) -> Result<(), Fault> {
        self.change().await;
        if self.acknowledge_fails {
            return Err(fault());
        }
        assert_eq!(self.waiting.lock().expect("waiting").pop_front(), Some(number));
        self.acknowledged.lock().expect("acknowledged").push(number);
        Ok(())
    }

    async fn keep(&self, key: String, reason: String, body: Vec<u8>) -> Result<bool, Fault> {
        self.change().await;
        if self.dead_fails {
            return Err(fault());
        }
        let mut full = self.full.lock().expect("full");
        if let Some(left) = full.checked_sub(1) {
            *full = left;
            return Ok(false);
        }
        self.dead.lock().expect("dead").push((key, reason, body));
        Ok(true)
    }

    async fn let_go(&self, key: String, body: Vec<u8>) -> Result<(), Fault> {
        let is_it = |(kept, _, of): &(String, String, Vec<u8>)| *kept == key && *of == body;
        self.dead.lock().expect("dead").retain(|letter| !is_it(letter));
        Ok(())
    }
}

struct Tried {
    sink: Arc<Script>,
    metrics: Arc<Metrics>,
    attempts: Arc<Attempts>,
}

fn again(after: Option<Duration>) -> DeliveryOutcome {
    DeliveryOutcome::Again { reason: "busy".into(), after }
}

/// Delivers everything that waits.
async fn run(memory: &Memory, fates: Vec<DeliveryOutcome>) -> Tried {
    let (_never, stop) = watch::channel(false);
    let (tried, end) = run_until(memory, fates, stop).await;
    assert!(end.is_err(), "it ends by a fault alone");
    tried
}

/// Delivers everything that waits, or until it is told to stop.
async fn run_until(
    memory: &Memory,
    fates: Vec<DeliveryOutcome>,
    stop: watch::Receiver<bool>,
) -> (Tried, Result<(), Fault>) {
    let sink = Arc::new(Script { fates: Mutex::new(fates.into()), ..Script::default() });
    run_at(sink, memory, stop).await
}

async fn run_at(
    sink: Arc<Script>,
    memory: &Memory,
    stop: watch::Receiver<bool>,
) -> (Tried, Result<(), Fault>) {
    let run = prepared(sink.clone(), memory, stop);
    let end = run.until_it_ends().await;
    (Tried { sink, metrics: run.metrics, attempts: run.attempts }, end)
}

fn prepared(sink: Arc<Script>, memory: &Memory, stop: watch::Receiver<bool>) -> Run<&Memory> {
    Run {
        shard: 2,
        files: memory,
        sink,
        metrics: Arc::new(Metrics::new().expect("metrics")),
        attempts: Arc::default(),
        is_told: AtomicBool::new(false),
        failing: Duration::from_millis(400),
        unsure: Duration::from_millis(50),
        stop,
    }
}

fn waiting(numbers: impl IntoIterator<Item = u64>) -> Memory {
    Memory { waiting: Mutex::new(numbers.into_iter().collect()), ..Memory::default() }
}

impl Tried {
    fn keys(&self) -> Vec<String> {
        self.sink.came.lock().expect("came").iter().map(Forwarded::key).collect()
    }

    fn outcome(&self, outcome: &str) -> u64 {
        self.metrics.deliveries.with_label_values(&[outcome]).get()
    }
}

#[tokio::test]
async fn requests_go_in_order() {
    let memory = waiting([5, 6, 9]);
    let tried = run(&memory, vec![]).await;
    assert_eq!(tried.keys(), ["2-e-5", "2-e-6", "2-e-9"]);
    assert_eq!(*memory.acknowledged.lock().expect("acknowledged"), [5, 6, 9]);
    assert_eq!((tried.outcome("taken"), tried.outcome("again"), tried.outcome("refused")), (3, 0, 0));
}

#[tokio::test]
async fn a_request_is_sent_again_unchanged_before_the_next() {
    let memory = waiting([1, 2]);
    let tried = run(&memory, vec![again(None), again(None)]).await;
    assert_eq!(tried.keys(), ["2-e-1", "2-e-1", "2-e-1", "2-e-2"]);
    let came = tried.sink.came.lock().expect("came");
    assert!(came[..3].iter().all(|request| *request == came[0]));
    assert_eq!((tried.outcome("taken"), tried.outcome("again")), (2, 2));
    assert_eq!(tried.attempts.state(), Delivery::default(), "no trouble is left");
}

#[tokio::test]
async fn what_a_sink_asks_for_is_waited() {
    let memory = waiting([1]);
    let tried = run(&memory, vec![again(Some(Duration::from_millis(400)))]).await;
    let at = tried.sink.at.lock().expect("at");
    assert!(at[1] - at[0] >= Duration::from_millis(400), "{:?}", at[1] - at[0]);
}

#[tokio::test]
async fn trouble_is_told_while_it_lasts_and_a_stop_ends_the_wait() {
    let (stop, told) = watch::channel(false);
    let memory = waiting([1]);
    let ((tried, end), ()) =
        tokio::join!(run_until(&memory, vec![again(Some(Duration::from_secs(60)))], told), async move {
            tokio::time::sleep(Duration::from_millis(200)).await;
            stop.send_replace(true);
        });
    assert!(end.is_ok());
    assert_eq!(tried.keys(), ["2-e-1"]);
    let state = tried.attempts.state();
    assert_eq!((state.trouble.as_deref(), state.tries), (Some("busy"), 1));
    let next = state.next_try.expect("it waits").saturating_sub(log::seconds());
    assert!((55..=60).contains(&next), "{next}");
    assert!(memory.acknowledged.lock().expect("acknowledged").is_empty());
}

fn away() -> DeliveryOutcome {
    DeliveryOutcome::Away { reason: "refused".into() }
}

/// However long it was away: otherwise a sink that is back would get nothing for a minute.
#[tokio::test]
async fn a_sink_that_is_away_is_asked_again_soon() {
    let memory = waiting([1, 2]);
    let tried = run(&memory, (0..20).map(|_| away()).collect()).await;
    assert_eq!((tried.outcome("again"), tried.outcome("taken")), (20, 2));
    let at = tried.sink.at.lock().expect("at");
    let last = at[20] - at[19];
    assert!(last < Duration::from_secs(10), "{last:?}: as of one that is busy");
}

/// The `flush` command does this: whoever has fixed the sink need not wait.
#[tokio::test]
async fn who_hurries_a_delivery_has_it_tried_at_once() {
    for fate in [
        again(Some(Duration::from_secs(600))),
        DeliveryOutcome::Failed { reason: "500".into(), after: Some(Duration::from_secs(600)) },
    ] {
        let memory = waiting([1]);
        let (_never, stop) = watch::channel(false);
        let fates = Mutex::new([fate].into());
        let run = prepared(Arc::new(Script { fates, ..Script::default() }), &memory, stop);
        let hurrying = async {
            while run.attempts.state().next_try.is_none() {
                tokio::time::sleep(Duration::from_millis(5)).await;
            }
            run.attempts.retry_now();
        };
        let both = async { tokio::join!(run.until_it_ends(), hurrying) };
        let (end, ()) = timeout(Duration::from_secs(20), both).await.expect("it was tried");
        assert!(end.is_err(), "it ends by a fault alone");
        assert_eq!(*memory.acknowledged.lock().expect("acknowledged"), [1]);
        assert_eq!(run.attempts.state(), Delivery::default());
    }
}

#[tokio::test]
async fn what_is_refused_is_kept_and_the_next_goes_on() {
    let memory = waiting([1, 2]);
    let tried = run(&memory, vec![again(None), DeliveryOutcome::refused("400")]).await;
    let dead = memory.dead.lock().expect("dead");
    assert_eq!(*dead, [("2-e-1".to_string(), "400".to_string(), b"body 1".to_vec())]);
    assert_eq!(*memory.acknowledged.lock().expect("acknowledged"), [1, 2]);
    assert_eq!((tried.outcome("taken"), tried.outcome("again"), tried.outcome("refused")), (1, 1, 1));
}

/// A sink that is down for a moment takes the request later; one that never can is not asked forever.
#[tokio::test]
async fn what_a_sink_fails_at_is_sent_again_for_a_while() {
    let failed_for = |after| DeliveryOutcome::Failed { reason: "500".into(), after };
    let failed = || failed_for(None);
    let memory = waiting([1]);
    let (begun, asked) = (std::time::Instant::now(), Duration::from_millis(700));
    run(&memory, vec![failed_for(Some(asked))]).await;
    assert!(begun.elapsed() >= asked, "it came back too early");
    let memory = waiting([1]);
    let tried = run(&memory, vec![failed(), failed()]).await;
    assert_eq!((tried.outcome("taken"), tried.outcome("again")), (1, 2));
    assert!(memory.dead.lock().expect("dead").is_empty());
    let memory = waiting([1, 2]);
    let before = vec![failed(), again(Some(Duration::from_millis(500)))];
    let fates = before.into_iter().chain((0..100).map(|_| failed()));
    let tried = run(&memory, fates.collect()).await;
    let dead: Vec<String> = memory.dead.lock().expect("dead").iter().map(|letter| letter.0.clone()).collect();
    assert_eq!(dead, ["2-e-1", "2-e-2"]);
    let of_first = tried.keys().iter().filter(|key| *key == "2-e-1").count();
    assert!(of_first > 4, "it was put aside although it had not failed for long: {of_first}");
}

/// Under another key it can't be taken for a request that the sink does not have.
#[tokio::test]
async fn what_is_taken_in_part_is_kept_and_not_sent_again() {
    let memory = waiting([1]);
    let tried = run(
        &memory,
        vec![DeliveryOutcome::TakenPartly { rejected: 3, reason: "too old".into(), left: None }],
    )
    .await;
    assert_eq!(tried.keys(), ["2-e-1"]);
    let dead = memory.dead.lock().expect("dead");
    assert_eq!(dead[0].0, "2-e-1-partial");
    assert!(dead[0].1.contains("3 points rejected") && dead[0].1.contains("too old"), "{}", dead[0].1);
    assert_eq!(*memory.acknowledged.lock().expect("acknowledged"), [1]);
    assert_eq!(tried.metrics.faults.with_label_values(&["points_rejected_by_sink"]).get(), 3);
    assert_eq!(tried.outcome("partial"), 1);
}

#[tokio::test]
async fn of_what_is_taken_in_part_the_rest_alone_is_kept_where_it_is_known() {
    let memory = waiting([1]);
    let part = DeliveryOutcome::TakenPartly {
        rejected: 2,
        reason: "overlaps".into(),
        left: Some(b"the rest".to_vec()),
    };
    let tried = run(&memory, vec![part]).await;
    let dead = memory.dead.lock().expect("dead");
    assert_eq!((dead[0].0.as_str(), dead[0].2.as_slice()), ("2-e-1-partial", &b"the rest"[..]));
    let why = &dead[0].1;
    assert!(why.contains("2 points, which are kept here") && why.contains("overlaps"), "{why}");
    assert_eq!(*memory.acknowledged.lock().expect("acknowledged"), [1]);
    assert_eq!(tried.outcome("partial"), 1);
}

/// The future that `deliver` returns must be `Send`, to run as a task.
#[test]
fn a_delivery_can_be_spawned() {
    fn is_send<T: Send>(_: impl FnOnce(Arc<Outbox>, Arc<DeadLetters>, Arc<dyn Sink>, Arc<Metrics>) -> T) {}
    let (_never, stop) = watch::channel(false);
    is_send(|outbox, dead, sink, metrics| deliver(0, outbox, dead, sink, metrics, Arc::default(), stop));
}
