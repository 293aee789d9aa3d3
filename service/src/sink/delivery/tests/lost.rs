//! A shard that another instance takes while its requests are delivered.

use super::*;
use crate::storage::shard_store::{self, memory};
use std::sync::atomic::{AtomicBool, Ordering::SeqCst};

#[tokio::test]
async fn a_delivery_ends_once_its_shard_is_lost() {
    let (lose, lost) = watch::channel(false);
    let (_never, stop) = watch::channel(false);
    let memory = Memory { lost: Some(lost), ..waiting([1]) };
    let delivering = run_until(&memory, vec![again(Some(Duration::from_secs(60)))], stop);
    let losing = async {
        tokio::time::sleep(Duration::from_millis(50)).await;
        lose.send_replace(true);
    };
    let ((tried, end), ()) = tokio::join!(delivering, losing);
    assert!(matches!(end, Err(Fault::Fenced(_))), "{end:?}");
    assert_eq!(tried.keys(), ["2-e-1"]);
    assert!(memory.acknowledged.lock().expect("acknowledged").is_empty());
}

/// The next owner delivers the request too, and a sink may drop old keys.
#[tokio::test]
async fn each_try_is_made_while_the_shard_is_this_instances() {
    let (_never, stop) = watch::channel(false);
    let memory = Memory { ours: Some(Mutex::new(2)), ..waiting([1]) };
    let (tried, end) = run_until(&memory, vec![again(None), again(None)], stop).await;
    assert!(matches!(end, Err(Fault::Fenced(_))), "{end:?}");
    assert_eq!(tried.keys(), ["2-e-1", "2-e-1"]);
}

/// Otherwise nothing would be delivered, and nobody would see why.
#[tokio::test]
async fn it_is_said_where_it_is_long_not_sure_that_the_shard_is_this_instances() {
    let (tell, sure) = watch::channel(false);
    let (_never, stop) = watch::channel(false);
    let memory = Memory { sure: Some(sure), term: Some(4), ..waiting([1]) };
    let fates = Mutex::new([again(None)].into());
    let sink = Arc::new(Script { fates, ..Script::default() });
    let run = prepared(sink.clone(), &memory, stop);
    let looking = async {
        while run.attempts.state().trouble.is_none() {
            tokio::time::sleep(Duration::from_millis(5)).await;
        }
        let said = run.attempts.state();
        assert!(said.trouble.is_some_and(|why| why.contains("nothing is sent")) && said.tries == 0);
        assert!(sink.came.lock().expect("came").is_empty());
        assert_eq!(*sink.asked.lock().expect("asked"), 0, "another's epochs would be cut off");
        tell.send_replace(true);
        while sink.came.lock().expect("came").is_empty() {
            tokio::time::sleep(Duration::from_millis(1)).await;
        }
        assert!(run.attempts.state().trouble.as_deref().is_none_or(|why| why == "busy"), "it is sure again");
    };
    let (end, ()) = tokio::join!(run.until_it_ends(), looking);
    assert!(end.is_err(), "it ends by a fault alone");
    assert_eq!((sink.came.lock().expect("came").len(), run.attempts.state()), (2, Delivery::default()));
}

/// The sink may already have it from the previous owner.
#[tokio::test]
async fn the_next_owner_sends_what_waits_under_the_same_key() {
    for term in [4, 5] {
        let memory = Memory { term: Some(term), ..waiting([1]) };
        assert_eq!(run(&memory, vec![]).await.keys(), ["2-e-1"]);
    }
}

/// The store made our commit, and another instance took the shard before the answer came, because this process was
/// suspended.
#[tokio::test(flavor = "multi_thread")]
async fn nothing_is_sent_behind_an_answer_that_was_long_on_its_way() {
    let (store, stops) = (Arc::<memory::Store>::default(), Arc::new(AtomicBool::new(false)));
    let (taken, stop) = (store.clone(), stops.clone());
    let owner = store.take_with(move |step| {
        if step == memory::Step::Committed && stop.swap(false, SeqCst) {
            drop(taken.take());
            std::thread::sleep(Duration::from_millis(350)); // more than `OURS` in tests
        }
        Ok(())
    });
    let (journal, outbox, dead) = shard_store::open(owner, "00000000000000aa").unwrap();
    let body = br#"{"resourceMetrics":[{"resource":{"attributes":[]},"scopeMetrics":[{"scope":{"name":"","version":"","attributes":[]},"metrics":[{"name":"a","unit":"","sum":{"aggregationTemporality":1,"isMonotonic":false,"dataPoints":[{"attributes":[],"startTimeUnixNano":"4","timeUnixNano":"5","asInt":"1"}]}}]}]}]}"#;
    outbox.commit(&[body.to_vec()], journal.roll().0).unwrap();
    stops.store(true, SeqCst);
    let files = super::super::Files { outbox: Arc::new(outbox), dead: Arc::new(dead) };
    assert!(matches!(files.may_deliver(1).await, Err(Fault::Fenced(_))));
}
