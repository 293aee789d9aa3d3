//! The sink learns a shard's epochs before its first request, and tells what it has beyond them.

use super::*;

fn beyond(requests: u64) -> AheadOfOutbox {
    AheadOfOutbox { requests, ..AheadOfOutbox::default() }
}

async fn told(of: Vec<Result<AheadOfOutbox, DeliveryOutcome>>, term: Option<u64>) -> (Tried, u64) {
    let sink = Arc::new(Script { beyond: Mutex::new(of.into()), ..Script::default() });
    let (_never, stop) = watch::channel(false);
    let memory = Memory { term, ..waiting([1, 2]) };
    let (tried, end) = run_at(sink.clone(), &memory, stop).await;
    assert!(end.is_err(), "it ends by a fault alone");
    assert_eq!(*memory.acknowledged.lock().expect("acknowledged"), [1, 2]);
    let asked = *sink.asked.lock().expect("asked");
    (tried, asked)
}

#[tokio::test]
async fn a_sink_says_once_what_it_has_beyond() {
    let (tried, asked) = told(vec![Ok(beyond(7))], Some(4)).await;
    assert_eq!((asked, tried.keys().len()), (1, 2));
    assert_eq!(tried.metrics.sink_ahead.with_label_values(&["2"]).get(), 7);
}

/// Otherwise dead letters from before, sent again, would be left out.
#[tokio::test]
async fn nothing_is_sent_before_the_sink_knows() {
    let away = || Err(again(None));
    let (tried, asked) = told(vec![away(), away(), away(), Ok(beyond(0))], Some(4)).await;
    assert_eq!((asked, tried.keys().len(), tried.outcome("again")), (4, 2, 2));
    assert_eq!(tried.metrics.sink_ahead.with_label_values(&["2"]).get(), 0);
}

#[tokio::test]
async fn a_folder_has_one_epoch() {
    let (tried, asked) = told(Vec::new(), None).await;
    assert_eq!((asked, tried.keys().len()), (0, 2));
}
