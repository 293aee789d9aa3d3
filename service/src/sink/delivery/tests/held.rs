//! Access denied by the sink, and keys that someone else is sending.

use super::*;

/// Otherwise an expired token would turn each request into a dead letter until somebody notices.
#[tokio::test]
async fn who_is_not_let_in_comes_again_and_is_counted() {
    let denied = || DeliveryOutcome::Denied { reason: "401".into(), after: None };
    let memory = waiting([1, 2]);
    let tried = run(&memory, vec![denied(), denied(), again(None)]).await;
    assert!(memory.dead.lock().expect("dead").is_empty());
    assert_eq!(*memory.acknowledged.lock().expect("acknowledged"), [1, 2]);
    let counted = ["denied", "again", "taken", "refused"].map(|outcome| tried.outcome(outcome));
    assert_eq!(counted, [2, 1, 2, 0]);
}

/// As when an operator sends a dead letter again that the outbox has too.
#[tokio::test]
async fn a_key_that_somebody_else_sends_is_waited_for() {
    let memory = waiting([1]);
    let sink = Arc::new(Script::default());
    let (_never, stop) = watch::channel(false);
    let held = sink.held.hold("2-e-1").await;
    let delivering = run_at(sink.clone(), &memory, stop);
    let looking = async {
        tokio::time::sleep(Duration::from_millis(100)).await;
        assert!(sink.came.lock().expect("came").is_empty(), "it was sent meanwhile");
        drop(held);
    };
    let ((_, end), ()) = tokio::join!(delivering, looking);
    assert!(end.is_err(), "it ends by a fault alone");
    assert_eq!(sink.came.lock().expect("came").len(), 1);
}
