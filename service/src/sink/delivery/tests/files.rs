//! A delivery and its files: a fault of a file ends the delivery, and nothing is in two places.

use super::*;

/// A request that is in no other file must not leave the outbox.
#[tokio::test]
async fn a_letter_that_can_not_be_kept_ends_the_delivery() {
    for fate in [
        DeliveryOutcome::refused("400"),
        DeliveryOutcome::TakenPartly { rejected: 1, reason: String::new(), left: None },
    ] {
        let memory = Memory { dead_fails: true, ..waiting([1, 2]) };
        run(&memory, vec![fate]).await;
        assert!(memory.acknowledged.lock().expect("acknowledged").is_empty());
        assert_eq!(memory.waiting.lock().expect("waiting").len(), 2);
    }
}

/// The request is not sent again meanwhile: a sink that knows no keys would count its taken part twice.
#[tokio::test]
async fn a_request_stays_in_the_outbox_until_its_letter_has_room() {
    let partly = || DeliveryOutcome::TakenPartly { rejected: 1, reason: "no".into(), left: None };
    for (fate, letter) in [(DeliveryOutcome::refused("400"), "2-e-1"), (partly(), "2-e-1-partial")] {
        let memory = Memory { full: Mutex::new(3), ..waiting([1, 2]) };
        let tried = run(&memory, vec![fate]).await;
        assert_eq!(tried.keys(), ["2-e-1", "2-e-2"]);
        assert_eq!(memory.dead.lock().expect("dead")[0].0, letter);
        assert_eq!(*memory.acknowledged.lock().expect("acknowledged"), [1, 2]);
        assert_eq!(tried.attempts.state(), Delivery::default(), "no trouble is left");
    }
    let (stop, told) = watch::channel(false);
    let memory = Memory { full: Mutex::new(u64::MAX), ..waiting([1]) };
    let ((tried, end), ()) =
        tokio::join!(run_until(&memory, vec![DeliveryOutcome::refused("400")], told), async move {
            tokio::time::sleep(Duration::from_millis(100)).await;
            stop.send_replace(true);
        });
    assert!(end.is_ok() && memory.acknowledged.lock().expect("acknowledged").is_empty());
    let trouble = tried.attempts.state().trouble.clone().expect("trouble");
    assert!(trouble.contains("no room to keep 2-e-1") && trouble.ends_with("400"), "{trouble}");
}

#[tokio::test]
async fn an_acknowledgement_that_fails_ends_the_delivery() {
    let memory = Memory { acknowledge_fails: true, ..waiting([1, 2]) };
    let tried = run(&memory, vec![]).await;
    assert_eq!(tried.keys(), ["2-e-1"]);
}

#[tokio::test]
async fn what_changes_a_file_is_done_before_a_delivery_stops() {
    let (stop, told) = watch::channel(false);
    let memory = Memory { stop: Some(stop), ..waiting([1, 2]) };
    let (tried, end) = run_until(&memory, vec![], told).await;
    assert!(end.is_ok());
    assert_eq!(tried.keys(), ["2-e-1"]);
    assert_eq!(*memory.acknowledged.lock().expect("acknowledged"), [1]);
}

#[tokio::test]
async fn a_fault_of_a_file_is_told_by_a_delivery_that_is_told_to_stop() {
    for fate in [DeliveryOutcome::Taken, DeliveryOutcome::Refused { reason: "no".into() }] {
        let (stop, told) = watch::channel(false);
        let memory = Memory { stop: Some(stop), acknowledge_fails: true, dead_fails: true, ..waiting([1]) };
        let (_, end) = run_until(&memory, vec![fate], told).await;
        assert!(end.is_err());
    }
}

/// An earlier run kept it as a dead letter and was then killed. Sent again by hand, it would count twice in a sink that
/// knows no keys.
#[tokio::test]
async fn what_the_sink_takes_is_put_aside_no_more() {
    let letter =
        |number: u64| (format!("2-e-{number}"), "400".to_string(), format!("body {number}").into_bytes());
    let partly = DeliveryOutcome::TakenPartly { rejected: 1, reason: "no".into(), left: None };
    for (fate, kept) in [
        (DeliveryOutcome::Taken, &["2-e-9"][..]),
        (partly, &["2-e-9", "2-e-1-partial"]),
        (DeliveryOutcome::refused("400"), &["2-e-1", "2-e-9", "2-e-1"]),
    ] {
        let memory = Memory { dead: Mutex::new(vec![letter(1), letter(9)]), ..waiting([1]) };
        run(&memory, vec![fate]).await;
        let dead = memory.dead.lock().expect("dead");
        let keys: Vec<&str> = dead.iter().map(|(key, ..)| key.as_str()).collect();
        assert_eq!(keys, kept);
    }
}
