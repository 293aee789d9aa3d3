//! An outbox that continues another one has everything of it, under the same keys.

use super::*;

/// The waiting requests: number, epoch, body.
async fn waiting(outbox: &Outbox) -> Vec<(u64, String, Vec<u8>)> {
    let mut all = Vec::new();
    while outbox.waiting().0 > 0 {
        let (waiting, body) = outbox.first().await.unwrap();
        all.push((waiting.number, outbox.epoch(), body));
        outbox.acknowledge(waiting.number).unwrap();
    }
    all
}

fn bring(from: &Outbox, to: &Outbox) {
    to.begin_with(Beginning {
        next: from.first_number(),
        series: from.series().into_iter().collect(),
        quarantined: from.quarantined(),
        beside: from.beside(),
        since: from.since(),
        forgotten: from.forgotten(),
    })
    .unwrap();
    from.each_group(|waits| to.go_on_with(waits)).unwrap();
}

#[tokio::test]
async fn an_outbox_that_goes_on_from_another_has_its_requests_and_what_it_knows() {
    for longest in [SEGMENT, 200] {
        let place = tempfile::tempdir().unwrap();
        let (one, other) = (place.path().join("one"), place.path().join("other"));
        let from = open_on(&Disk::default(), &one, "e", longest).unwrap();
        commit_owned(&from, &[body(&[("a", 3)], "1"), body(&[("b", 4)], "2")], 2, &[("a", "s")]);
        from.quarantine("q").unwrap();
        from.put_beside(&[unit_of("m", "ms")]).unwrap();
        take(&from).await;
        kill(from);
        let from = open_on(&Disk::default(), &one, "f", longest).unwrap();
        from.commit(&[body(&[("a", 7)], "3"), body(&[("c", 9)], "4")], 3).unwrap();
        from.commit(&[], 4).unwrap();
        let to = open_on(&Disk::default(), &other, "g", longest).unwrap();
        bring(&from, &to);
        kill(to);
        let to = open_on(&Disk::default(), &other, "g", longest).unwrap();
        assert_eq!(
            (to.series(), to.quarantined(), to.beside(), to.since(), to.forgotten()),
            (from.series(), from.quarantined(), from.beside(), from.since(), from.forgotten())
        );
        to.commit(&[body(&[("a", 11)], "5")], 2).unwrap();
        from.commit(&[body(&[("a", 11)], "5")], 5).unwrap();
        let mut wanted = waiting(&from).await;
        assert_eq!(
            wanted.iter().map(|one| (one.0, &one.1[..])).collect::<Vec<_>>(),
            [(2, "e"), (3, "f"), (4, "f"), (5, "f")]
        );
        wanted[3].1 = "g".into();
        assert_eq!(waiting(&to).await, wanted, "what is new has keys of its own");
    }
}

#[tokio::test]
async fn of_one_in_which_nothing_waits_the_numbers_go_on() {
    let place = tempfile::tempdir().unwrap();
    let (one, other) = (place.path().join("one"), place.path().join("other"));
    let from = open(&one);
    from.commit(&[body(&[("a", 3)], "1"), body(&[("b", 4)], "2")], 2).unwrap();
    waiting(&from).await;
    let to = open_on(&Disk::default(), &other, "g", SEGMENT).unwrap();
    bring(&from, &to);
    to.commit(&[body(&[("a", 5)], "3")], 2).unwrap();
    assert_eq!(waiting(&to).await, [(3, "g".to_string(), body(&[("a", 5)], "3"))]);
}
