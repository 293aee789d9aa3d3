//! Tests two processes of one program that don't name themselves: by their senders' names, each has series of its own.

use crate::support::{field, fixed, points, Place};

/// A body as an SDK sends it, without an attribute.
fn protobuf(end: u64) -> Vec<u8> {
    let point = [fixed(2, end - 10), fixed(3, end), fixed(6, 3)].concat();
    let sum = [&field(1, &point)[..], &[0x10, 1, 0x18, 1]].concat();
    let metric = [field(1, b"requests"), field(7, &sum)].concat();
    let scope = [field(1, &field(1, b"sdk")), field(2, &metric)].concat();
    field(
        1,
        &[
            field(1, &field(1, &[field(1, b"service.name"), field(2, &field(1, b"shop"))].concat())),
            field(2, &scope),
        ]
        .concat(),
    )
}

#[test]
fn two_processes_that_don_t_name_themselves_have_series_of_their_own() {
    let place = Place::new();
    let sink = place.sink();
    let service = place.serve_with(&["--sink", &sink]);
    let json = |end| points(&["orders"], end, 1);
    assert_eq!(service.post("shop-1", &json(100)).unwrap().0, 200);
    let (status, why) = service.post("shop-2", &json(100)).unwrap();
    assert!(status == 400 && why.contains("other writer"), "{why}");
    service.drain();
    assert_eq!(service.end(), Some(0));
    let mut service = place.serve_with(&["--sink", &sink, "--instance-from-sender"]);
    for end in [200, 300, 400] {
        for sender in ["shop-1", "shop-2"] {
            assert_eq!(service.post(sender, &json(end)).unwrap().0, 200, "{sender} {end}");
            assert_eq!(service.post_protobuf(sender, &protobuf(end)), 200, "{sender} {end}");
            assert_eq!(service.post(sender, &json(end)).unwrap(), (200, "{}".into()), "a repeat");
        }
        service.kill();
        service = place.serve_with(&["--sink", &sink, "--instance-from-sender"]);
    }
    service.drain();
    assert_eq!(service.series(), 5);
    let shown = service.said(&["totals"]);
    let rows = |part: &str| shown.lines().filter(|line| line.contains(part)).count();
    assert_eq!((rows("\"shop-1\""), rows("\"shop-2\""), rows("orders")), (2, 2, 3), "{shown}");
    assert!(rows(" 9 ") >= 2, "{shown}");
    service.has_no_fault();
    assert_eq!(service.end(), Some(0));
}
