//! Tests posts of both encodings, whose points go by the numbers of their series.

use crate::support::{field, fixed, points, Place};

/// The same as `points`, in protobuf.
fn in_protobuf(names: &[&str], end: u64, value: i64) -> Vec<u8> {
    let point = [fixed(2, end - 10), fixed(3, end), fixed(6, value as u64)].concat();
    let sum = field(7, &[&field(1, &point)[..], &[0x10, 1]].concat());
    let metric = |name: &&str| field(2, &[&field(1, name.as_bytes())[..], &sum].concat());
    let metrics: Vec<u8> = names.iter().flat_map(metric).collect();
    field(1, &field(2, &metrics))
}

/// Over kills, with the same series in JSON. A point takes a few bytes of the journal.
#[test]
fn points_by_number_are_counted_once_over_kills() {
    let place = Place::new();
    let (names, mut total) = (["a", "b", "c"], 0);
    for run in 0..4 {
        // The first run makes no checkpoint, so that the journal has all of its points when it is looked at.
        let every = if run == 0 { "1h" } else { "200ms" };
        let mut service = place.serve_with(&["--sink", &place.sink(), "--flush-interval", every]);
        for number in 0..50 {
            let end = 1_000 * (run + 1) + 10 * number;
            if run > 0 && number == 0 {
                let repeat = in_protobuf(&names, 1_000 * run + 490, 1);
                assert_eq!(service.post_protobuf("A", &repeat), 200, "it was taken before the kill");
                let late = in_protobuf(&names, 1_000 * run + 490, 2);
                assert_eq!(service.post_protobuf("A", &late), 400);
            }
            let status = match number % 10 {
                9 => service.post("A", &points(&names, end, 1)).unwrap().0,
                _ => service.post_protobuf("A", &in_protobuf(&names, end, 1)),
            };
            assert_eq!(status, 200);
            total += 1;
        }
        assert_eq!(service.post_protobuf("B", &in_protobuf(&["b", "a"], 9_000, 1)), 400);
        assert_eq!(service.post_protobuf("A", b"\xff"), 400);
        service.has_no_fault();
        if run == 0 {
            let bytes = service.status()["shards"][0]["journal"]["bytes"].as_u64().unwrap();
            // As text, each of the 150 points would take 170 bytes.
            assert!((1_500..4_000).contains(&bytes), "{bytes} bytes in the journal");
        }
        service.kill();
    }
    let service = place.serve();
    service.drain();
    service.has_no_fault();
    assert_eq!(service.end(), Some(0));
    let wanted = names.map(|name| (name.to_string(), total));
    assert_eq!(place.totals(), wanted.into());
}
