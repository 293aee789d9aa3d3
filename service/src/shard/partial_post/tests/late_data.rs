//! What is kept as late data, and when.

use super::*;
use crate::late::{LateData, LateValue};

/// A point that its series refuses is kept with the name of the series, the sender, the reason, the interval and the
/// value, even if nothing else of its post is taken. Points that are taken, now or before, are not kept.
#[tokio::test]
async fn what_a_series_refuses_is_kept() {
    let place = tempfile::tempdir().unwrap();
    let metrics = Arc::new(Metrics::new().unwrap());
    let late = LateData::begin(place.path().join("late"), 1 << 20, metrics.clone()).unwrap();
    let shard = Shard::in_memory(&Shared::new(metrics, Clock::default()).with_late(late.clone()));
    let point =
        |sender, number, start, value| Point { series: (sender, number), start, end: start + 1, value };
    for (sender, points) in [
        ('B', vec![point('B', 0, 10, 1)]),
        ('A', vec![point('A', 0, 20, 1)]),
        ('A', vec![point('A', 0, 30, 1)]),
    ] {
        assert_eq!(posted(&shard, sender, body(&points), false).await, Outcome::taken(0));
    }
    let some = [point('A', 1, 7, 9), point('B', 0, 20, -7), point('A', 0, 20, 1), point('A', 0, 5, 3)];
    assert_eq!(posted(&shard, 'A', body(&some), false).await.status(), 200);
    assert_eq!(posted(&shard, 'A', body(&[point('A', 0, 6, 4)]), false).await.status(), 400);
    let kept = || {
        let mut kept = Vec::new();
        late.read(
            |_| true,
            |point| {
                let named = point.series().parts().unwrap().name;
                kept.push((named, point.sender, point.reason, (point.start_ns, point.end_ns), point.value));
            },
        )
        .unwrap();
        kept
    };
    for _ in 0..5_000 {
        if late.points()[0] < 3 {
            tokio::time::sleep(Duration::from_millis(1)).await;
        }
    }
    let wanted = [
        ("B0", Reason::OtherWriter, 20, -7),
        ("A0", Reason::OutOfOrder, 5, 3),
        ("A0", Reason::OutOfOrder, 6, 4),
    ];
    let wanted = wanted.map(|(name, reason, start, value)| {
        (name.to_string(), "A".to_string(), reason, (start, start + 1), LateValue::Sum(value))
    });
    assert_eq!(kept(), wanted);
    assert_eq!(late.points(), [3, 0]);
}
