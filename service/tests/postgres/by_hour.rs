//! Tests reading the hours of a series, by a view such as the schema has.

use crate::server::{histogram, sum, sum_named, Server};
use crate::{open, taken};
use tokio::task::block_in_place;
use totxegun::sink::sql::reading::{hours, totals};
use totxegun::sink::Address;

/// Replaces the view: each series has its total in hour 5, and 1 in the hour before.
const VIEW: &str = "drop view if exists totxegun.by_hour;
    create view totxegun.by_hour as select to_timestamp(5 * 3600) as hour, total, count, series from totxegun.totals
    union all select to_timestamp(4 * 3600), 1, null, series from totxegun.totals";

#[tokio::test(flavor = "multi_thread")]
async fn the_hours_of_one_series_are_read() {
    let Some(server) = Server::start() else { return };
    let address = server.by_socket("postgres");
    let sink = open(&address);
    taken(&*sink, 1, sum("a", 100, 200, 5)).await;
    taken(&*sink, 2, sum_named("a\\u0000", "x", 1, 2, 4)).await;
    taken(&*sink, 3, sum_named("a\u{fffd}", "x", 1, 2, 8)).await;
    taken(&*sink, 4, histogram("h", 1, 2, Some(u64::MAX), [u64::MAX, 0, 1])).await;
    let place: Address = address.parse().unwrap();
    let hours = |series, from| block_in_place(|| hours(&place, &series, from)).unwrap();
    let all = block_in_place(|| totals(&place)).unwrap();
    assert_eq!(all.len(), 4);
    server.run_file("postgres", VIEW);
    for series in &all {
        let count = series.histogram.as_ref().map(|histogram| histogram.count.0);
        let found_hours = hours(series.digest, 0).unwrap();
        let found: Vec<_> =
            found_hours.iter().map(|it| (it.hour, it.total.0, it.count.map(|count| count.0))).collect();
        assert_eq!(found, [(4, 1, None), (5, series.total.0, count)], "{}", series.name);
        assert_eq!(hours(series.digest, 5).unwrap(), found_hours[1..]);
        assert_eq!(hours(series.digest, 6), Some(Vec::new()), "it is there all the same");
    }
    assert_eq!(hours([0; 32], 0), None, "a series that the database does not have");
}
