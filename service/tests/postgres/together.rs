//! Tests several requests in one transaction.

use super::model::{both, Database};
use super::server::{sum, sums, Server};
use super::{open, request, taken};
use totxegun::sink::Forwarded;

const HOUR: u64 = 3_600_000_000_000;

/// A request for each of these hours, of one of three series, as after a flush over many hours.
fn of_hours(first: u64, count: u64) -> Vec<Forwarded> {
    let body = |hour: u64| {
        let end = (500_000 + hour) * HOUR;
        sums(&[("a", end - 10, end, 1), ("b", end - 7, end - 1, 2), ("c", end - 5, end - 4, 3)])
    };
    (first..first + count).map(|number| request(number, body(number))).collect()
}

#[tokio::test(flavor = "multi_thread")]
async fn all_of_them_are_taken_each_under_its_key() {
    let server = Server::start();
    for database in both(&server) {
        let sink = open(&database.address());
        assert!(sink.most_together() >= 40);
        taken(&*sink, 1, sum("other", 1, 2, 1)).await;
        let all = of_hours(2, 40);
        assert!(sink.deliver_together(&all, None).await);
        let totals = database.ask("select name, points, total from t.totals order by 1");
        assert_eq!(totals, "a|40|40\nb|40|80\nc|40|120\nother|1|1");
        assert_eq!(
            database.ask("select count(*), count(distinct hour) from t.by_hour where name <> 'other'"),
            "120|40"
        );
        assert_eq!(database.ask("select count(*), sum(points) from t.requests"), "41|121");
        if let Database::Lite(_) = database {
            let brought = "select count(*) from requests cross join (select request, count(*) as count from intervals group by 1)
                as of on of.request = id and of.count = points where id > 1";
            assert_eq!(database.ask(brought), "40");
        }
        // As after a lost answer: each by itself is answered as taken.
        assert!(!sink.deliver_together(&all, None).await);
        for one in &all {
            assert_eq!(sink.deliver(one).await, totxegun::sink::DeliveryOutcome::Taken);
        }
        assert!(sink.deliver_together(&of_hours(42, 3), None).await);
        assert_eq!(database.ask("select sum(points) from t.totals"), "130");
    }
}

/// Nothing of the others is there, and they can still be taken.
#[tokio::test(flavor = "multi_thread")]
async fn where_one_can_not_be_taken_whole_nothing_is() {
    let server = Server::start();
    for database in both(&server) {
        let sink = open(&database.address());
        let before = (500_000 + 1) * HOUR;
        taken(&*sink, 1, sum("a", before - 1000, before, 1)).await;
        let overlaps = sums(&[("new", 1, 2, 1), ("a", before - 10, before - 5, 1)]);
        for wrong in [overlaps, sum("a", before - 10, before - 5, 1), sum("a", 5, 5, 1), "{".into()] {
            let mut all = of_hours(2, 9);
            all.insert(5, request(90, wrong));
            assert!(!sink.deliver_together(&all, None).await);
            assert_eq!(database.ask("select name, points from t.totals"), "a|1");
            assert_eq!(database.ask("select count(*) from t.requests"), "1");
        }
        // Two requests that overlap.
        let mut all = of_hours(2, 2);
        all.push(request(4, String::from_utf8(all[0].body.clone()).unwrap()));
        assert!(!sink.deliver_together(&all, None).await);
        assert!(sink.deliver_together(&of_hours(2, 9), None).await);
        assert_eq!(database.ask("select sum(points) from t.totals"), "28");
    }
}
