//! A month and a day of a time zone, as they are exported and closed, in both databases.

use crate::adjust::by_hand;
use crate::model::both;
use crate::periods::{done, not_done};
use crate::points::HOUR;
use crate::server::{histogram, sum, Server};
use crate::{open, taken};
use std::collections::BTreeMap;
use totxegun::sink::periods::{Period, PeriodAction, Which};
use totxegun::sink::sql::export::What;
use totxegun::sink::sql::reading;
use totxegun::sink::Address;

/// Of 2026-09-01 00:00 UTC.
const BEGIN: u64 = 496_728;
const DAYS: u64 = 75;

fn local(text: &str, zone: &str) -> Period {
    let period: Period = text.parse().unwrap();
    period.in_zone(&zone.parse().unwrap()).unwrap()
}

/// Total, adjustments, both, points, count and buckets of each name.
type Exported = BTreeMap<String, (String, String, String, i64, Option<String>, Option<String>)>;

async fn exported(address: &str, period: &Period) -> Exported {
    let (address, period): (Address, _) = (address.parse().unwrap(), period.clone());
    let reading = move || {
        let mut all = Exported::new();
        let mut each = |line: totxegun::sink::sql::export::Line| {
            let buckets = line.buckets.map(|list| list.get().to_string());
            let sums = (line.total, line.adjustments, line.total_adjusted, line.points, line.count, buckets);
            assert!(all.insert(line.name.clone(), sums).is_none(), "{} twice", line.name);
            Ok(())
        };
        let closed = reading::read(&address, &What::Of(period.clone()), &mut each).unwrap();
        (all, closed.of(&period))
    };
    let (all, closed) = tokio::task::spawn_blocking(reading).await.unwrap();
    println!("{closed:?}");
    all
}

/// An hour's value, so that no two hours can be taken for each other.
fn value(hour: u64) -> i64 {
    ((hour - BEGIN) * 7919 % 9973) as i64 + 1
}

#[tokio::test(flavor = "multi_thread")]
async fn months_and_days_of_a_zone_are_the_sums_of_their_hours() {
    let server = Server::start();
    for database in both(&server) {
        let address = database.address();
        let sink = open(&address);
        let mut number = 0;
        for hour in BEGIN..BEGIN + 24 * DAYS {
            let (start, end) = (hour * HOUR, hour * HOUR + HOUR);
            number += 1;
            taken(&*sink, number, sum("a", start, end, value(hour))).await;
            // One that counts nothing on most days.
            if hour % 53 == 0 {
                number += 1;
                let buckets = [1 + hour % 7, 0, 0];
                taken(&*sink, number, histogram("h", start, end, Some(value(hour) as u64), buckets)).await;
            }
        }
        // On the last evening of October in Berlin, which is of October in UTC too; and an hour later.
        let a = database.ask("select id from t.series where name = 'a'").parse().unwrap();
        let hour = |text: &str| text.parse::<Period>().unwrap().from as u64;
        let adjusted = [("2026-10-31T22", -5), ("2026-10-31T23", 100)];
        for (of, value) in adjusted {
            done(&*sink, PeriodAction::Adjust(by_hand(Which::Number(a), hour(of), value, "by hand"))).await;
        }
        for (text, zone, from, to) in [
            ("2026-10", "Europe/Berlin", "2026-09-30T22", "2026-10-31T23"),
            ("2026-10", "America/New_York", "2026-10-01T04", "2026-11-01T04"),
            ("2026-10", "Pacific/Auckland", "2026-09-30T11", "2026-10-31T11"),
            ("2026-10-25", "Europe/Berlin", "2026-10-24T22", "2026-10-25T23"),
            ("2026-10", "UTC", "2026-10-01T00", "2026-11-01T00"),
        ] {
            let hours = hour(from)..hour(to);
            let total: i64 = hours.clone().map(value).sum();
            let in_it = adjusted.iter().filter(|(of, _)| hours.contains(&hour(of)));
            let adjusted: i64 = in_it.map(|(_, value)| value).sum();
            let points = hours.clone().count() as i64;
            let a =
                (total.to_string(), adjusted.to_string(), (total + adjusted).to_string(), points, None, None);
            let mut wanted = Exported::from([("a".to_string(), a)]);
            let of_h: Vec<u64> = hours.filter(|hour| hour % 53 == 0).collect();
            if !of_h.is_empty() {
                let total = of_h.iter().map(|hour| value(*hour)).sum::<i64>().to_string();
                let count: u64 = of_h.iter().map(|hour| 1 + hour % 7).sum();
                let (points, buckets) = (of_h.len() as i64, format!("[{count},0,0]"));
                let h = (total.clone(), "0".into(), total, points, Some(count.to_string()), Some(buckets));
                wanted.insert("h".to_string(), h);
            }
            assert_eq!(exported(&address, &local(text, zone)).await, wanted, "{text} {zone}");
        }
    }
}

/// What comes late for its last hour, which is of the next day in UTC, too.
#[tokio::test(flavor = "multi_thread")]
async fn a_period_that_is_closed_says_in_which_zone() {
    let server = Server::start();
    for database in both(&server) {
        let address = database.address();
        let sink = open(&address);
        taken(&*sink, 1, sum("a", (BEGIN - 40) * HOUR, (BEGIN - 39) * HOUR, 7)).await;
        let new_york = local("2026-08", "America/New_York");
        let told = done(&*sink, PeriodAction::Close(new_york.clone())).await;
        assert!(told.starts_with("2026-08 America/New_York is closed"), "{told}");
        let told = done(&*sink, PeriodAction::Close("2026-08-31".parse().unwrap())).await;
        assert!(told.contains("was closed before: 2026-08 America/New_York, closed by alice at"), "{told}");
        let rows = database.ask("select period, to_hour - from_hour, to_hour from t.closed_periods");
        assert_eq!(rows, format!("2026-08 America/New_York|744|{}", BEGIN + 4));
        // 2026-09-01 03:30 UTC is August in New York.
        taken(&*sink, 2, sum("a", (BEGIN + 3) * HOUR, (BEGIN + 3) * HOUR + HOUR / 2, 3)).await;
        taken(&*sink, 3, sum("a", (BEGIN + 4) * HOUR, (BEGIN + 4) * HOUR + HOUR / 2, 5)).await;
        let late = "select HOUR(belongs_to)/H, total from t.late";
        assert_eq!(database.ask(late), format!("{}|3", BEGIN + 3));
        assert_eq!(exported(&address, &new_york).await["a"].0, "7");
        let utc: Period = "2026-08".parse().unwrap();
        not_done(
            &*sink,
            PeriodAction::Open(utc),
            "was not closed by itself: open what was, 2026-08 America/New_York",
        )
        .await;
        done(&*sink, PeriodAction::Open(new_york)).await;
        assert_eq!(database.ask("select count(*) from t.closed_periods"), "0");
    }
}
