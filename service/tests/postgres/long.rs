//! Intervals of over an hour, which count in one period and began before it, in both databases.

use crate::model::both;
use crate::periods::done;
use crate::points::HOUR;
use crate::rewind::key;
use crate::server::{histogram, sum, Server};
use crate::{open, open_with, refused, taken};
use std::time::Duration;
use totxegun::sink::periods::{Period, PeriodAction};
use totxegun::sink::sql::reading::begun_before;
use totxegun::sink::sql::BegunBefore;
use totxegun::sink::{Address, Retention};

fn hour(text: &str) -> u64 {
    text.parse::<Period>().unwrap().from as u64
}

async fn found(address: &str, period: &Period) -> Vec<BegunBefore> {
    let (address, period): (Address, _) = (address.parse().unwrap(), period.clone());
    tokio::task::spawn_blocking(move || begun_before(&address, &period).unwrap()).await.unwrap()
}

#[tokio::test(flavor = "multi_thread")]
async fn what_began_before_its_period_is_known_by_value_series_and_time() {
    let server = Server::start();
    for database in both(&server) {
        let address = database.address();
        let sink = open(&address);
        let (cut_off, back) = (hour("2026-10-29T08") * HOUR, hour("2026-11-03T07") * HOUR + 1);
        let november: Period = "2026-11".parse().unwrap();
        taken(&*sink, 1, sum("a", cut_off - HOUR, cut_off, 1)).await;
        // Of a minute before the month, as any point may be.
        let first = hour("2026-11-01T00") * HOUR;
        taken(&*sink, 2, sum("b", first - HOUR / 60, first + HOUR / 60, 2)).await;
        assert_eq!(found(&address, &november).await, []);
        for (number, body) in [
            (3, sum("a", cut_off, back, 120)),
            (4, histogram("h", cut_off + 5, back, Some(u64::MAX), [1, 0, 0])),
            (5, histogram("h", back, back + 2 * HOUR, None, [1, 0, 0])),
        ] {
            for _ in 0..2 {
                taken(&*open(&address), number, body.clone()).await;
            }
        }
        // What is not added is not there.
        refused(&*sink, 6, sum("a", cut_off, back + 1, 7), "is not added").await;
        database.ask("update t.series set sender = 'shop-3' where name = 'a'");
        let begun = |name: &str, sender: Option<&str>, start_ns, value| BegunBefore {
            series: key(name),
            sender: sender.map(String::from),
            start_ns,
            end_ns: back,
            value: Some(value),
        };
        let wanted =
            [begun("a", Some("shop-3"), cut_off, 120), begun("h", None, cut_off + 5, i128::from(u64::MAX))];
        assert_eq!(found(&address, &november).await, wanted);
        let of = |text: &str| text.parse::<Period>().unwrap();
        assert_eq!(found(&address, &of("2026-11-03")).await, wanted);
        assert_eq!(
            found(&address, &of("2026-11-03T09")).await.len(),
            1,
            "that of the histogram which has no sum"
        );
        assert_eq!(found(&address, &of("2026-10")).await, []);
        let berlin = november.in_zone(&"Europe/Berlin".parse().unwrap()).unwrap();
        assert_eq!(found(&address, &berlin).await, wanted);
        // One that comes late counts in this hour, and began before it.
        done(&*sink, PeriodAction::Close(of("2026-10"))).await;
        taken(&*sink, 7, sum("b", first + HOUR / 60, first + HOUR / 60 + 1, 2)).await;
        taken(&*sink, 8, sum("c", cut_off - 9 * HOUR, cut_off, 9)).await;
        let counted = database.ask("select hour, value from t.long_intervals order by hour desc limit 1");
        assert!(counted.ends_with("|9"), "{counted}");
    }
}

/// As the rows of hours.
#[tokio::test(flavor = "multi_thread")]
async fn long_intervals_are_kept_as_long_as_hours() {
    let server = Server::start();
    for database in both(&server) {
        let address = database.address();
        let now = crate::periods::now();
        {
            let sink = open(&address);
            taken(&*sink, 1, sum("a", (now - 90) * HOUR, (now - 80) * HOUR, 1)).await;
            taken(&*sink, 2, sum("a", (now - 3) * HOUR, now * HOUR, 1)).await;
        }
        let count = || database.ask("select count(*) from t.long_intervals");
        assert_eq!(count(), "2");
        let hours = Some(Duration::from_secs(48 * 3600));
        let _sink = open_with(&address, Retention { hours, ..Retention::default() });
        for _ in 0..1500 {
            if count() == "1" {
                break;
            }
            tokio::time::sleep(Duration::from_millis(20)).await;
        }
        assert_eq!(count(), "1");
    }
}
