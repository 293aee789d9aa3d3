//! The sender of a series after `totxegun senders rename`, in both databases.

use super::model::both;
use super::rewind::key;
use super::server::{sum, sums, Server};
use super::{open, request, taken};
use std::collections::HashMap;
use std::sync::Arc;
use totxegun::otlp::series::{Digest, SeriesKey};
use totxegun::sink::{DeliveryOutcome, KnowsOwners, RenameSender};

struct All(HashMap<Digest, String>);

impl KnowsOwners for All {
    fn owner(&self, series: &Digest) -> Option<String> {
        self.0.get(series).cloned()
    }
}

fn renamed(names: &[&str], to: &str) -> String {
    let series: Vec<SeriesKey> = names.iter().map(|name| key(name)).collect();
    let [body] = &RenameSender::requests(&series, to)[..] else { panic!("several requests") };
    String::from_utf8(body.clone()).unwrap()
}

/// Each request comes twice, as after a kill before its acknowledgement, and to a sink that is opened anew.
#[tokio::test(flavor = "multi_thread")]
async fn a_renamed_sender_has_its_series_under_its_new_name() {
    let server = Server::start();
    for database in both(&server) {
        let address = database.address();
        let owners = ["a", "b", "c"].map(|name| (key(name).digest(), "-".to_string()));
        let owners = Arc::new(All(owners.into()));
        let first = request(1, sums(&[("a", 100, 200, 1), ("b", 100, 200, 2), ("c", 100, 200, 4)]));
        let sink = open(&address);
        sink.owners().expect("a database has them").put(0, &owners);
        assert_eq!(sink.deliver_of(&first, None).await, DeliveryOutcome::Taken);
        // Of one that is not there nothing is said.
        let rename = renamed(&["a", "b", "gone"], "shop-1");
        for _ in 0..2 {
            taken(&*open(&address), 2, rename.clone()).await;
        }
        let senders = || database.ask("select name, sender from t.series order by 1");
        assert_eq!(senders(), "a|shop-1\nb|shop-1\nc|-");
        // It does not stand among requests that go together.
        let together = [request(3, sum("a", 200, 300, 1)), request(4, renamed(&["a"], "shop-2"))];
        assert!(!sink.deliver_together(&together, None).await);
        for (number, body) in [(3, sum("a", 200, 300, 1)), (4, renamed(&["a"], "shop-2"))] {
            taken(&*sink, number, body).await;
        }
        assert_eq!(senders(), "a|shop-2\nb|shop-1\nc|-");
        assert_eq!(database.ask("select name, total from t.totals order by 1"), "a|2\nb|2\nc|4");
    }
}
