//! Tests posts that a start puts into the book together.

use crate::support::{all, point, sums, Place, Run};
use bytes::Bytes;
use std::collections::HashMap;
use totxegun::journal::{Names, Post, Replayed};
use totxegun::storage::{Durability, Folder};

const HOUR: u64 = 3_600_000_000_000;
const SENDERS: [&str; 3] = ["A", "B", "C"];

/// Interleaved posts of some senders, over two hours and in no group; then a kill.
async fn killed(place: &Place) {
    let run = place.run().await;
    for at in (0..40).map(|number| 100 + number * HOUR / 20) {
        for sender in SENDERS {
            assert_eq!(run.post(sender, point(&sender.to_lowercase(), at, at + 10, 1)).await, all());
        }
    }
    run.abort().await;
}

fn faults(run: &Run) -> u64 {
    run.metrics.faults.with_label_values(&["replay"]).get()
}

/// Each hour by itself.
#[tokio::test(flavor = "multi_thread")]
async fn they_come_to_what_each_by_itself_comes_to() {
    let place = Place::new();
    killed(&place).await;
    let run = place.run().await;
    assert_eq!(faults(&run), 0);
    assert!(run.checkpoint().await > 0);
    let taken = run.stop().await;
    assert_eq!(sums(&taken), [("a", 40), ("b", 40), ("c", 40)]);
    for (_, (_, spans)) in taken {
        let hours = spans.iter().map(|(start, end)| (start / HOUR, (end - 1) / HOUR));
        assert_eq!(hours.collect::<Vec<_>>(), [(0, 0), (1, 1)]);
    }
}

/// The series that a journal defines, by number.
#[derive(Default)]
struct Said(HashMap<u64, Bytes>);

impl Names for Said {
    fn generation(&self) -> u64 {
        u64::MAX
    }

    fn text(&self, number: u64) -> Bytes {
        self.0[&number].clone()
    }
}

/// No run leaves such a journal.
#[tokio::test(flavor = "multi_thread")]
async fn one_that_is_refused_keeps_none_of_the_others_out() {
    let place = Place::new();
    killed(&place).await;
    let (journal, outbox) = Folder::open(&place.data(), Durability::Process).unwrap().shard().unwrap();
    let (mut said, mut posts) = (Said::default(), Vec::<Post>::new());
    let read = journal.posts(outbox.journal(), u64::MAX, |Replayed { post, named }| {
        said.0.extend(named);
        posts.push(post);
        true
    });
    read.unwrap();
    journal.append(&posts[7], &said);
    drop((journal, outbox));
    let run = place.run().await;
    assert_eq!(faults(&run), 1);
    assert!(run.checkpoint().await > 0);
    assert_eq!(sums(&run.stop().await), [("a", 40), ("b", 40), ("c", 40)]);
}
