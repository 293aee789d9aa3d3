//! Quotas of points and series: what uses them up, what is given back, and what is refused.

use super::*;
use crate::otlp::series::SeriesKey;
use std::collections::HashMap;
use std::sync::atomic::{AtomicU64, Ordering::Relaxed};

/// Flushed series with their owners.
#[derive(Clone, Default)]
struct Flushed(Arc<Mutex<HashMap<SeriesKey, String>>>, Arc<AtomicU64>);

impl Flushed {
    /// Makes series of a sender known, as a flush does.
    fn add(&self, sender: &str, names: &[String]) {
        let read = posted(names);
        self.0.lock().unwrap().extend(read.into_iter().map(|key| (key, sender.to_string())));
        self.1.fetch_add(1, Relaxed);
    }
}

impl Owned for Flushed {
    fn seen(&self) -> (u64, usize) {
        (self.1.load(Relaxed), self.0.lock().unwrap().len())
    }

    fn by_owner(&self) -> HashMap<String, u64> {
        let mut counts = HashMap::new();
        for owner in self.0.lock().unwrap().values() {
            *counts.entry(owner.clone()).or_default() += 1;
        }
        counts
    }

    fn has(&self, series: &SeriesKey) -> bool {
        self.0.lock().unwrap().contains_key(series)
    }
}

fn body(names: &[String]) -> Bytes {
    let point =
        "\"sum\":{\"aggregationTemporality\":1,\"dataPoints\":[{\"asInt\":\"1\",\"startTimeUnixNano\":\"1\",\
                 \"timeUnixNano\":\"2\"}]}";
    let metrics: Vec<String> = names.iter().map(|name| format!("{{\"name\":\"{name}\",{point}}}")).collect();
    format!("{{\"resourceMetrics\":[{{\"scopeMetrics\":[{{\"metrics\":[{}]}}]}}]}}", metrics.join(",")).into()
}

fn posted(names: &[String]) -> Vec<SeriesKey> {
    let read = crate::otlp::posted_of_test(&body(names)).unwrap();
    assert_eq!(read.series.len(), names.len());
    read.series.into_keys().collect()
}

fn names(of: &str, count: usize) -> Vec<String> {
    (0..count).map(|number| format!("{of}.{number}")).collect()
}

/// Numbers series in the order in which they come.
#[derive(Default)]
struct Numbers(Mutex<Vec<String>>);

impl Numbers {
    fn of(&self, names: &[String]) -> Vec<u64> {
        let mut all = self.0.lock().unwrap();
        let mut of = |name: &String| {
            let place = all.iter().position(|known| known == name);
            place.unwrap_or_else(|| {
                all.push(name.clone());
                all.len() - 1
            }) as u64
        };
        names.iter().map(&mut of).collect()
    }
}

impl Names for Numbers {
    fn generation(&self) -> u64 {
        1
    }

    fn text(&self, number: u64) -> Bytes {
        body(&[self.0.lock().unwrap()[number as usize].clone()])
    }
}

/// A service for 100 series.
struct Service {
    quotas: Arc<Quotas>,
    flushed: Flushed,
    book: Mutex<HashMap<String, String>>,
    numbers: Arc<Numbers>,
}

fn service(of_each: Quota) -> Service {
    let (quotas, flushed) = (Arc::<Quotas>::default(), Flushed::default());
    quotas.counted.count(&flushed, Duration::ZERO);
    let rules = Rules {
        max_series: 100,
        of_each: of_each.into(),
        profile: crate::otlp::Profile::Deltas,
        tokens: None,
        owned: Box::new(flushed.clone()),
        flush_interval: Duration::ZERO,
    };
    assert!(quotas.rules.set(rules).is_ok());
    Service { quotas, flushed, book: Mutex::default(), numbers: Arc::default() }
}

fn of_series(series: u64) -> Service {
    service(Quota { series: Some(series), points: None })
}

impl Service {
    /// The claim of a post with these series, which are found by number.
    async fn claim(&self, sender: &str, names: &[String]) -> Result<QuotaClaim, OverQuota> {
        let numbers = self.numbers.of(names).into_iter();
        self.claim_by(sender, names, || Series::numbered(self.numbers.clone(), numbers.clone()), 0).await
    }

    async fn claim_by(
        &self,
        sender: &str,
        names: &[String],
        series: impl Fn() -> Series,
        unflushed: u64,
    ) -> Result<QuotaClaim, OverQuota> {
        let points = names.len() as u64;
        let look = || std::future::ready(self.quotas.look(sender, points, series(), unflushed));
        self.quotas.claim(sender, points, look).await
    }

    /// Posts these series; the post is taken if it is let in.
    async fn post(&self, sender: &str, names: &[String]) -> Result<(), OverQuota> {
        self.take(sender, names, self.claim(sender, names).await?);
        Ok(())
    }

    fn take(&self, sender: &str, names: &[String], mut claim: QuotaClaim) {
        let mut book = self.book.lock().unwrap();
        let before = book.len();
        book.extend(names.iter().map(|name| (name.clone(), sender.into())));
        let numbers = self.numbers.of(names).into_iter();
        let series = || Series::numbered(self.numbers.clone(), numbers);
        self.quotas.came(sender, book.len() - before, series);
        claim.keep(1, 1);
    }

    /// Flushes everything that the book has.
    fn flush(&self) {
        for (name, sender) in &*self.book.lock().unwrap() {
            self.flushed.add(sender, std::slice::from_ref(name));
        }
        self.quotas.counted.count(&self.flushed, Duration::ZERO);
    }
}

fn used_up(series: u64, most: u64) -> Result<(), OverQuota> {
    Err(OverQuota::Series { sender: "A".into(), series, most })
}

#[tokio::test]
async fn without_rules_each_has_all() {
    let quotas = Arc::<Quotas>::default();
    for _ in 0..10 {
        let look = || async { panic!("nobody asks") };
        quotas.claim("A", u64::MAX, look).await.unwrap().keep(1, 1);
    }
    assert!(quotas.nearest().is_empty());
}

#[tokio::test]
async fn one_alone_may_have_all_series_and_leaves_a_tenth_once_others_have_some() {
    let service = service(Quota::default());
    assert_eq!(service.post("A", &names("a", 95)).await, Ok(()));
    service.flush();
    assert_eq!(service.post("A", &names("more", 1)).await, Ok(()));
    assert_eq!(service.post("B", &names("b", 1)).await, Ok(()), "there is a place for another");
    assert_eq!(service.post("A", &names("most", 1)).await, used_up(96, 90));
    assert_eq!(service.post("A", &names("a", 95)).await, Ok(()), "what it has goes on");
    assert_eq!(service.post("B", &names("b", 3)).await, Ok(()));
}

/// A book has room for many more, but the memory, pages and alerts of the service are made for this limit.
#[tokio::test]
async fn all_senders_together_have_no_more_series_than_the_service() {
    let service = service(Quota::default());
    let full = |all| Err::<(), _>(OverQuota::All { all, most: 100 });
    assert_eq!(service.post("A", &names("a", 101)).await, Err(OverQuota::AllAlone { most: 100 }));
    assert_eq!(service.post("A", &names("a", 85)).await, Ok(()));
    assert_eq!(service.post("A", &names("more", 16)).await, full(85), "also of who is alone");
    assert_eq!(service.post("B", &names("b", 10)).await, Ok(()));
    for _ in 0..2 {
        assert_eq!(service.post("C", &names("c", 6)).await, full(95));
        assert_eq!(service.post("C", &[names("c", 5), names("d", 1)].concat()).await, full(95));
        assert_eq!(service.post("A", &names("a", 85)).await, Ok(()), "what is there goes on");
        assert_eq!(service.post("B", &names("b", 10)).await, Ok(()));
        service.flush();
    }
    assert_eq!(service.post("C", &names("c", 5)).await, Ok(()));
    assert_eq!(service.post("C", &[names("c", 5), names("d", 1)].concat()).await, full(100));
    let told = Outcome::from(OverQuota::All { all: 100, most: 100 });
    let message = "too many series: there are 100, and --max-series is 100";
    assert_eq!(told, Outcome::refused(Reason::TooManySeries, message));
}

#[tokio::test]
async fn a_share_of_series_is_kept_to_between_two_flushes_too() {
    let service = of_series(5);
    assert_eq!(service.post("A", &names("a", 3)).await, Ok(()));
    assert_eq!(service.post("A", &names("b", 2)).await, Ok(()));
    assert_eq!(service.post("A", &[names("a", 3), names("b", 2)].concat()).await, Ok(()), "it has them");
    assert_eq!(service.post("A", &names("c", 1)).await, used_up(5, 5));
    service.flush();
    assert_eq!(service.post("A", &names("b", 2)).await, Ok(()));
    let over = service.post("A", &[names("b", 2), names("c", 1)].concat()).await.unwrap_err();
    let told = Outcome::from(over);
    assert_eq!((told.status(), told.again_in()), (429, Some(AGAIN)));
}

/// Otherwise a sender just below its quota could reach nearly twice that.
#[tokio::test]
async fn no_post_brings_more_than_is_left_of_a_share() {
    let service = of_series(5);
    assert_eq!(service.post("A", &names("a", 4)).await, Ok(()));
    for _ in 0..2 {
        assert_eq!(service.post("A", &names("b", 5)).await, used_up(4, 5));
        assert_eq!(service.post("A", &[names("a", 4), names("b", 2)].concat()).await, used_up(4, 5));
        service.flush();
    }
    assert_eq!(service.post("A", &[names("a", 4), names("b", 1)].concat()).await, Ok(()));
    assert_eq!(service.post("A", &names("c", 1)).await, used_up(5, 5));
}

/// Series that came after a flush was taken are not among its owners.
#[tokio::test]
async fn what_came_while_a_flush_was_written_is_counted() {
    let service = of_series(5);
    assert_eq!(service.post("A", &names("a", 2)).await, Ok(()));
    let taken: Vec<String> = names("a", 2);
    assert_eq!(service.post("A", &names("b", 2)).await, Ok(()));
    service.flushed.add("A", &taken);
    service.quotas.counted.count(&service.flushed, Duration::ZERO);
    assert_eq!(service.post("A", &names("c", 2)).await, used_up(4, 5));
    assert_eq!(service.post("A", &[names("b", 2), names("c", 1)].concat()).await, Ok(()));
    service.flush();
    assert_eq!(service.quotas.counted.of("A"), 5, "none counts twice");
}

/// A flushed series whose owner becomes known right after it was asked for.
struct OwnerBecomesKnown(Flushed, AtomicU64);

impl Owned for OwnerBecomesKnown {
    fn seen(&self) -> (u64, usize) {
        self.0.seen()
    }

    fn by_owner(&self) -> HashMap<String, u64> {
        match self.1.load(Relaxed) {
            0 => HashMap::new(),
            _ => self.0.by_owner(),
        }
    }

    fn has(&self, series: &SeriesKey) -> bool {
        self.1.fetch_add(1, Relaxed) > 0 && self.0.has(series)
    }
}

#[tokio::test]
async fn a_series_whose_owner_becomes_known_while_it_is_counted_does_not_count_twice_for_good() {
    let service = service(Quota::default());
    assert_eq!(service.post("A", &names("a", 1)).await, Ok(()));
    service.flushed.add("A", &names("a", 1));
    let owned = OwnerBecomesKnown(service.flushed.clone(), AtomicU64::new(0));
    for _ in 0..2 {
        service.quotas.counted.count(&owned, Duration::ZERO);
    }
    assert_eq!((service.quotas.counted.all(), service.quotas.counted.of("A")), (1, 1));
}

/// Otherwise many posts at once could each find the room that is there for one.
#[tokio::test]
async fn posts_that_are_under_way_share_what_is_left_to_all() {
    let service = service(Quota::default());
    let all = |all| Some(OverQuota::All { all, most: 100 });
    let first = service.claim("A", &names("a", 60)).await.unwrap();
    let new = async { service.claim("B", &names("b", 60)).await.err() };
    let known = async { service.claim("C", &names("a", 60)).await.map(drop) };
    let taken = async {
        tokio::time::sleep(3 * PAUSE).await;
        service.take("A", &names("a", 60), first);
    };
    let (new, known, ()) = tokio::join!(new, known, taken);
    assert_eq!((new, known), (all(60), Ok(())), "those of the third are no new ones");
    assert_eq!(service.post("B", &names("b", 40)).await, Ok(()));
    assert_eq!(service.claim("B", &names("c", 1)).await.err(), all(100));
}

/// A long post claims room for all its points, of which few may be new series.
#[tokio::test]
async fn no_post_is_refused_for_what_others_may_bring() {
    let service = service(Quota::default());
    let long = service.claim("A", &names("a", 60)).await.unwrap();
    assert_eq!(service.claim("B", &names("b", 60)).await.map(drop), Ok(()));
    drop(long);
    assert_eq!(service.post("B", &names("b", 100)).await, Ok(()));
}

/// Otherwise many posts at once could each find the room that is there for one.
#[tokio::test]
async fn posts_that_are_under_way_share_what_is_left() {
    let service = of_series(5);
    let first = service.claim("A", &names("a", 4)).await.unwrap();
    let over = service.claim("A", &names("b", 2)).await.err();
    assert_eq!(over.map_or(Ok(()), Err), used_up(0, 5));
    let second = async { service.claim("A", &names("a", 2)).await.map(drop) };
    let taken = async {
        tokio::time::sleep(3 * PAUSE).await;
        service.take("A", &names("a", 4), first);
    };
    assert_eq!(tokio::join!(second, taken).0, Ok(()), "they are no new ones");
    drop(service.claim("made up", &names("c", 1)).await.unwrap());
    assert!(service.claim("made up", &names("c", 6)).await.is_err());
    assert_eq!(service.quotas.counted.each(), [("A".to_string(), 4)].into());
}

/// Otherwise the first post of a sender with very many series would take the room of all others. If it were answered as
/// retryable, it would be retried for ever.
#[tokio::test]
async fn no_post_has_more_new_series_than_a_share() {
    let service = of_series(5);
    let alone = || Err(OverQuota::Alone { sender: "A".into(), most: 5 });
    assert_eq!(service.post("A", &names("a", 6)).await, alone());
    assert_eq!(Outcome::from(alone().unwrap_err()).status(), 413);
    let many_points = vec![names("a", 5); 10].concat();
    drop(service.claim("A", &many_points).await.unwrap());
    assert_eq!(service.post("A", &names("a", 3)).await, Ok(()));
    service.flush();
    let with = async |new| service.post("A", &[names("a", 3), names("b", new)].concat()).await;
    assert_eq!(with(6).await, alone());
    assert_eq!(with(3).await, used_up(3, 5), "some may be forgotten");
    assert_eq!(with(2).await, Ok(()));
}

#[tokio::test]
async fn series_without_numbers_are_known_once_they_were_flushed() {
    let service = of_series(5);
    let post = async |names: &[String], unflushed| {
        let claim = service.claim_by("A", names, || Series::Text(body(names)), unflushed).await;
        claim.map(|claim| service.take("A", names, claim))
    };
    assert_eq!(post(&names("a", 3), 0).await, Ok(()));
    service.flush();
    assert_eq!(post(&[names("a", 3), names("b", 2)].concat(), 0).await, Ok(()));
    assert_eq!(post(&names("c", 6), 0).await, Err(OverQuota::Alone { sender: "A".into(), most: 5 }));
    assert_eq!(post(&names("c", 6), 1).await, used_up(5, 5), "one may be taken, and in no flush yet");
}

/// Otherwise a sender that is refused for another reason would use up its quota.
#[tokio::test]
async fn points_of_what_is_not_taken_are_given_back() {
    let service = service(Quota { series: None, points: Some(1) });
    let claim = async |points| service.claim("A", &names("a", points)).await;
    for _ in 0..100 {
        drop(claim(60).await.unwrap());
    }
    claim(60).await.unwrap().keep(1, 1);
    let over = claim(1).await.err().unwrap();
    assert_eq!(over.to_string(), "over its quota: A may post 1 points a second, 60 at once: retry in 1 s");
    assert_eq!(Outcome::from(over).again_in(), Some(1));
}

#[tokio::test]
async fn those_that_are_nearest_come_first() {
    let service = service(Quota { series: Some(20), points: Some(1) });
    for number in 0..12 {
        let sender = format!("s{number:02}");
        service.claim(&sender, &names("a", number)).await.unwrap().keep(1, 1);
        service.quotas.came(&sender, 12 - number, || Series::Text(Bytes::new()));
    }
    let nearest = service.quotas.nearest();
    assert_eq!(nearest.len(), SHOWN);
    assert_eq!((&*nearest[0].sender, nearest[0].series, nearest[0].max_series), ("s00", 12, Some(20)));
    assert_eq!(nearest[0].part(), 0.6);
    let last = nearest.iter().find(|used| used.sender == "s08").map(|used| used.max_points);
    assert_eq!(last, Some(Some(60)));
}
