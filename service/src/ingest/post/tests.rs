//! What each shard is asked, and how the answers of several are combined.

use super::*;
use crate::identity::Sender;
use crate::ingest::head::Packing;
use crate::ingest::sender::Poster;
use crate::ingest::{Budget, Ingest};
use crate::otlp::{shard_of, Reason, Resources};
use crate::shard::{ByNumber, Forwarder};
use std::future::Future;
use std::pin::Pin;
use std::sync::Mutex;

const SHARDS: u16 = 3;

/// Records the posts it gets and returns `outcome`; panics if there is none.
struct Kept {
    posts: Mutex<Vec<(String, Bytes)>>,
    /// The requests as their senders sent them.
    originals: Mutex<Vec<Bytes>>,
    outcome: Option<Outcome>,
}

impl PostHandler for Kept {
    fn wants_originals(&self) -> bool {
        true
    }

    fn post(
        self: &Arc<Self>,
        sender: &str,
        request: Request,
        original: Option<Original>,
    ) -> impl Future<Output = Outcome> + Send {
        let body = request.source().text().unwrap();
        self.posts.lock().unwrap().push((sender.into(), body));
        self.originals.lock().unwrap().extend(original.map(|original| original.body));
        let outcome = self.outcome.clone();
        async move { outcome.expect("it was told to fail") }
    }
}

/// Stands for the other instances.
struct Others {
    posts: Mutex<Vec<(u16, String, Bytes)>>,
    outcome: Outcome,
}

impl Forwarder for Others {
    fn post<'a>(
        &'a self,
        shard: u16,
        sender: &'a str,
        part: Original,
    ) -> Pin<Box<dyn Future<Output = Outcome> + Send + 'a>> {
        self.posts.lock().unwrap().push((shard, sender.into(), part.body));
        Box::pin(std::future::ready(self.outcome.clone()))
    }
}

struct Served {
    kept: Arc<Kept>,
    others: Arc<Others>,
    shards: Arc<Shards<Kept>>,
    ingest: Ingest<Kept>,
    budget: Arc<Budget>,
}

/// Shard 1 is here; other instances own the others.
fn served(here: Option<Outcome>, elsewhere: Outcome) -> Served {
    served_with(here, elsewhere, Reading::default())
}

fn served_with(here: Option<Outcome>, elsewhere: Outcome, reading: Reading) -> Served {
    let kept = Arc::new(Kept { posts: Mutex::default(), originals: Mutex::default(), outcome: here });
    let others = Arc::new(Others { posts: Mutex::default(), outcome: elsewhere });
    let reading = Arc::new(reading);
    let shards = Shards::several(Resources::new(SHARDS, reading.clone()), Some(others.clone()));
    shards.set(1, Some(kept.clone()));
    let (budget, metrics) = (Budget::new(64 << 20), Arc::new(Metrics::new().unwrap()));
    let ingest = Ingest::of(shards.clone(), Arc::new(()), reading, budget.clone(), metrics);
    Served { kept, others, shards, ingest, budget }
}

impl Served {
    async fn post(&self, encoding: Encoding, body: Bytes) -> Outcome {
        self.post_as("A".into(), encoding, body).await
    }

    async fn post_as(&self, sender: Poster, encoding: Encoding, body: Bytes) -> Outcome {
        let head = Head { sender, encoding, packing: Packing::Plain };
        let said = self.ingest.put(head, body, self.budget.hold()).await;
        assert_eq!(self.budget.used(), 0);
        said
    }

    fn kept(&self) -> Vec<(String, Bytes)> {
        std::mem::take(&mut *self.kept.posts.lock().unwrap())
    }

    fn originals(&self) -> Vec<Bytes> {
        std::mem::take(&mut *self.kept.originals.lock().unwrap())
    }

    fn others(&self) -> Vec<(u16, String, Bytes)> {
        std::mem::take(&mut *self.others.posts.lock().unwrap())
    }
}

fn attributes(name: &str) -> String {
    format!(r#"[{{"key":"id","value":{{"stringValue":"{name}"}}}}]"#)
}

/// The name of a resource that belongs to this shard.
fn name_of(shard: u16) -> String {
    let mut names = (0..).map(|number| number.to_string());
    names.find(|name| shard_of(&attributes(name), SHARDS) == shard).unwrap()
}

/// A resource of this shard with so many points.
fn element(shard: u16, points: usize) -> String {
    let name = name_of(shard);
    let point = r#"{"asInt":"1","startTimeUnixNano":"1","timeUnixNano":"2"}"#;
    format!(
        r#"{{"resource":{{"attributes":{}}},"scopeMetrics":[{{"scope":{{"name":"","version":"","attributes":[]}},"metrics":[{{"name":"m","unit":"","sum":{{"aggregationTemporality":1,"isMonotonic":false,"dataPoints":[{}]}}}}]}}]}}"#,
        attributes(&name),
        vec![point; points].join(",")
    )
}

fn request(elements: &[String]) -> Bytes {
    format!(r#"{{"resourceMetrics":[{}]}}"#, elements.join(",")).into()
}

/// The same request in protobuf.
fn in_protobuf(body: &Bytes) -> Bytes {
    let body = String::from_utf8(body.to_vec()).unwrap();
    // The book forwards points with their attributes, even if there are none.
    let body = body.replace(r#"{"asInt""#, r#"{"attributes":[],"asInt""#);
    otlp::protobuf_of_forwarded(body.as_bytes()).unwrap().into()
}

fn late(point: u64) -> Outcome {
    book::Refused::OutOfOrder { point, frontier: 5 }.into()
}

#[tokio::test]
async fn each_shard_is_asked_for_its_resources() {
    let elements = [element(1, 2), element(2, 3), element(1, 1), element(0, 4)];
    let served = served(Some(Outcome::taken(0)), late(1));
    let body = request(&elements);
    for (encoding, body) in [(Encoding::Json, body.clone()), (Encoding::Protobuf, in_protobuf(&body))] {
        let said = served.post(encoding, body).await;
        let Outcome::Taken { rejected, .. } = &said else {
            panic!("{said:?}");
        };
        // Point 3 of the request belongs to shard 2, point 7 to shard 0.
        let why = "3 points are refused: duplicate or late: point 3, frontier 5; 4 points are refused: duplicate or late: point 7, frontier 5";
        assert_eq!((*rejected, said.message().as_deref()), (7, Some(why)));
        let text = String::from_utf8(said.body(Encoding::Json)).unwrap();
        assert!(text.contains(r#""rejectedDataPoints":"7""#), "{text}");
        let binary = said.body(Encoding::Protobuf);
        assert!(binary.windows(why.len()).any(|part| part == why.as_bytes()) && binary.contains(&7));
        let kept = served.kept();
        let of_shard = crate::otlp::posted_of_test(&kept[0].1).unwrap();
        assert_eq!((kept.len(), kept[0].0.as_str(), of_shard.series.len()), (1, "A", 1));
        let mut others = served.others();
        others.sort();
        let shards: Vec<_> = others.iter().map(|(shard, sender, _)| (*shard, sender.as_str())).collect();
        assert_eq!(shards, [(0, "A"), (2, "A")]);
        let points = others.into_iter().map(|(_, _, body)| Original { encoding, body }.points());
        assert_eq!(points.collect::<Vec<_>>(), [4, 3]);
    }
}

#[tokio::test]
async fn a_request_of_one_shard_goes_as_it_came() {
    let served = served(Some(late(7)), late(9));
    let here = request(&[element(1, 2), element(1, 1)]);
    assert_eq!(served.post(Encoding::Json, here.clone()).await, late(7));
    assert_eq!(served.kept(), [("A".to_string(), here)]);
    let there = request(&[element(2, 2), element(2, 1)]);
    assert_eq!(served.post(Encoding::Json, there.clone()).await, late(9));
    assert_eq!(served.others(), [(2, "A".to_string(), there)]);
    let unreadable = Bytes::from_static(b"{\"resourceMetrics\":");
    assert_eq!(served.post(Encoding::Json, unreadable.clone()).await, late(9));
    assert_eq!(served.others(), [(0, "A".to_string(), unreadable)]);
    served.shards.set(2, Some(served.kept.clone()));
    let both = request(&[element(2, 1), element(1, 1)]);
    assert_eq!(served.post(Encoding::Json, both).await, late(7));
    assert_eq!(served.kept().len(), 2);
}

/// The other parts are taken.
#[tokio::test]
async fn what_can_t_be_read_is_refused_with_its_part() {
    let served = served(Some(Outcome::taken(0)), late(0));
    served.shards.set(0, Some(served.kept.clone()));
    let wrong =
        r#"{"resource":{"labels":[5]},"scopeMetrics":[{"metrics":[{"gauge":{"dataPoints":[{},{}]}}]}]}"#;
    let body = request(&[wrong.into(), element(1, 2)]);
    let said = served.post(Encoding::Json, body).await;
    let text = String::from_utf8(said.body(Encoding::Json)).unwrap();
    let why = "2 points are refused: not JSON of OTLP: Resource: labels is of an old version";
    assert!(said.status() == 200 && text.contains(why), "{text}");
    assert_eq!(served.kept().len(), 1);
    let alone = served.post(Encoding::Json, request(&[wrong.into()])).await;
    assert_eq!(alone.status(), 400);
}

/// The post may have been taken.
#[tokio::test]
async fn a_shard_that_fails_makes_all_of_it_to_be_sent_again() {
    let served = served(None, Outcome::taken(0));
    let said = served.post(Encoding::Json, request(&[element(1, 1), element(2, 1)])).await;
    assert_eq!(said.status(), 503);
    let lone = Shards::<Kept>::several(Resources::new(SHARDS, Arc::default()), None);
    let part = Original { encoding: Encoding::Json, body: request(&[element(1, 1)]) };
    let nobody = lone.elsewhere(1, "A", part).await;
    assert_eq!(nobody, crate::otlp::Reason::NoOwner.into());
}

#[tokio::test]
async fn a_part_that_another_instance_got_is_taken_where_its_shard_is() {
    let served = served(Some(Outcome::taken(0)), late(0));
    let body = request(&[element(1, 2)]);
    let part = |body: &Bytes| Original { encoding: Encoding::Json, body: body.clone() };
    assert_eq!(served.ingest.forwarded(1, "B", part(&body)).await, Some(Outcome::taken(0)));
    assert_eq!(served.kept(), [("B".to_string(), body.clone())]);
    assert_eq!(served.ingest.forwarded(2, "B", part(&body)).await, None);
    let wrong = served.ingest.forwarded(1, "B", part(&Bytes::from_static(b"{"))).await;
    assert_eq!(wrong.map(|said| said.status()), Some(400));
    assert_eq!((served.kept().len(), served.budget.used()), (0, 0));
}

/// Has no room for the series names of a post.
struct WithoutRoom;

impl PostHandler for WithoutRoom {
    fn numbered_text(&self, _: &Bytes) -> Result<Option<ByNumber>, book::Refused> {
        Err(book::Refused::LongSeries)
    }

    async fn post(self: &Arc<Self>, _: &str, _: Request, _: Option<Original>) -> Outcome {
        panic!("it was not read")
    }
}

/// Neither the shard here, nor another instance, nor the forwarded original has the body's own claim about its sender.
#[tokio::test]
async fn whoever_gets_a_part_of_a_post_gets_the_name_that_its_sender_proves() {
    let reading = Reading { sender_attribute: Some("id".into()), ..Reading::default() };
    let body = request(&[element(0, 1), element(1, 1), element(2, 1)]);
    for (shard, is_here) in [(1, true), (2, false)] {
        let served = served_with(Some(Outcome::taken(0)), Outcome::taken(0), reading.clone());
        let own = name_of(shard);
        for (encoding, body) in [(Encoding::Json, body.clone()), (Encoding::Protobuf, in_protobuf(&body))] {
            let proved = Sender { name: own.clone(), others: Vec::new() };
            let sender = Poster { name: "B".into(), proved: Some(Arc::new(proved)) };
            assert_eq!(served.post_as(sender, encoding, body).await, Outcome::taken(0));
            let kept = served.kept().into_iter().map(|(sender, text)| (sender, Encoding::Json, text));
            let originals = served.originals().into_iter().map(|body| ("B".into(), encoding, body));
            let others = served.others();
            assert!(others.iter().all(|(of, _, _)| *of == shard));
            let others = others.into_iter().map(|(_, sender, body)| (sender, encoding, body));
            let all: Vec<(String, Encoding, Bytes)> = kept.chain(originals).chain(others).collect();
            assert_eq!(all.len(), if is_here { 2 } else { 1 });
            for (sender, encoding, body) in all {
                let text = otlp::prepare(encoding, body, &Reading::default()).unwrap().body;
                let text = String::from_utf8(text.to_vec()).unwrap();
                assert_eq!((sender.as_str(), text.matches(&attributes(&own)).count()), ("B", 3), "{text}");
            }
        }
    }
}

/// No address with this option lets in a sender that proves nothing; if one did, its posts would still be refused.
#[tokio::test]
async fn who_proves_nothing_is_refused_where_its_series_are_to_be_its_own() {
    let reading = Reading { sender_attribute: Some("id".into()), ..Reading::default() };
    let served = served_with(Some(Outcome::taken(0)), Outcome::taken(0), reading);
    let said = served.post(Encoding::Json, request(&[element(1, 1)])).await;
    assert_eq!((said.status(), said.reason()), (400, Some(Reason::NoSender)));
    assert!(served.kept().is_empty() && served.others().is_empty());
}

/// The message must not blame the length of the body.
#[tokio::test]
async fn what_has_too_long_series_is_told_so() {
    let budget = Budget::new(64 << 20);
    let reading = Arc::new(Reading { profile: Profile::AlsoCumulative, ..Reading::default() });
    let (shards, metrics) = (Shards::one(Some(Arc::new(WithoutRoom))), Arc::new(Metrics::new().unwrap()));
    let ingest = Ingest::of(shards, Arc::new(()), reading, budget.clone(), metrics);
    let metric = r#"{"name":"m","sum":{"aggregationTemporality":2,"dataPoints":[]}}"#;
    let body = format!(r#"{{"resourceMetrics":[{{"scopeMetrics":[{{"metrics":[{metric}]}}]}}]}}"#);
    let head = Head { sender: "A".into(), encoding: Encoding::Json, packing: Packing::Plain };
    let said = ingest.put(head, body.into(), budget.hold()).await;
    assert_eq!((said.status(), said.refusal()), (413, Some(&*book::Refused::LongSeries.to_string())));
}
