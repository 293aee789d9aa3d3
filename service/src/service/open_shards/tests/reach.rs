//! Instances that share shards: a command at one of them is carried out in all shards, or the answer names the shards
//! in which it is not, and where to ask.

mod again;
mod ready;
mod told;

use super::*;
use crate::admin::StoreHealth;
use crate::cluster::terms::{Doing, Instance, InstanceReport, Row, Seen};
use crate::cluster::{Answers, Asks, Cluster, Forwarded as Brought, ShardOwner, UnresponsivePeer};
use crate::metrics::ClusterMetrics;
use crate::storage::shard_store::{self, memory::Store};
use crate::store::postgres::Copies;
use serde_json::Value as Json;
use std::collections::HashMap;

/// How an instance behaves when it is asked.
#[derive(Clone, Copy, PartialEq, Eq)]
enum Mood {
    Well,
    /// It answers that it is not there.
    Refuses,
    /// It never answers.
    StandsStill,
    /// It carries out the command, and its answer is lost.
    LosesAnswers,
}

/// The instance at each address.
#[derive(Default)]
struct Net(Mutex<HashMap<String, (Arc<AdminApi>, Mood)>>);

impl Net {
    fn mood(&self, name: &str, mood: Mood) {
        self.0.lock().unwrap().get_mut(name).unwrap().1 = mood;
    }
}

struct Through(Arc<Net>);

impl Asks for Through {
    fn put_question<'a>(
        &'a self,
        address: &'a str,
        question: Vec<u8>,
        within: Duration,
    ) -> Doing<'a, Result<Bytes, String>> {
        let found = self.0 .0.lock().unwrap().get(address).cloned();
        Box::pin(async move {
            let (admin, mood) = found.ok_or("no such address")?;
            match mood {
                Mood::Well => {
                    Ok(admin.answer_question(question.into()).await.ok_or("it can't be read")?.into())
                }
                Mood::LosesAnswers => {
                    admin.answer_question(question.into()).await.ok_or("it can't be read")?;
                    Err("connection reset".into())
                }
                Mood::Refuses => Err("connection refused".into()),
                Mood::StandsStill => {
                    tokio::time::sleep(within).await;
                    Err("it has not answered in time".into())
                }
            }
        })
    }

    fn forwarded(&self) -> Brought {
        Brought::default()
    }

    fn unanswering(&self) -> Vec<UnresponsivePeer> {
        let all = self.0 .0.lock().unwrap();
        let stand_still = all.iter().filter(|(_, (_, mood))| *mood == Mood::StandsStill);
        let unanswering = |address: &String| UnresponsivePeer {
            address: address.clone(),
            time: Duration::from_secs(12),
            why: "broken pipe".into(),
        };
        stand_still.map(|(address, _)| unanswering(address)).collect()
    }
}

/// Instances a and b: a has shards 0 and 2, b has shard 1.
struct Both {
    net: Arc<Net>,
    a: Service,
    b: Service,
    clusters: [Arc<Cluster>; 2],
}

fn there(name: &str) -> ShardOwner {
    ShardOwner::There { name: name.into(), address: name.into(), term: 1 }
}

fn instance(name: &str, place: &Path, net: &Arc<Net>) -> (Service, Arc<Cluster>) {
    let cluster = Cluster::new(name, None);
    let others = Others {
        cluster: cluster.clone(),
        asks: Arc::new(Through(net.clone())),
        database: StoreHealth::of("db/x".into(), Copies::Two, Arc::default()),
        metrics: ClusterMetrics::of(&Metrics::new().unwrap().registry).unwrap(),
        instance: name.into(),
        address: name.into(),
    };
    let service = Service::of(settings(place), Some(others));
    let at = (service.admin.clone(), Mood::Well);
    net.0.lock().unwrap().insert(name.into(), at);
    (service, cluster)
}

/// What a heartbeat reads of both.
fn seen() -> Seen {
    let instance = |name: &str| Instance {
        name: name.into(),
        address: name.into(),
        operate: format!("{name}.example:4319"),
        version: "1".into(),
        beat: 1,
        life: 1,
        lives: [].into(),
        told: InstanceReport::default(),
    };
    let row = |(shard, owner): (u16, &str)| Row { shard, term: 1, owner: owner.into() };
    Seen {
        instances: vec![instance("a"), instance("b")],
        shards: [(0, "a"), (1, "b"), (2, "a")].map(row).into(),
        life: 1,
        ..Seen::default()
    }
}

impl Both {
    async fn new() -> Both {
        let places = [folder(), folder()];
        let net = Arc::<Net>::default();
        let (a, of_a) = instance("a", &places[0], &net);
        let (b, of_b) = instance("b", &places[1], &net);
        let here = ShardOwner::Here { term: 1 };
        of_a.knows(&[(0, here.clone()), (1, there("b")), (2, here.clone())]);
        of_b.knows(&[(0, there("a")), (1, here), (2, there("a"))]);
        for cluster in [&of_a, &of_b] {
            cluster.has_seen(seen());
        }
        a.open(0).await;
        a.open(2).await;
        b.open(1).await;
        Both { net, a, b, clusters: [of_a, of_b] }
    }

    /// A point for each shard, posted at the instance that owns it.
    async fn post(&self, end: u64) -> [u16; 2] {
        [self.a.post(&[0, 2], end).await.status(), self.b.post(&[1], end).await.status()]
    }
}

async fn json(service: &Service, method: &str, path: &str) -> (u16, Json) {
    let (status, text) = service.ask(method, path).await;
    (status, serde_json::from_str(&text).expect(&text))
}

fn acts(service: &Service) -> Vec<(String, String, Option<String>)> {
    let text = std::fs::read_to_string(service.place.join("acts.jsonl")).unwrap_or_default();
    let lines = text.lines().map(|line| serde_json::from_str::<Json>(line).unwrap());
    let word = |line: &Json, name: &str| line[name].as_str().map(String::from);
    lines
        .map(|line| {
            let (who, act) = (word(&line, "who").unwrap(), word(&line, "action").unwrap());
            (who, act, word(&line, "outcome"))
        })
        .collect()
}

#[tokio::test]
async fn an_order_is_carried_out_in_all_shards_and_each_instance_writes_down_who_gave_it() {
    let both = Both::new().await;
    assert_eq!(both.post(10).await, [200, 200]);
    let flushed = both.b.ask("POST", "/flush").await;
    assert_eq!(flushed, (200, r#"{"requests":3}"#.to_string()));
    assert_eq!(both.a.ask("POST", "/quarantine/A").await.0, 200);
    assert_eq!(both.post(20).await, [403, 403]);
    let again = both.b.ask("POST", "/quarantine/A").await;
    assert_eq!(again.0, 400, "all had it: {}", again.1);
    assert_eq!(both.b.ask("POST", "/release/A").await.0, 200);
    assert_eq!(both.post(20).await, [200, 200]);
    let at_a = acts(&both.a);
    assert_eq!(at_a[0], ("operator".into(), "quarantine".into(), None));
    assert_eq!(at_a[1].2.as_deref(), Some("done"));
    let at_b = acts(&both.b);
    assert_eq!(at_b[0], ("operator (at a)".into(), "quarantine".into(), None));
    assert_eq!(at_b[1].2.as_deref(), Some("done in shard 1"));
    assert!(at_a.iter().any(|(who, act, _)| who == "operator (at b)" && act == "release"), "{at_a:?}");
}

/// Otherwise one shard would accept a sender that another one refuses, unnoticed.
#[tokio::test]
async fn where_an_instance_is_silent_it_is_said_by_shard_what_was_done_and_asked_again_it_is_whole() {
    let both = Both::new().await;
    both.net.mood("b", Mood::Refuses);
    let (status, text) = both.a.ask("POST", "/quarantine/A").await;
    assert_eq!(status, 503);
    for part in [
        "2 of 3 shards did it, and not shard 1: instance b at b does not answer: connection refused",
        "totxegun status",
        "give the order again",
    ] {
        assert!(text.contains(part), "{part} in {text}");
    }
    assert_eq!(both.post(10).await, [403, 200]);
    both.net.mood("b", Mood::Well);
    assert_eq!(both.a.ask("POST", "/quarantine/A").await.0, 200);
    assert_eq!(both.post(20).await, [403, 403]);
    both.net.mood("b", Mood::LosesAnswers);
    let (status, why) = both.a.ask("POST", "/release/A").await;
    assert!(status == 503 && why.contains("give the order again"), "{status} {why}");
    both.net.mood("b", Mood::Well);
    let (status, why) = both.a.ask("POST", "/release/A").await;
    assert!(status == 200 && why.contains("it is not quarantined"), "it was done: {status} {why}");
    assert_eq!(both.post(20).await, [200, 200]);
    for (service, shards) in [(&both.a, 2), (&both.b, 1)] {
        let (status, report) = service.ask("GET", "/report").await;
        let series = report.lines().filter(|line| line.starts_with("series")).count();
        assert_eq!((status, series), (200, shards), "of its own shards: {report}");
    }
}

/// The answer of an instance that does not own the shard: its status, where to ask, and its message.
async fn redirected(service: &Service, method: &str, path: &str) -> (u16, String, String) {
    let request = Request::builder().method(method).uri(path).body(Body::empty()).unwrap();
    let answer = crate::ingest::connections::Handler::answer(service.admin.clone(), request).await;
    let (status, location) = (answer.status().as_u16(), answer.headers().get("location").cloned());
    let location = location.map(|at| at.to_str().unwrap().to_string()).unwrap_or_default();
    let body = hyper::body::to_bytes(answer.into_body()).await.unwrap();
    let message: Json = serde_json::from_slice(&body).unwrap();
    (status, location, message["message"].as_str().unwrap().to_string())
}

#[tokio::test]
async fn a_shard_that_moves_is_found_where_it_has_come_to() {
    let both = Both::new().await;
    assert_eq!(both.post(10).await, [200, 200]);
    // The shard moves here while its former instance stalls with the question.
    both.net.mood("b", Mood::StandsStill);
    let admin = both.a.admin.clone();
    let flushing = tokio::spawn(async move {
        let request = Request::post("/flush").body(Body::empty()).unwrap();
        crate::ingest::connections::Handler::answer(admin, request).await.status().as_u16()
    });
    tokio::time::sleep(Duration::from_millis(100)).await;
    assert!(!flushing.is_finished());
    both.a.open(1).await;
    let here = ShardOwner::Here { term: 2 };
    both.clusters[0].knows(&[(0, here.clone()), (1, here.clone()), (2, here)]);
    let ended = tokio::time::timeout(Duration::from_secs(20), flushing).await;
    assert_eq!(ended.unwrap().unwrap(), 200);
    // A shard without an owner is looked for, and named.
    both.a.open_shards.hand_over(1).await.unwrap();
    both.clusters[0].knows(&[(0, there("b")), (1, ShardOwner::Nobody), (2, there("b"))]);
    let (status, text) = both.a.ask("POST", "/flush").await;
    assert!(status == 503 && text.contains("not shard 1: no instance has it"), "{status} {text}");
    // An instance that is asked about a shard it does not have says so.
    both.clusters[0].knows(&[(1, there("b"))]);
    both.net.mood("b", Mood::Well);
    both.b.open_shards.hand_over(1).await.unwrap();
    let (status, text) = both.a.ask("POST", "/flush").await;
    assert!(status == 503 && text.contains("not shard 1: it is being moved"), "{status} {text}");
}

#[tokio::test]
async fn the_status_is_of_all_and_a_period_is_closed_once_all_is_known_to_be_in_the_sink() {
    let both = Both::new().await;
    assert_eq!(both.post(10).await, [200, 200]);
    let why = |text: &Json| text["message"].as_str().unwrap().to_string();
    let (status, text) = json(&both.a, "POST", "/close/2026-10").await;
    assert!(status == 409 && why(&text).contains("not flushed"), "{text}");
    assert_eq!(both.a.ask("POST", "/flush").await.0, 200);
    both.a.taken().await;
    both.b.taken().await;
    assert_eq!(both.b.post(&[1], 20).await.status(), 200);
    let (status, text) = json(&both.a, "POST", "/close/2026-10").await;
    assert!(status == 409 && why(&text).contains("not flushed"), "of another instance's shard: {text}");
    let (_, seen) = json(&both.a, "GET", "/status").await;
    let of = |name: &str| -> Vec<Json> {
        let shards = seen["shards"].as_array().unwrap().iter();
        shards.map(|shard| shard[name].clone()).collect()
    };
    assert_eq!(of("shard"), [0, 1, 2].map(Json::from));
    assert_eq!(of("owner"), ["a", "b", "a"].map(Json::from));
    let instances = seen["cluster"]["instances"].as_array().unwrap();
    let shown: Vec<_> = instances
        .iter()
        .map(|one| (one["name"].as_str().unwrap(), one["shards"].as_u64().unwrap()))
        .collect();
    assert_eq!(shown, [("a", 2), ("b", 1)]);
    assert_eq!(seen["cluster"]["instance"], "a");
    let database = &seen["cluster"]["database"];
    assert_eq!((&database["database"], &database["copies_asked"]), (&"db/x".into(), &2.into()));
    let (_, page) = both.a.ask("GET", "/").await;
    assert!(page.contains("<h2>Instances</h2>") && page.contains("takes posts"), "{page}");
    let (_, metrics) = both.a.ask("GET", "/metrics").await;
    assert!(metrics.contains("totxegun_ready 1"), "{metrics}");
    both.net.mood("b", Mood::Refuses);
    let (status, text) = json(&both.a, "POST", "/close/2026-10").await;
    let wanted =
        "shard 1 can't be asked, and may have some (instance b: it does not answer: connection refused)";
    assert!(status == 409 && why(&text).contains(wanted), "{text}");
    let (_, seen) = json(&both.a, "GET", "/status").await;
    assert_eq!(seen["shards"][1]["unknown"], "instance b: it does not answer: connection refused");
    both.net.mood("b", Mood::StandsStill);
    let (_, seen) = json(&both.b, "GET", "/status").await;
    let of_a = &seen["cluster"]["instances"][1];
    let wanted = "its posts to instance b have had no answer for 12 s: broken pipe";
    assert_eq!((&of_a["name"], &of_a["trouble"]), (&"a".into(), &wanted.into()));
}

#[tokio::test]
async fn series_are_found_in_all_shards_and_forgotten_by_the_instances_that_have_them() {
    let both = Both::new().await;
    assert_eq!(both.post(10).await, [200, 200]);
    let (status, why) = both.b.ask("POST", "/forget?series=m").await;
    assert!(status == 409 && why.contains("give --force"), "{why}");
    let (status, why) = both.b.ask("POST", "/forget?series=m&force").await;
    assert!(status == 409 && why.contains("3 series are named so"), "{status} {why}");
    let (status, why) = both.b.ask("POST", "/forget?series=x&force").await;
    assert!(
        status == 200 && why.contains("no series is named x: nothing of it is known yet"),
        "{status} {why}"
    );
    let process: Json = serde_json::from_str(&attributes(2)).unwrap();
    let process = process[0]["value"]["stringValue"].as_str().unwrap();
    let one = format!("/forget?series=m%7Bservice.instance.id%3D{process}%7D&force");
    let (status, location, why) = redirected(&both.b, "POST", &one).await;
    assert_eq!((status, location), (307, format!("http://a.example:4319{one}")), "{why}");
    assert_eq!(both.a.post(&[2], 5).await.status(), 400, "it is known as yet");
    let (status, told) = json(&both.a, "POST", &one).await;
    assert!(
        status == 200 && told["message"].as_str().unwrap().starts_with("1 series is forgotten"),
        "{told}"
    );
    assert_eq!(both.a.post(&[2], 10).await.status(), 200, "as a new one");
    assert_eq!(both.a.post(&[0], 5).await.status(), 400, "it is known");
    // If a command concerns several instances, each carries out its part and says where the others are.
    let all = "/forget?series=m&all&force";
    let (status, location, told) = redirected(&both.a, "POST", all).await;
    assert_eq!((status, location), (307, format!("http://b.example:4319{all}")));
    let others = "others are elsewhere: shard 1 is at instance b";
    assert!(told.starts_with("2 series are forgotten") && told.contains(others), "{told}");
    let (status, told) = json(&both.b, "POST", all).await;
    assert!(
        status == 200 && told["message"].as_str().unwrap().starts_with("1 series is forgotten"),
        "{told}"
    );
    assert_eq!(both.post(10).await, [200, 200]);
    for service in [&both.a, &both.b] {
        let text = std::fs::read_to_string(service.place.join("acts.jsonl")).unwrap();
        let last: Json = serde_json::from_str(text.lines().next_back().unwrap()).unwrap();
        assert_eq!(
            (&last["action"], &last["args"].to_string()[..]),
            (&"forget".into(), r#"["--all","--force"]"#)
        );
    }
    both.net.mood("b", Mood::Refuses);
    let (status, why) = both.a.ask("POST", all).await;
    assert!(status == 503 && why.contains("not shard 1"), "{status} {why}");
}
