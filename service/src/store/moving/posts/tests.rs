//! Each part of a post goes to the shard of its series, and nothing is lost or doubled.

use super::*;
use crate::journal::OfRun;
use crate::otlp::series::SeriesKey;
use std::collections::BTreeMap;

const SHARDS: u16 = 8;

fn resource(name: &str, points: &[&str]) -> String {
    let metrics: Vec<String> = points.iter().map(|point| metric(point)).collect();
    let metrics = metrics.join(",");
    format!(
        r#"{{"resource":{{"attributes":[{{"key":"r","value":{{"stringValue":"{name}"}}}}]}},"scopeMetrics":[{{"metrics":[{metrics}]}}]}}"#
    )
}

/// A metric with `?` in its name is rejected.
fn metric(name: &str) -> String {
    let value = if name.contains('?') { "\"asDouble\":0.5" } else { "\"asInt\":\"5\"" };
    format!(
        r#"{{"name":"{name}","sum":{{"aggregationTemporality":1,"dataPoints":[{{{value},"startTimeUnixNano":"1","timeUnixNano":"2"}}]}}}}"#
    )
}

fn request(resources: &[String]) -> Bytes {
    format!(r#"{{"resourceMetrics":[{}]}}"#, resources.join(",")).into()
}

fn key(name: &str, point: &str) -> SeriesKey {
    only(&request(&[resource(name, &[point])])).unwrap()
}

fn read(body: Body, foreign: u64, named: Vec<(u64, Bytes)>) -> Replayed {
    let sender = "s".into();
    Replayed { post: Post { sender, foreign, body }, named }
}

#[test]
fn a_text_is_parted_by_its_resources_with_what_is_foreign_in_each() {
    let names = ["a", "b", "c", "d", "e"];
    let resources: Vec<String> = names.iter().map(|name| resource(name, &["x", "y?", "z"])).collect();
    let mut posts = Posts::new(SHARDS);
    let parts = posts.parts(read(Body::Text(request(&resources)), 5, Vec::new()));
    assert!(parts.len() > 1, "they have several shards");
    let (mut found, mut foreign) = (BTreeMap::new(), 0);
    for (shard, post) in &parts {
        let Body::Text(body) = &post.body else { panic!("{post:?}") };
        let has = crate::otlp::posted_of_test(body).unwrap();
        assert_eq!(has.foreign, post.foreign);
        foreign += post.foreign;
        found.extend(has.series.into_keys().map(|key| (key, *shard)));
    }
    let wanted = names.iter().flat_map(|name| ["x", "z"].map(|point| key(name, point)));
    let wanted: BTreeMap<_, _> =
        wanted.map(|key| (key.clone(), shard_of_series(&key, SHARDS).unwrap())).collect();
    assert_eq!((found, foreign), (wanted, 5));
}

#[test]
fn points_by_number_go_with_their_runs_and_are_named_anew_where_a_number_means_another_series() {
    let names = ["a", "b", "c", "d"];
    let said = |shift: usize| -> Vec<(u64, Bytes)> {
        let text = |number: usize| request(&[resource(names[(number + shift) % 4], &["x"])]);
        (0..4).map(|number| (number as u64, text(number))).collect()
    };
    let mut points = Points::default();
    for number in 0..4 {
        points.put_run(number, OfRun::Began(u64::from(number)));
        points.push(number.into(), 1, 2, [7]);
    }
    let mut posts = Posts::new(SHARDS);
    let mut generations = Vec::new();
    for shift in [0, 0, 1] {
        let parts = posts.parts(read(Body::Points(points.clone()), 3, said(shift)));
        let mut seen = 0;
        for (shard, post) in &parts {
            let Body::Points(part) = &post.body else { panic!("{post:?}") };
            for (place, point) in (0..).zip(part.each()) {
                let name = names[(point[0] as usize + shift) % 4];
                assert_eq!(shard_of_series(&key(name, "x"), SHARDS), Some(*shard));
                assert_eq!(part.runs()[place as usize], (place, OfRun::Began(point[0])));
                assert_eq!(only(&posts.named.text(point[0])), Some(key(name, "x")));
                seen += 1;
            }
        }
        let foreign: u64 = parts.iter().map(|(_, post)| post.foreign).sum();
        assert_eq!((seen, foreign), (4, 3), "each is told once");
        generations.push(posts.named.generation());
    }
    assert!(generations[0] == generations[1] && generations[1] < generations[2], "{generations:?}");
}

#[test]
fn with_one_shard_a_post_stays_as_it_is() {
    let body = Body::Text(request(&[resource("a", &["x"]), resource("b", &["x"])]));
    let mut posts = Posts::new(1);
    let parts = posts.parts(read(body.clone(), 9, Vec::new()));
    assert!(matches!(&parts[..], [(0, post)] if post.body == body && post.foreign == 9));
}
