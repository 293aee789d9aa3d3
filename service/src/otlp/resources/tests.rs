//! Requests drawn at random, however they are written, and what of them goes where.

use super::*;
use crate::otlp::messages::*;
use crate::otlp::tests::posted;
use crate::otlp::tests::{Random, Spelling};
use crate::otlp::wire::field;
use crate::storage::test_runs::runs;
use prost::Message;
use std::collections::BTreeMap;

const SHARDS: u16 = 7;

fn resources(dropped: &[&str]) -> Resources {
    let reading =
        Reading { dropped: dropped.iter().map(ToString::to_string).collect(), ..Reading::default() };
    Resources::new(SHARDS, Arc::new(reading))
}

/// The parts of a request, whole ones too.
fn parts_of(resources: &Resources, encoding: Encoding, body: &Bytes) -> Vec<(u16, Bytes)> {
    match resources.split(encoding, body) {
        Split::Whole(shard) => vec![(shard, body.clone())],
        Split::Parts(parts) => parts.into_iter().map(|part| (part.shard, part.body)).collect(),
    }
}

/// Where each series ends, and how many points are foreign.
fn read(resources: &Resources, encoding: Encoding, body: &Bytes) -> (BTreeMap<SeriesKey, u64>, u64) {
    let prepared = prepare(encoding, body.clone(), &resources.reading).unwrap();
    let read = posted(&prepared.body).unwrap();
    (read.series.into_iter().collect(), read.foreign)
}

fn shuffle<T>(all: &mut [T], random: &mut Random) {
    for place in 1..all.len() {
        all.swap(place, random.below(place as u64 + 1) as usize);
    }
}

/// The same resource in other words: its attributes in another order, it in parts, and among them what nobody knows.
fn in_other_words(request: &ExportMetricsServiceRequest, random: &mut Random) -> Bytes {
    let mut out = Vec::new();
    for of_resource in &request.resource_metrics {
        let scopes = of_resource.scope_metrics.iter();
        let mut fields: Vec<Vec<u8>> = scopes.map(|scope| field(2, &scope.encode_to_vec())).collect();
        let scopes = fields.len();
        if let Some(resource) = &of_resource.resource {
            let mut pairs = resource.attributes.clone();
            shuffle(&mut pairs, random);
            let mut parts = vec![Vec::new(); 1 + random.below(3) as usize];
            for pair in pairs {
                let place = random.below(parts.len() as u64) as usize;
                parts[place].extend(field(1, &pair.encode_to_vec()));
            }
            for part in &mut parts {
                if random.below(3) == 0 {
                    part.extend(b"\x10\x05\x7a\x01x"); // dropped_attributes_count, and field 15
                }
            }
            fields.extend(parts.iter().map(|part| field(1, part)));
        }
        fields.push(field(3, b"https://schema"));
        fields.push(b"\x4b\x08\x01\x4c".to_vec()); // group 9
        let (of_scopes, others) = fields.split_at_mut(scopes);
        shuffle(others, random);
        let mut all = of_scopes.to_vec();
        for one in others.iter() {
            let place = random.below(all.len() as u64 + 1) as usize;
            all.insert(place, one.clone());
        }
        out.extend(field(1, &all.concat()));
        if random.below(3) == 0 {
            out.extend(b"\x10\x07"); // a field of the request that nobody knows
        }
    }
    out.into()
}

fn spellings(request: &ExportMetricsServiceRequest) -> Vec<Bytes> {
    let spelling =
        |draw: u8| Spelling { proto_names: draw & 1 != 0, numbers: draw & 2 != 0, enum_names: draw & 4 != 0 };
    (0..8).map(|draw| spelling(draw).request(request).into()).collect()
}

/// Else the same series would be counted in two places, each of which takes what the other has.
#[test]
fn all_points_of_a_series_have_one_shard() {
    let (resources, mut random) = (resources(&[]), Random(0x5ee7));
    let (mut split, mut series) = (0, 0);
    let requests = runs(100, 500) as usize;
    for _ in 0..requests {
        let mut request = random.request();
        let whole = Bytes::from(request.encode_to_vec());
        let wanted = read(&resources, Encoding::Protobuf, &whole);
        let mut bodies = vec![(Encoding::Protobuf, whole)];
        for _ in 0..3 {
            bodies.push((Encoding::Protobuf, in_other_words(&request, &mut random)));
        }
        for resource in &mut request.resource_metrics {
            if let Some(resource) = &mut resource.resource {
                shuffle(&mut resource.attributes, &mut random);
            }
        }
        let texts = spellings(&request).into_iter();
        bodies.extend(texts.map(|text| (Encoding::Json, text)));
        for (encoding, body) in bodies {
            let parts = parts_of(&resources, encoding, &body);
            let mut found = (BTreeMap::new(), 0);
            for (shard, part) in &parts {
                let (series, foreign) = read(&resources, encoding, part);
                for key in series.keys() {
                    assert_eq!(shard_of_series(key, SHARDS), Some(*shard), "{key:?} of {body:02x?}");
                }
                found.0.extend(series);
                found.1 += foreign;
            }
            assert_eq!(found, wanted, "{body:02x?}");
            split += usize::from(parts.len() > 1);
        }
        series += wanted.0.len();
    }
    assert!(split > 2 * requests && 5 * series > 3 * requests, "{split} {series}");
}

#[test]
fn what_is_dropped_of_a_resource_has_no_say() {
    let with = |pod: &str| ExportMetricsServiceRequest {
        resource_metrics: vec![ResourceMetrics {
            resource: Some(Resource {
                attributes: [("service.name", "shop"), ("pod", pod)]
                    .map(|(key, value)| KeyValue {
                        key: key.into(),
                        value: Some(AnyValue { value: Some(Any::Text(value.into())) }),
                    })
                    .into(),
            }),
            scope_metrics: Vec::new(),
        }],
    };
    let shards = |resources: &Resources| {
        let mut shards: Vec<u16> = Vec::new();
        for pod in 0..40 {
            let request = with(&pod.to_string());
            shards.push(parts_of(resources, Encoding::Protobuf, &request.encode_to_vec().into())[0].0);
            shards.push(parts_of(resources, Encoding::Json, &spellings(&request)[0])[0].0);
        }
        shards.sort_unstable();
        shards.dedup();
        shards.len()
    };
    assert_eq!(shards(&resources(&["pod"])), 1);
    assert_eq!(shards(&resources(&[])), usize::from(SHARDS));
}

/// Shard 0 refuses it, or finds its points foreign.
#[test]
fn what_can_t_be_read_is_shard_0_s() {
    let resources = resources(&[]);
    let sound = field(1, &field(1, &field(1, b"\x0a\x01a\x12\x03\x0a\x01x")));
    let Split::Whole(shard) = resources.split(Encoding::Protobuf, &sound.clone().into()) else {
        panic!("it has one resource");
    };
    assert_ne!(shard, UNREAD);
    for unread in [
        field(1, &field(1, b"\x0a\x05a")),
        field(1, &[&field(1, b"")[..], b"\x0a\x05a"].concat()),
        field(1, b"\x08\x01"),
        field(1, &field(1, &field(1, b"\x0a\x01\xff"))),
        field(1, &field(1, &field(1, b"\x0a\x01a\x12\x09\x21\0\0\0\0\0\0\0\0"))),
    ] {
        let body = Bytes::from([&sound[..], &unread].concat());
        let Split::Parts(parts) = resources.split(Encoding::Protobuf, &body) else {
            panic!("{unread:02x?}");
        };
        let found: Vec<_> =
            parts.iter().map(|part| (part.shard, &part.body[..], &part.resources[..])).collect();
        assert_eq!(found, [(shard, &sound[..], &[0][..]), (UNREAD, &unread, &[1])]);
    }
    for whole in [&b"\x08\x01"[..], b"\x0a\x05a", b"\x0a"] {
        let body = Bytes::from([&sound[..], whole].concat());
        assert_eq!(resources.split(Encoding::Protobuf, &body), Split::Whole(UNREAD), "{whole:02x?}");
    }
    let sound = r#"{"resource":{"attributes":[{"key":"a","value":{"stringValue":"x"}}]}}"#;
    let list = |elements: &str| Bytes::from(format!(r#"{{"resourceMetrics":[{elements}]}}"#));
    assert_eq!(resources.split(Encoding::Json, &list(sound)), Split::Whole(shard));
    for unread in [
        r#"{"resource":5}"#,
        r#"{"resource":{},"resource":{}}"#,
        r#"{"resource":{"attributes":[{"key":"a"},{"key":"a"}]}}"#,
        r#"{"resource":{"labels":[5]}}"#,
    ] {
        let body = list(&format!("{sound} ,\n{unread}"));
        let parts = parts_of(&resources, Encoding::Json, &body);
        assert_eq!(parts, [(shard, list(sound)), (UNREAD, list(unread))]);
    }
    for whole in [
        "",
        "[]",
        r#"{"resourceMetrics":5}"#,
        r#"{"resourceMetrics":[5]}"#,
        &format!(r#"{{"resourceMetrics":[{sound}],"resource_metrics":[]}}"#),
        &format!(r#"{{"resourceMetrics":[{sound}],"resourceSpans":[{{}}]}}"#),
    ] {
        let split = resources.split(Encoding::Json, &whole.to_string().into());
        assert_eq!(split, Split::Whole(UNREAD), "{whole}");
    }
}

#[test]
fn resources_that_come_and_go_take_no_memory_for_ever() {
    let known = ShardCache::default();
    for number in 0..10_000u32 {
        let resource = [&number.to_le_bytes()[..], &[0; 8 << 10]].concat();
        assert_eq!(known.of(&resource, || 3), 3);
        assert_eq!(known.of(&resource, || panic!("it is known")), 3);
    }
    assert!(known.0.read().unwrap().bytes <= MOST_KNOWN);
    let long = vec![0; LONGEST_KNOWN + 1];
    assert_eq!(known.of(&long, || 4), 4);
    assert_eq!(known.of(&long, || 5), 5, "it is not kept");
}
