//! What a resource gets of its sender, in both encodings alike: the name that is proved, and its name as an instance.

use super::random::Random;
use super::*;
use crate::otlp::messages::*;
use crate::otlp::series::SeriesKey;
use std::collections::BTreeSet;

fn reading() -> Reading {
    Reading { instance_from_sender: true, ..Reading::default() }
}

/// By which the sender is known that posts these.
const BY: &str = "posted.by";

fn by_proof() -> Reading {
    Reading { sender_attribute: Some(BY.into()), ..Reading::default() }
}

fn put(name: &str, encoding: Encoding, body: Bytes, reading: &Reading) -> Result<Attributed, String> {
    let names = SenderNames { name, proved: Some("shop-1") };
    with_sender_attributes(names, encoding, body, reading).map_err(|refused| refused.to_string())
}

fn named(encoding: Encoding, body: impl Into<Bytes>) -> (Bytes, usize) {
    let put = put("shop-1", encoding, body.into(), &reading()).unwrap();
    (put.body, put.instances)
}

fn proved(encoding: Encoding, body: impl Into<Bytes>) -> Result<Bytes, String> {
    put("another", encoding, body.into(), &by_proof()).map(|put| put.body)
}

fn instance(name: &str) -> KeyValue {
    pair(INSTANCE, name)
}

fn pair(key: &str, value: &str) -> KeyValue {
    let value = Any::Text(value.into());
    KeyValue { key: key.into(), value: Some(AnyValue { value: Some(value) }) }
}

/// The same request as a sender would post it that names itself.
fn by_itself(mut request: ExportMetricsServiceRequest) -> (ExportMetricsServiceRequest, usize) {
    let mut count = 0;
    for one in &mut request.resource_metrics {
        let attributes = &mut one.resource.get_or_insert_with(Resource::default).attributes;
        if attributes.iter().all(|pair| pair.key != INSTANCE) {
            attributes.insert(0, instance("shop-1"));
            count += 1;
        }
    }
    (request, count)
}

fn series(body: &[u8]) -> Option<BTreeSet<SeriesKey>> {
    posted(body).map(|posted| posted.series.into_keys().collect())
}

#[test]
fn any_request_is_as_if_its_sender_had_named_itself() {
    let mut random = Random(11);
    for _ in 0..500 {
        let mut request = random.request();
        for one in &mut request.resource_metrics {
            match random.below(4) {
                0 => one.resource = None,
                1 => one.resource.get_or_insert_with(Resource::default).attributes.push(instance("own")),
                _ => {}
            }
        }
        let plain = request.encode_to_vec();
        let text = prepared(Encoding::Protobuf, plain.clone());
        let (wanted, count) = by_itself(request);
        let wanted = wanted.encode_to_vec();
        let (body, resources) = named(Encoding::Protobuf, plain);
        assert_eq!((&body[..], resources), (&wanted[..], count));
        if let Ok(text) = text {
            let (body, resources) = named(Encoding::Json, text);
            let wanted = prepared(Encoding::Protobuf, wanted).unwrap();
            assert_eq!((series(&body), resources), (series(&wanted), count));
        }
    }
}

#[test]
fn json_is_read_in_any_form() {
    const PAIR: &str = r#"{"key":"service.instance.id","value":{"stringValue":"shop-1"}}"#;
    for (of_resource, wanted) in [
        ("", format!(r#""resource":{{"attributes":[{PAIR}]}},"#)),
        (r#""resource":null,"#, format!(r#""resource":{{"attributes":[{PAIR}]}},"#)),
        (r#""resource":{"x":1},"#, format!(r#""resource":{{"attributes":[{PAIR}],"x":1}},"#)),
        (r#""resource":{"attributes":null},"#, format!(r#""resource":{{"attributes":[{PAIR}]}},"#)),
        (
            r#""resource":{"attributes":[{"key":"a"}]},"#,
            format!(r#""resource":{{"attributes":[{PAIR},{{"key":"a"}}]}},"#),
        ),
    ] {
        for list in ["resourceMetrics", "resource_metrics"] {
            let body =
                |of_resource: &str| format!(r#"{{"{list}":[{{{of_resource}"schemaUrl":"u"}}],"y":[2]}}"#);
            let (found, resources) = named(Encoding::Json, body(of_resource));
            assert_eq!((found, resources), (body(&wanted).into(), 1), "{of_resource}");
        }
    }
    for body in [
        r#"{"resourceMetrics":[{"resource":{"attributes":[{"key":"service.instance.id","value":{"stringValue":"own"}}]}}]}"#,
        r#"{"resourceMetrics":[{"resource":{"attributes":[{"key":"service\u002einstance.id"}]}}]}"#,
        r#"{"resourceMetrics":[{"resource":5},7,null]}"#,
        r#"{"resourceMetrics":[{"resource":{"attributes":[{"key":"a"}]},"resource":{}}]}"#,
        r#"{"resourceMetrics":[{"resource":{"attributes":[{"key":"a"}],"attributes":[]}}]}"#,
        r#"{"resourceMetrics":{}}"#,
        "[]",
        "no JSON",
    ] {
        assert_eq!(named(Encoding::Json, body), (body.into(), 0));
    }
}

/// As nobody's, or where it is off; and what can't be read is refused by who reads it next.
#[test]
fn a_request_is_left_as_it_is_where_there_is_no_name_to_give() {
    let body: Bytes = a_request().into();
    let as_it_is = Ok(Attributed { body: body.clone(), proved: 0, instances: 0 });
    assert_eq!(put("shop-1", Encoding::Protobuf, body.clone(), &Reading::default()), as_it_is);
    assert_eq!(put("-", Encoding::Protobuf, body.clone(), &reading()), as_it_is);
    let cut = body.slice(..body.len() - 1);
    assert_eq!(named(Encoding::Protobuf, cut.clone()), (cut, 0));
}

/// A message may come in parts: a second one of a resource says more of the same.
#[test]
fn a_resource_in_parts_is_one() {
    let part = |key: &str| {
        let mut pair = instance("v");
        pair.key = key.into();
        let resource = Resource { attributes: vec![pair] }.encode_to_vec();
        [&[0x0a, resource.len() as u8], &resource[..]].concat()
    };
    let request = |parts: &[Vec<u8>]| {
        let element = parts.concat();
        [&[0x0a, element.len() as u8], &element[..]].concat()
    };
    let own = request(&[part("a"), part(INSTANCE)]);
    assert_eq!(named(Encoding::Protobuf, own.clone()), (own.into(), 0));
    let (found, resources) = named(Encoding::Protobuf, request(&[part("a"), part("b")]));
    let read = ExportMetricsServiceRequest::decode(found).unwrap();
    let attributes = &read.resource_metrics[0].resource.as_ref().unwrap().attributes;
    let keys: Vec<&str> = attributes.iter().map(|pair| pair.key.as_str()).collect();
    assert_eq!((keys, resources), (vec![INSTANCE, "a", "b"], 1));
}

/// Else a few megabytes became hundreds.
#[test]
fn a_request_of_very_many_resources_is_refused_by_name() {
    let many = |count: usize| format!(r#"{{"resourceMetrics":[{}]}}"#, vec!["{}"; count].join(","));
    let empty = |count: usize| [0x0a, 0].repeat(count);
    for (encoding, body) in
        [(Encoding::Json, Bytes::from(many(100_000))), (Encoding::Protobuf, empty(100_000).into())]
    {
        let length = body.len();
        let refused = put("shop-1", encoding, body.clone(), &reading()).unwrap_err();
        assert!(refused.contains("resources without a service.instance.id"), "{length} {refused}");
        let refused = proved(encoding, body).unwrap_err();
        assert!(refused.contains("resources to give the sender's posted.by"), "{length} {refused}");
    }
    assert_eq!(named(Encoding::Json, many(10_000)).1, 10_000);
    assert_eq!(named(Encoding::Protobuf, empty(10_000)).1, 10_000);
}

/// Else a few megabytes became nine times as many, which no budget has.
#[test]
fn a_resource_that_has_the_attribute_very_often_is_refused_by_name() {
    let pairs = |count: usize| vec![r#"{"key":"posted.by"}"#; count].join(",");
    let text =
        |count| format!(r#"{{"resourceMetrics":[{{"resource":{{"attributes":[{}]}}}}]}}"#, pairs(count));
    let binary = |count| bytes(1, &bytes(1, &bytes(1, &bytes(1, BY.as_bytes())).repeat(count)));
    let both = |count| [(Encoding::Json, text(count).into_bytes()), (Encoding::Protobuf, binary(count))];
    for (encoding, body) in both(100_000) {
        let refused = proved(encoding, body).unwrap_err();
        assert!(refused.contains("attributes of this key"), "{refused}");
    }
    for (encoding, body) in both(10_000) {
        let length = body.len();
        assert!(proved(encoding, body).unwrap().len() <= length + (1 << 20));
    }
}

/// The same request as an honest sender would post it.
fn honest(mut request: ExportMetricsServiceRequest) -> ExportMetricsServiceRequest {
    for one in &mut request.resource_metrics {
        let attributes = &mut one.resource.get_or_insert_with(Resource::default).attributes;
        attributes.retain(|own| own.key != BY);
        attributes.insert(0, pair(BY, "shop-1"));
    }
    request
}

/// Whatever it says of itself, and wherever: as nothing, as a text, as a number.
#[test]
fn any_request_is_as_its_sender_s_own() {
    let mut random = Random(12);
    for _ in 0..500 {
        let mut request = random.request();
        for one in &mut request.resource_metrics {
            let own = match random.below(4) {
                0 => None,
                1 => Some(Any::Text("victim".into())),
                2 => Some(Any::Int(7)),
                _ => Some(Any::Text("shop-1".into())),
            };
            let own = KeyValue { key: BY.into(), value: own.map(|own| AnyValue { value: Some(own) }) };
            let attributes = &mut one.resource.get_or_insert_with(Resource::default).attributes;
            let place = random.below(attributes.len() as u64 + 1) as usize;
            match random.below(5) {
                0 => {}
                1 => one.resource = None,
                _ => attributes.insert(place, own),
            }
        }
        let wanted = prepared(Encoding::Protobuf, honest(request.clone()).encode_to_vec());
        let wanted = wanted.map(|text| series(&text));
        let read = |encoding, body: Bytes| prepared(encoding, body).map(|text| series(&text));
        let plain = request.encode_to_vec();
        let text = prepared(Encoding::Protobuf, plain.clone());
        assert_eq!(read(Encoding::Protobuf, proved(Encoding::Protobuf, plain).unwrap()), wanted);
        if let Ok(text) = text {
            assert_eq!(read(Encoding::Json, proved(Encoding::Json, text).unwrap()), wanted);
        }
    }
}

#[test]
fn json_gets_the_proved_name_in_any_form() {
    const OWN: &str = r#"{"key":"posted.by","value":{"stringValue":"shop-1"}}"#;
    let body =
        |attributes: &str| format!(r#"{{"resourceMetrics":[{{"resource":{{"attributes":{attributes}}}}}]}}"#);
    for (attributes, wanted) in [
        ("[]", format!("[{OWN}]")),
        ("null", format!("[{OWN}]")),
        (r#"[{"key":"a"}]"#, format!(r#"[{OWN},{{"key":"a"}}]"#)),
        (r#"[{"key":"posted.by","value":{"stringValue":"victim"}}]"#, format!("[{OWN}]")),
        (
            r#"[{"value":{"intValue":1},"key":"posted\u002eby"},{"key":"a"}]"#,
            format!(r#"[{OWN},{{"key":"a"}}]"#),
        ),
        // Its points are foreign, since a key is there twice; but none of them is another's.
        (r#"[{"key":"posted.by"},{"key":"posted.by"}]"#, format!("[{OWN},{OWN}]")),
    ] {
        assert_eq!(proved(Encoding::Json, body(attributes)), Ok(body(&wanted).into()), "{attributes}");
    }
}

/// Else another reader may find in it what is not the sender's own.
#[test]
fn what_can_t_be_read_gets_no_name_and_is_refused() {
    let of = |resource: &str| format!(r#"{{"resourceMetrics":[{{"resource":{resource}}}]}}"#);
    for (body, why) in [
        ("no JSON".to_string(), "not JSON"),
        ("[]".to_string(), "the body is no object"),
        (of("5"), "resource is no object"),
        (of(r#"{"attributes":5}"#), "a resource's attributes can't be read"),
        (of(r#"{"attributes":{"key":"posted.by"}}"#), "a resource's attributes can't be read"),
        (of("{\"attributes\":[7,{\"key\":\"posted.by\"}]}"), "a resource's attributes can't be read"),
        (of(r#"{"attributes":[],"attributes":[{"key":"posted.by"}]}"#), "attributes is there twice"),
        (of(r#"{},"resource":{"attributes":[{"key":"posted.by"}]}"#), "resource is there twice"),
    ] {
        let refused = proved(Encoding::Json, body.clone()).unwrap_err();
        assert!(refused.contains(why), "{body}: {refused}");
    }
    let body = a_request();
    for cut in 1..body.len() {
        let part = body[..cut].to_vec();
        match prepared(Encoding::Protobuf, part.clone()) {
            Ok(_) => assert!(proved(Encoding::Protobuf, part).is_ok(), "{cut}"),
            Err(why) => assert_eq!(proved(Encoding::Protobuf, part), Err(why), "{cut}"),
        }
    }
}

/// A part of a resource may say what another does not, and an attribute its key twice: the last one counts.
#[test]
fn no_part_of_a_resource_keeps_another_s_name() {
    let attribute = |keys: &[&str]| {
        let keys: Vec<u8> = keys.iter().flat_map(|key| bytes(1, key.as_bytes())).collect();
        bytes(1, &[keys, bytes(2, &bytes(1, b"victim"))].concat())
    };
    for parts in [
        vec![attribute(&["a"]), attribute(&[BY])],
        vec![attribute(&["a", BY])],
        vec![attribute(&[]), [attribute(&["b"]), attribute(&["b", "b", BY])].concat()],
    ] {
        let parts: Vec<u8> = parts.iter().flat_map(|part| bytes(1, part)).collect();
        let body = proved(Encoding::Protobuf, bytes(1, &parts)).unwrap();
        let read = ExportMetricsServiceRequest::decode(body).unwrap();
        let attributes = &read.resource_metrics[0].resource.as_ref().unwrap().attributes;
        let own: Vec<_> = attributes.iter().filter(|own| own.key == BY).collect();
        assert_eq!(own, [&pair(BY, "shop-1")]);
    }
}

#[test]
fn who_proves_nothing_gets_no_name() {
    let names = SenderNames { name: "shop-1", proved: None };
    let refused = with_sender_attributes(names, Encoding::Protobuf, a_request().into(), &by_proof());
    assert!(matches!(refused, Err(Refused::NoSender(_))), "{refused:?}");
}

/// Both at once, of a sender that posts under a name that it may use.
#[test]
fn a_sender_s_name_and_the_one_that_it_proves_are_two() {
    let reading = Reading { instance_from_sender: true, ..by_proof() };
    for (encoding, body) in [
        (Encoding::Json, Bytes::from(r#"{"resourceMetrics":[{}]}"#)),
        (Encoding::Protobuf, vec![0x0a, 0].into()),
    ] {
        let both = put("shop-2", encoding, body, &reading).unwrap();
        assert_eq!((both.proved, both.instances), (1, 1));
        let text = match encoding {
            Encoding::Json => both.body,
            Encoding::Protobuf => prepared(Encoding::Protobuf, both.body).unwrap(),
        };
        let read: serde_json::Value = serde_json::from_slice(&text).unwrap();
        let attribute = |key, value| serde_json::json!({"key": key, "value": {"stringValue": value}});
        let wanted = [attribute(INSTANCE, "shop-2"), attribute(BY, "shop-1")];
        assert_eq!(read["resourceMetrics"][0]["resource"]["attributes"], serde_json::json!(wanted));
    }
}
