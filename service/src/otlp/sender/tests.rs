//! The name of a sender out of its resource.

use super::super::messages::*;
use super::*;
use prost::Message;

/// A request of resources, each with these attributes.
fn request(resources: &[&[(&str, Any)]]) -> [(Encoding, Vec<u8>); 2] {
    let pair = |pair: &(&str, Any)| KeyValue {
        key: pair.0.to_string(),
        value: Some(AnyValue { value: Some(pair.1.clone()) }),
    };
    let request = ExportMetricsServiceRequest {
        resource_metrics: resources
            .iter()
            .map(|pairs| ResourceMetrics {
                resource: Some(Resource { attributes: pairs.iter().map(pair).collect() }),
                scope_metrics: Vec::new(),
            })
            .collect(),
    };
    let json = crate::otlp::tests::in_json(&request);
    [(Encoding::Protobuf, request.encode_to_vec()), (Encoding::Json, json.into_bytes())]
}

fn text(text: &str) -> Any {
    Any::Text(text.to_string())
}

fn named(resources: &[&[(&str, Any)]]) -> Result<String, String> {
    let reading = Reading { sender_from: Some("id".to_string()), ..Reading::default() };
    let read = |(encoding, body): (Encoding, Vec<u8>)| {
        sender(NO_NAME.to_string(), encoding, &body, &reading).map_err(|refused| refused.to_string())
    };
    let [binary, json] = request(resources).map(read);
    assert_eq!(binary, json);
    binary
}

#[test]
fn a_resource_names_its_sender() {
    assert_eq!(named(&[&[("a", text("b")), ("id", text("shop-1"))]]).unwrap(), "shop-1");
    let same = [("id", text("shop-1"))];
    assert_eq!(named(&[&same, &same]).unwrap(), "shop-1");
    for nobody in [&[][..], &[&[][..]][..], &[&[("ide", text("x"))][..]][..]] {
        assert_eq!(named(nobody).unwrap(), NO_NAME);
    }
}

#[test]
fn what_names_no_one_sender_is_refused() {
    let (one, other) = ([("id", text("a"))], [("id", text("b"))]);
    for several in [[&one[..], &other[..]], [&one[..], &[]], [&[], &one[..]]] {
        let why = named(&several).unwrap_err();
        assert!(why.contains("more than one id: name the sender by the header"), "{why}");
    }
    for value in [Any::Int(5), text(""), Any::Double(0.5)] {
        let why = named(&[&[("id", value)]]).unwrap_err();
        assert_eq!(why, "no sender: the resource's id is no text");
    }
}

#[test]
fn of_several_values_the_last_counts() {
    let (text, int) = (b"\x0a\x01a", b"\x18\x05");
    let with = |value: &[u8]| {
        let pair = [b"\x0a\x02id\x12", &[value.len() as u8][..], value].concat();
        let resource = [&[0x0a, pair.len() as u8][..], &pair].concat();
        let resources = [&[0x0a, resource.len() as u8][..], &resource].concat();
        let body = [&[0x0a, resources.len() as u8][..], &resources].concat();
        names(Node::Protobuf(&body), "id")
            .unwrap()
            .map(|found| format!("{:?}", found.unwrap()))
            .collect::<String>()
    };
    assert_eq!(with(&[&text[..], int].concat()), "NoText");
    assert_eq!(with(&[&int[..], text].concat()), "Name(\"a\")");
}

/// Else it would be taken under another name than the one that it has for who reads it whole.
#[test]
fn a_resource_that_is_cut_names_nobody() {
    let field = |number: u8, bytes: &[u8]| [&[number << 3 | 2, bytes.len() as u8], bytes].concat();
    let text = field(1, b"shop-1");
    let reading = Reading { sender_from: Some("id".to_string()), ..Reading::default() };
    let named = |resource: &[u8]| {
        let body = field(1, resource);
        let named = sender(NO_NAME.to_string(), Encoding::Protobuf, &body, &reading);
        named.map_err(|refused| refused.to_string())
    };
    let pair = |value: &[u8]| field(1, &[&field(1, b"id")[..], value].concat());
    for cut in 1..text.len() {
        let value = [field(2, &text[..cut]), field(2, &text[cut..])].concat();
        let why = named(&field(1, &pair(&value))).unwrap_err();
        assert_eq!(why, "not protobuf of OTLP: AnyValue: cut within a field", "{cut}");
    }
    let whole = pair(&field(2, &text));
    for cut in 1..whole.len() {
        let parts = [field(1, &whole[..cut]), field(1, &whole[cut..])].concat();
        let why = named(&parts).unwrap_err();
        assert_eq!(why, "not protobuf of OTLP: Resource: cut within a field", "{cut}");
    }
    let parts = [field(1, b""), field(1, &whole), field(1, b"")].concat();
    assert_eq!(named(&parts).unwrap(), "shop-1");
}

#[test]
fn a_header_goes_before() {
    let reading = Reading { sender_from: Some("id".to_string()), ..Reading::default() };
    for (encoding, body) in request(&[&[("id", text("a"))], &[("id", text("b"))]]) {
        assert_eq!(sender("x".to_string(), encoding, &body, &reading).unwrap(), "x");
        assert_eq!(sender(NO_NAME.to_string(), encoding, &body, &Reading::default()).unwrap(), NO_NAME);
    }
}

#[test]
fn each_value_has_a_name_of_its_own() {
    let long = "x".repeat(65);
    let mut names = std::collections::HashSet::new();
    let mut values: Vec<String> =
        ["-", "a b", "a-b", "a/b", "é", "host:1", &long, &"x".repeat(64)].map(String::from).into();
    // Names that were made are values too.
    for _ in 0..3 {
        values.extend(values.clone().iter().map(|value| legal(value)));
        values.sort();
        values.dedup();
    }
    for value in &values {
        let name = legal(value);
        assert!(is_sender(&name) && names.insert(name.clone()), "{value}: {name}");
    }
    assert_eq!(legal("a-b"), "a-b");
    assert!(legal("host:1/x").starts_with("host-1-x."));
}

/// Else one post of a megabyte holds a thread for minutes: each resource has all of it read for why it can't be read itself.
#[test]
fn very_many_resources_that_can_t_be_read_take_time_by_their_bytes() {
    let reading = Reading { sender_from: Some("id".to_string()), ..Reading::default() };
    let named = |resource: &str, many: usize| {
        let all = vec![format!(r#"{{"resource":{{"attributes":{resource}}}}}"#); many].join(",");
        let body = format!(r#"{{"resourceMetrics":[{all}]}}"#);
        sender(NO_NAME.to_string(), Encoding::Json, body.as_bytes(), &reading)
    };
    let began = std::time::Instant::now();
    assert_eq!(named("5", 20_000).unwrap(), NO_NAME);
    let why = named(r#"[{"key":"id","value":5}]"#, 1).unwrap_err();
    assert_eq!(why.to_string(), "no sender: the resource's id is no text");
    assert!(began.elapsed().as_secs() < 20, "{:?}", began.elapsed());
}
