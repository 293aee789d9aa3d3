//! All ways of parsing give the same points: JSON with a tree and without one, and protobuf and its JSON; also if the
//! reader knows similar points already.

use super::library::{Names as Numbers, Reader};
use super::*;
use crate::otlp::requests_of_test;
use prost::encoding::encode_varint;

const REQUESTS: &str = include_str!("requests.txt");
const BODIES: &str = include_str!("bodies.txt");

/// The points of a body in words by number, and how many are foreign; or why it can't be parsed.
type Said = Result<(Vec<u64>, u64), Refused>;

/// One reader with everything it knows by now.
struct Reading {
    reader: Reader,
    numbers: Numbers,
}

impl Reading {
    fn new() -> Reading {
        Reading { reader: Reader::new().unwrap(), numbers: Numbers::new().unwrap() }
    }

    fn json(&mut self, body: &[u8]) -> Said {
        let answer = self.reader.read(b"A", body, 3);
        self.said(answer)
    }

    fn protobuf(&mut self, body: &[u8]) -> Said {
        let answer = self.reader.read_protobuf(b"A", body, 3);
        self.said(answer)
    }

    fn said(&mut self, answer: Answer) -> Said {
        let foreign = check(answer)?.at;
        let mut words = Vec::new();
        check(self.reader.words(&mut self.numbers, &mut words))?;
        Ok((words, foreign))
    }

    /// A body that begins with a brace gives the same points with a tree and without one.
    fn same_by_a_tree(&mut self, body: &[u8]) -> Said {
        let without = self.json(body);
        assert_eq!(without, self.json(&by_a_tree(body)), "{}", String::from_utf8_lossy(body));
        without
    }

    /// Protobuf gives the same points as its JSON, and again the second time.
    fn same_in_json(&mut self, bytes: &[u8], json: &str) {
        let wanted = self.json(json.as_bytes());
        assert!(wanted.is_ok(), "{json}");
        for _ in 0..2 {
            assert_eq!(self.protobuf(bytes), wanted, "{json}");
        }
    }
}

/// The same body with a member that is nested so deep that it is parsed by a tree.
fn by_a_tree(body: &[u8]) -> Vec<u8> {
    let rest = body.strip_prefix(b"{").unwrap();
    let comma = if rest.trim_ascii_start().starts_with(b"}") { "" } else { "," };
    let nested = format!(r#"{{"x":{}{}{comma}"#, "[".repeat(101), "]".repeat(101));
    [nested.as_bytes(), rest].concat()
}

/// The usual bodies, and the others.
fn bodies() -> [Vec<&'static str>; 2] {
    let mut parts = BODIES.split("\n\n").skip(1).map(|part| part.lines().collect());
    std::array::from_fn(|_| parts.next().unwrap())
}

#[test]
fn usual_json_says_without_a_tree_what_it_says_by_one() {
    let (mut reading, [usual, others]) = (Reading::new(), bodies());
    for body in usual.iter().chain(others.iter().filter(|body| body.starts_with('{'))) {
        let said = reading.same_by_a_tree(body.as_bytes());
        assert_eq!(reading.same_by_a_tree(body.as_bytes()), said);
    }
    // Parsing a known body asks for fewer blocks.
    for body in usual {
        let reader = &mut reading.reader;
        let mut blocks = |body: &[u8]| {
            let mut all_were_given =
                |blocks| memory::with_blocks(blocks, false, || reader.read(b"A", body, 3)).1;
            (0..).find(|blocks| all_were_given(*blocks)).unwrap()
        };
        let [without, with] = [blocks(body.as_bytes()), blocks(&by_a_tree(body.as_bytes()))];
        assert!(without < with, "{without} {with}: {body}");
    }
}

/// A reproducible sequence of random numbers.
struct Chance(u64);

impl Chance {
    fn below(&mut self, limit: usize) -> usize {
        self.0 = self.0.wrapping_mul(6_364_136_223_846_793_005).wrapping_add(1_442_695_040_888_963_407);
        (self.0 >> 33) as usize % limit
    }

    /// The body with up to four bytes changed, inserted or removed after its first brace.
    fn changed(&mut self, body: &str) -> Vec<u8> {
        const BYTES: &[u8] = b"{}[],:\"\\0129-.eE tfn/u ax\n";
        let mut bytes = body.as_bytes().to_vec();
        for _ in 0..self.below(4) + 1 {
            let (place, byte) = (1 + self.below(bytes.len() - 1), BYTES[self.below(BYTES.len())]);
            match self.below(3) {
                0 => bytes[place] = byte,
                1 => bytes.insert(place, byte),
                _ => drop(bytes.remove(place)),
            }
        }
        bytes
    }
}

#[test]
fn changed_json_says_without_a_tree_what_it_says_by_one() {
    let (mut reading, mut chance, [usual, _]) = (Reading::new(), Chance(11), bodies());
    let (mut read, mut refused) = (0, 0);
    for body in usual {
        for _ in 0..300 {
            match reading.same_by_a_tree(&chance.changed(body)) {
                Ok(_) => read += 1,
                Err(_) => refused += 1,
            }
        }
    }
    assert!(read > 100 && refused > 1_000, "{read} {refused}");
}

#[test]
fn random_json_says_without_a_tree_what_it_says_by_one() {
    let mut reading = Reading::new();
    for body in requests_of_test(400).iter().flatten() {
        let said = reading.same_by_a_tree(body);
        assert_eq!(reading.same_by_a_tree(body), said);
    }
}

/// The same attributes come again at another place, both in the same request and in the next one.
#[test]
fn the_same_attributes_at_another_place_are_another_series() {
    let first = ["r", "s", "m", "u", "true"];
    let others = ["q", "t", "n", "v", "false"];
    let places: Vec<_> = (0..=5)
        .map(|part| std::array::from_fn(|which| if which == part { others[which] } else { first[which] }))
        .collect();
    let point = |attributes: &str, value: u64| {
        format!(r#"{{"attributes":[{attributes}],"startTimeUnixNano":10,"timeUnixNano":20,"asInt":{value}}}"#)
    };
    let [a, b] = ["a", "b"].map(|key| format!(r#"{{"key":"{key}","value":{{"stringValue":"1"}}}}"#));
    let points =
        [format!("{a},{b}"), format!("{b},{a}"), a, String::new()].map(|each| point(&each, 5)).join(",");
    let resource = |[resource, scope, name, unit, monotonic]: [&str; 5]| {
        format!(
            r#"{{"resource":{{"attributes":[{{"key":"k","value":{{"stringValue":"{resource}"}}}}]}},"scopeMetrics":[{{"scope":{{"name":"{scope}"}},"metrics":[{{"name":"{name}","unit":"{unit}","sum":{{"aggregationTemporality":1,"isMonotonic":{monotonic},"dataPoints":[{points}]}}}}]}}]}}"#
        )
    };
    let mut reading = Reading::new();
    for one in &places {
        for other in &places {
            let body = format!(r#"{{"resourceMetrics":[{},{}]}}"#, resource(*one), resource(*other));
            let (words, foreign) = reading.same_by_a_tree(body.as_bytes()).unwrap();
            let numbers: std::collections::BTreeSet<_> = words.chunks(4).map(|point| point[0]).collect();
            assert_eq!((numbers.len(), foreign), (if one == other { 3 } else { 6 }, 0), "{one:?} {other:?}");
            // A refused body leaves what is known as it was.
            assert_eq!(reading.same_by_a_tree(&body.as_bytes()[..body.len() - 1]), Err(Refused::NotJson));
        }
    }
}

#[test]
fn protobuf_says_what_its_json_says() {
    let mut reading = Reading::new();
    let bytes = |row: &str| -> Vec<u8> {
        (0..row.len()).step_by(2).map(|at| u8::from_str_radix(&row[at..at + 2], 16).unwrap()).collect()
    };
    let rows: Vec<_> = REQUESTS.split("\n\n").skip(1).map(|row| row.lines().collect::<Vec<_>>()).collect();
    assert_eq!(rows.len(), 8);
    for row in rows {
        reading.same_in_json(&bytes(row[1]), row[2]);
    }
}

/// The empty request; an unknown field of each wire type; nested groups; a key and a length with more bytes than
/// needed.
const READ: [&[u8]; 8] = [
    &[],
    &[80, 1],
    &[81, 1, 2, 3, 4, 5, 6, 7, 8],
    &[82, 2, 255, 255],
    &[85, 1, 2, 3, 4],
    &[75, 8, 5, 83, 84, 76],
    &[138, 0, 128, 0],
    &[80, 255, 255, 255, 255, 255, 255, 255, 255, 255, 1],
];

/// Truncated fields; too long varints; a field number 0, an invalid wire type, a group with a wrong end, a known field
/// of another wire type; a text that is not UTF-8; a field that metrics once had.
const NOT_READ: [&[u8]; 15] = [
    &[10],
    &[10, 5, 1],
    &[80, 128],
    &[81, 1, 2, 3, 4, 5, 6, 7],
    &[75, 8, 5],
    &[80, 255, 255, 255, 255, 255, 255, 255, 255, 255, 2],
    &[80, 128, 128, 128, 128, 128, 128, 128, 128, 128, 128, 0],
    &[128, 128, 128, 128, 16, 0],
    &[2, 0],
    &[14],
    &[12],
    &[75, 84],
    &[8, 1],
    &[10, 7, 18, 5, 18, 3, 10, 1, 255],
    &[10, 10, 193, 62, 1, 0, 0, 0, 0, 0, 0, 0],
];

#[test]
fn bytes_are_a_request_or_none() {
    let mut reading = Reading::new();
    let none = Err(Refused::NotProtobuf); // the service parses such a body by itself
    for bytes in READ {
        assert_eq!(reading.protobuf(bytes), Ok((vec![], 0)), "{bytes:?}");
    }
    for bytes in NOT_READ {
        assert_eq!(reading.protobuf(bytes), none, "{bytes:?}");
    }
    let groups = |depth| [[75].repeat(depth), [76].repeat(depth)].concat();
    assert_eq!((reading.protobuf(&groups(100)), reading.protobuf(&groups(101))), (Ok((vec![], 0)), none));
    let (whole, _) = request("a", &sum(&[], &[], &[ONE]));
    for cut in 1..whole.len() {
        assert!(reading.protobuf(&whole[..cut]).is_err(), "{cut}");
    }
    assert_eq!(reading.protobuf(&whole).map(|said| said.1), Ok(0));
}

/// A message or a part of one: its bytes and its JSON.
type Both = (Vec<u8>, String);

/// An attribute, as bytes and as JSON.
type Attribute = (&'static [u8], &'static str);

const ONE: Attribute = (&[10, 1, 107, 18, 3, 10, 1, 118], r#"{"key":"k","value":{"stringValue":"v"}}"#);
const OTHER: Attribute = (&[10, 1, 108, 18, 2, 24, 5], r#"{"key":"l","value":{"intValue":"5"}}"#);

/// A field of bytes.
fn content(field: u8, content: &[u8]) -> Vec<u8> {
    let mut bytes = vec![field * 8 + 2];
    encode_varint(content.len() as u64, &mut bytes);
    [&bytes, content].concat()
}

/// A field of 8 bytes.
fn fixed(field: u8, number: u64) -> Vec<u8> {
    [&[field * 8 + 1][..], &number.to_le_bytes()].concat()
}

/// A point of a sum, with attributes before its times, between these and its value, and at the end.
fn sum(front: &[Attribute], middle: &[Attribute], back: &[Attribute]) -> (u8, Both) {
    let put = |some: &[Attribute]| some.iter().flat_map(|(bytes, _)| content(7, bytes)).collect::<Vec<_>>();
    let bytes = [put(front), fixed(2, 10), fixed(3, 20), put(middle), fixed(6, 4), put(back)].concat();
    let all: Vec<&str> = [front, middle, back].concat().iter().map(|(_, text)| *text).collect();
    let times = r#""startTimeUnixNano":10,"timeUnixNano":20"#;
    (7, (bytes, format!(r#"{{{times},"asInt":4,"attributes":[{}]}}"#, all.join(","))))
}

/// A point with three buckets and these two bounds, in one packed field or in two.
fn histogram(bounds: [f64; 2], fields: usize) -> (u8, Both) {
    let packed = bounds.map(|bound| bound.to_le_bytes()).concat();
    let bounds_fields: Vec<u8> = packed.chunks(16 / fields).flat_map(|part| content(7, part)).collect();
    let counts = [1u64, 2, 3].map(u64::to_le_bytes).concat();
    let times = [fixed(2, 10), fixed(3, 20)].concat();
    let bytes = [times, fixed(4, 6), content(6, &counts), bounds_fields, content(9, ONE.0)].concat();
    let json = format!(
        r#"{{"startTimeUnixNano":10,"timeUnixNano":20,"count":6,"bucketCounts":[1,2,3],"explicitBounds":{bounds:?},"attributes":[{}]}}"#,
        ONE.1
    );
    (9, (bytes, json.replace(".0", "")))
}

/// A metric of this name with one point.
fn metric(name: &str, (field, (bytes, json)): &(u8, Both)) -> Both {
    let data = [content(1, bytes), vec![16, 1]].concat();
    let kind = if *field == 7 { "sum" } else { "histogram" };
    let bytes = content(2, &[content(1, name.as_bytes()), content(*field, &data)].concat());
    let data = format!(r#"{{"aggregationTemporality":1,"dataPoints":[{json}]}}"#);
    (
        bytes,
        format!(
            r#"{{"resourceMetrics":[{{"scopeMetrics":[{{"metrics":[{{"name":"{name}","{kind}":{data}}}]}}]}}]}}"#
        ),
    )
}

fn request(name: &str, point: &(u8, Both)) -> Both {
    let (bytes, json) = metric(name, point);
    (content(1, &content(2, &bytes)), json)
}

/// Attributes are recognised only in the position where they were seen. Longer lists that begin with them, other
/// orders, separated ones, other places in the point and other metrics are parsed anew, and so are other bounds.
#[test]
fn what_is_known_of_a_point_is_taken_for_no_other() {
    let mut reading = Reading::new();
    let (both, turned): (&[Attribute], &[Attribute]) = (&[ONE, OTHER], &[OTHER, ONE]);
    let points = [
        sum(&[], &[], &[ONE]),
        sum(&[], &[], both),
        sum(&[], &[], turned),
        sum(&[], both, &[]),
        sum(both, &[], &[]),
        sum(&[ONE], &[], &[OTHER]),
        sum(&[ONE], &[ONE], &[]),
        sum(&[], &[], &[]),
        histogram([5.0, 7.0], 2),
        histogram([5.0, 7.0], 1),
        histogram([0.0, 7.0], 1),
        histogram([7.0, 5.0], 1),
        histogram([0.0, 5.0], 2),
        histogram([5.0, 7.0], 2),
    ];
    for name in ["a", "b", "a"] {
        for point in &points {
            let (bytes, json) = request(name, point);
            reading.same_in_json(&bytes, &json);
            assert!(reading.protobuf(&[&bytes[..], &[10]].concat()).is_err());
        }
    }
    assert_eq!(reading.protobuf(&request("a", &points[0]).0).map(|said| said.1), Ok(0));
}

/// What comes before or after known attributes is checked.
#[test]
fn a_point_that_is_partly_known_is_refused_for_the_rest() {
    let mut reading = Reading::new();
    let (known, json) = request("s", &sum(&[], &[], &[ONE]));
    reading.same_in_json(&known, &json);
    let (field, (point, _)) = sum(&[], &[], &[ONE]);
    let behind = [&point[..], &content(7, &[10, 2, 107])].concat();
    let before = [&[16, 10][..], &content(7, ONE.0)].concat();
    for faulty in [behind, before] {
        assert!(reading.protobuf(&request("s", &(field, (faulty, String::new()))).0).is_err());
        reading.same_in_json(&known, &json);
    }
}
