//! A point in protobuf is written alike in whatever order its fields come. Nearly all come in that of the table, and are
//! written at once.

use super::{bytes, prepared, within_request};
use crate::otlp::Encoding;

/// What is written of a sum's point of these fields.
fn written(fields: &[Vec<u8>]) -> String {
    let metric = bytes(7, &bytes(1, &fields.concat()));
    let written = prepared(Encoding::Protobuf, within_request(&metric)).unwrap();
    let text = std::str::from_utf8(&written).unwrap();
    let points = text.split_once("\"dataPoints\":[").unwrap().1;
    points.strip_suffix("]}}]}]}]}").unwrap().to_string()
}

const START: u64 = 1_700_000_000_000_000_000;
const END: u64 = START + 1_023_456_789;

fn fixed(number: u8, bits: u64) -> Vec<u8> {
    [&[number << 3 | 1][..], &bits.to_le_bytes()].concat()
}

fn attribute(key: &[u8], value: &[u8]) -> Vec<u8> {
    bytes(7, &[bytes(1, key), bytes(2, value)].concat())
}

#[test]
fn a_point_is_written_alike_in_any_order() {
    let own = [fixed(2, START), fixed(3, END), fixed(6, -5i64 as u64)];
    let (text, whole) = (attribute(b"k\"", &bytes(1, b"t")), attribute(b"w", &[24, 5]));
    let (truth, flags) = (attribute(b"b", &[16, 1]), vec![64, 1]);
    let (exemplar, unknown) = (bytes(5, &fixed(2, 1)), bytes(15, b"x"));
    let values = r#"{"startTimeUnixNano":1700000000000000000,"timeUnixNano":1700000001023456789,"asInt":-5"#;
    let of_text = r#"{"key":"k\"","value":{"stringValue":"t"}}"#;
    let of_whole = r#"{"key":"w","value":{"intValue":5}}"#;
    let of_truth = r#"{"key":"b","value":{"boolValue":true}}"#;
    let cases = [
        (vec![], String::new()),
        (vec![&text], format!(r#","attributes":[{of_text}]"#)),
        (vec![&text, &whole], format!(r#","attributes":[{of_text},{of_whole}]"#)),
        (vec![&whole, &truth], format!(r#","attributes":[{of_whole},{of_truth}]"#)),
        (vec![&text, &flags], format!(r#","attributes":[{of_text}],"flags":1"#)),
        (vec![&exemplar, &whole], format!(r#","attributes":[{of_whole}]"#)),
        (vec![&whole, &unknown], format!(r#","attributes":[{of_whole}]"#)),
    ];
    for (others, expected) in cases {
        let mut fields = own.to_vec();
        fields.extend(others.into_iter().cloned());
        let expected = format!("{values}{expected}}}");
        assert_eq!(written(&fields), expected);
        for moved in 0..own.len() {
            for to in 0..fields.len() {
                let mut fields = fields.clone();
                let field = fields.remove(moved);
                fields.insert(to, field);
                assert_eq!(written(&fields), expected, "{moved} to {to}");
            }
        }
        fields.insert(0, fixed(2, 7)); // of several the last counts
        assert_eq!(written(&fields), expected);
    }
    let without = [&own[..2], &own[1..], &own[..0]].map(written);
    assert_eq!(
        without,
        [
            r#"{"startTimeUnixNano":1700000000000000000,"timeUnixNano":1700000001023456789}"#,
            r#"{"timeUnixNano":1700000001023456789,"asInt":-5}"#,
            "{}",
        ]
    );
    assert_eq!(
        written(&[fixed(2, 0), fixed(3, u64::MAX), fixed(6, 0)]),
        r#"{"startTimeUnixNano":0,"timeUnixNano":18446744073709551615,"asInt":0}"#
    );
}

/// The least and the largest value say nothing, wherever they are.
#[test]
fn a_point_of_a_histogram_is_written_alike_with_other_fields() {
    let packed = |number, all: &[u64]| {
        bytes(number, &all.iter().flat_map(|bits| bits.to_le_bytes()).collect::<Vec<_>>())
    };
    let bits = |double: f64| double.to_bits();
    let fields = [
        fixed(2, START),
        fixed(3, END),
        fixed(4, 3),
        fixed(5, bits(0.5)),
        packed(6, &[1, 2]),
        packed(7, &[bits(10.0)]),
        bytes(9, &[bytes(1, b"k"), bytes(2, &[24, 5])].concat()),
    ];
    let written = |fields: &[Vec<u8>]| {
        let metric = bytes(9, &bytes(1, &fields.concat()));
        prepared(Encoding::Protobuf, within_request(&metric)).unwrap()
    };
    let expected = written(&fields);
    let text = std::str::from_utf8(&expected).unwrap();
    let values =
        r#""count":3,"sum":"0.5","bucketCounts":[1,2],"explicitBounds":[10],"attributes":[{"key":"k""#;
    assert!(text.contains(values), "{text}");
    for least in 0..=fields.len() {
        for largest in least..=fields.len() {
            let mut fields = fields.to_vec();
            fields.insert(largest, fixed(12, bits(0.5)));
            fields.insert(least, fixed(11, bits(0.1)));
            assert_eq!(written(&fields), expected, "{least} {largest}");
        }
    }
}
