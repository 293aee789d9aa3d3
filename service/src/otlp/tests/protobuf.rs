//! What protobuf allows beside the form that encoders write.

use super::{bytes, posted, prepared, within_request, Posted};
use crate::otlp::Encoding;

/// A sum of these points, in a request.
fn sum(points: &[Vec<u8>]) -> Vec<u8> {
    let points: Vec<u8> = points.iter().flat_map(|point| bytes(1, point)).collect();
    within_request(&bytes(7, &[&points[..], &[0x10, 1]].concat()))
}

/// A point that is taken, with further fields.
fn point(others: &[u8]) -> Vec<u8> {
    let eight = |number: u8, bits: u64| [&[number << 3 | 1][..], &bits.to_le_bytes()].concat();
    [&eight(2, 1)[..], &eight(3, 2), &eight(6, 5), others].concat()
}

fn attribute(value: &[u8]) -> Vec<u8> {
    bytes(7, &[bytes(1, b"k"), bytes(2, value)].concat())
}

/// What the book has of a request.
fn read(body: Vec<u8>) -> Posted {
    let written = prepared(Encoding::Protobuf, body).unwrap();
    posted(&written).unwrap_or_else(|| panic!("{}", String::from_utf8_lossy(&written)))
}

/// Its point is foreign, however deep it is: what is written of it is no deeper than the book reads.
#[test]
fn a_list_in_a_list_makes_no_other_point_foreign() {
    for depth in 1..=46 {
        let list = (0..depth).fold(vec![0x10, 1], |inner, _| bytes(5, &bytes(1, &inner)));
        let read = read(sum(&[point(&attribute(&list)), point(b"")]));
        let foreign = u64::from(depth > 1);
        assert_eq!((read.foreign, read.series.len() as u64), (foreign, 2 - foreign), "{depth}");
    }
}

#[test]
fn groups_are_passed_over_as_any_field_that_is_not_known() {
    let inner = [&[0x7b, 0x08, 1, 0x0b, 0x0c][..], &bytes(2, b"x"), &[0x7c]].concat();
    let deep = [vec![0x7b; 100], vec![0x7c; 100]].concat();
    for group in [vec![0xa3, 1, 0xa4, 1], inner, deep] {
        let read = read([sum(&[point(&group), point(b"")]), group].concat());
        assert_eq!((read.foreign, read.series.len()), (0, 1));
    }
}

#[test]
fn of_fields_of_which_a_message_has_one_the_last_counts() {
    let double = [&[4 << 3 | 1][..], &0.5f64.to_le_bytes()].concat();
    let last_is_whole = [double.clone(), point(b"")].concat();
    let read_as = |point: Vec<u8>| {
        let read = read(sum(&[point]));
        (read.foreign, read.series.len())
    };
    assert_eq!(read_as(last_is_whole), (0, 1));
    assert_eq!(read_as(point(&double)), (1, 0));
    let (text, map, list) = (bytes(1, b"t"), bytes(6, b""), bytes(5, b""));
    let written = |value: Vec<Vec<u8>>| {
        let body = sum(&[point(&attribute(&value.concat()))]);
        let written = prepared(Encoding::Protobuf, body).unwrap();
        let text = String::from_utf8_lossy(&written).into_owned();
        let value = text.split_once(r#""value":"#).unwrap().1;
        value.split_once("}]").unwrap().0.to_string()
    };
    let cases = [
        (vec![&text, &map], r#"{"kvlistValue":{}}"#),
        (vec![&map, &list, &text], r#"{"stringValue":"t"}"#),
        (vec![&list, &text, &list], r#"{"arrayValue":{}}"#),
    ];
    for (fields, expected) in cases {
        assert_eq!(written(fields.into_iter().cloned().collect()), expected);
    }
}

/// Else points would be lost in silence.
#[test]
fn of_several_kinds_of_data_all_points_are_foreign() {
    let of_sum = bytes(7, &[bytes(1, &point(b"")), vec![0x10, 1]].concat());
    let gauge = bytes(5, &bytes(1, b""));
    let read = read(within_request(&[of_sum, gauge].concat()));
    assert_eq!((read.foreign, read.series.len()), (2, 0));
}

#[test]
fn a_message_that_is_there_in_parts_is_one() {
    let of_sum = |points: &[u8]| bytes(7, points);
    let points = [bytes(1, &point(b"")), bytes(1, &point(&attribute(&bytes(1, b"t"))))];
    let (first, second) = (of_sum(&points[0]), of_sum(&[&points[1][..], &[0x10, 1]].concat()));
    let metric = [&first[..], &bytes(1, b"m"), &second, &of_sum(b"")].concat();
    let scope = bytes(2, &bytes(2, &metric));
    let resource = |key: &[u8]| bytes(1, &bytes(1, &[&bytes(1, key)[..], &bytes(2, &[24, 5])].concat()));
    let body = bytes(1, &[&resource(b"a")[..], &scope, &resource(b"b")].concat());
    let mut series: Vec<String> = read(body).series.into_keys().map(|key| key.0.to_string()).collect();
    series.sort();
    let above = r#"[[{"key":"a","value":{"intValue":"5"}},{"key":"b","value":{"intValue":"5"}}],"","",[],"m","","sum","#;
    let expected = [r#"[]]"#, r#"[{"key":"k","value":{"stringValue":"t"}}]]"#];
    let mut expected = expected.map(|attributes| format!("{above}{attributes}"));
    expected.sort();
    assert_eq!(series, expected);
}

/// Parts in parts, as far as they are copied.
#[test]
fn parts_may_be_in_parts() {
    let value = [bytes(2, &bytes(1, b"a")), bytes(2, b""), bytes(2, &[24, 7])].concat();
    let pair = bytes(7, &[bytes(1, b"k"), value].concat());
    let whole = point(&pair);
    let of_sum = [bytes(7, &bytes(1, &whole)), bytes(7, &[0x10, 1])].concat();
    let read = read(within_request(&of_sum));
    let series: Vec<String> = read.series.into_keys().map(|key| key.0.to_string()).collect();
    assert_eq!(series, [r#"[[],"","",[],"","","sum",[{"key":"k","value":{"intValue":"7"}}]]"#]);
}

/// Other readers of protobuf refuse it: each part is a message by itself, and what is cut at its end does not go on in
/// the next one.
#[test]
fn a_part_that_is_cut_is_refused() {
    let in_parts = |number: u32, whole: &[u8], cut: usize| {
        let (first, second) = whole.split_at(cut);
        [bytes(number, first), bytes(number, second)].concat()
    };
    let text = bytes(1, b"shop-1");
    let value_in_parts = |cut| {
        let pair = [bytes(1, b"k"), in_parts(2, &text, cut)].concat();
        sum(&[point(&bytes(7, &pair))])
    };
    let points = [bytes(1, &point(b"")), vec![0x10, 1]].concat();
    let sum_in_parts = |cut| within_request(&in_parts(7, &points, cut));
    let group = [&[0x7b][..], &bytes(2, b"x"), &[0x7c], &points].concat();
    let is_refused = |body: Vec<u8>, why: &str| match prepared(Encoding::Protobuf, body) {
        Ok(_) => panic!("it was taken"),
        Err(refused) => assert!(refused.to_string().contains(why), "{refused}"),
    };
    for cut in 1..text.len() {
        is_refused(value_in_parts(cut), "AnyValue: cut within a field");
    }
    for cut in 1..points.len() - 2 {
        is_refused(sum_in_parts(cut), "Sum: cut within a field");
    }
    is_refused(within_request(&in_parts(7, &group, 3)), "Sum: cut within a field");
    for whole in [value_in_parts(0), value_in_parts(text.len()), sum_in_parts(points.len() - 2)] {
        assert_eq!(read(whole).series.len(), 1);
    }
}

/// Each that another one takes the place of goes by itself: they are no parts of one.
#[test]
fn values_that_take_each_other_s_place_are_read_however_many_they_are() {
    let (list, text) = (bytes(5, &bytes(1, &bytes(1, b"in a list"))), bytes(1, b"t"));
    let turns = [list.clone(), text.clone()].concat().repeat(500);
    let read = read(sum(&[point(&attribute(&turns))]));
    let series: Vec<String> = read.series.into_keys().map(|key| key.0.to_string()).collect();
    assert_eq!(series, [r#"[[],"","",[],"","","sum",[{"key":"k","value":{"stringValue":"t"}}]]"#]);
    // What is malformed in one of them is refused, though it does not count.
    let cut = [bytes(5, &[10, 9, 1]), text].concat();
    let refused = prepared(Encoding::Protobuf, sum(&[point(&attribute(&cut))])).unwrap_err();
    assert!(refused.contains("ArrayValue: cut within a field"), "{refused}");
}
