//! The reader of JSON, beside another one.

use super::*;

/// Texts and whether they are JSON (RFC 8259), but for what is said of ranges and depth.
const TEXTS: &[(&str, bool)] = &[
    ("null", true),
    (" {\"a\" : [ 1 , true ,\tfalse,\r\nnull ] } ", true),
    ("[]", true),
    ("{}", true),
    ("[[],{},\"\"]", true),
    ("-0", true),
    ("-0.5E+3", true),
    ("1e-400", true),
    ("\"\\u00e9\\uD83D\\uDE00\\/\\b\\f\\n\\r\\t\\\"\\\\\"", true),
    ("", false),
    ("nul", false),
    ("[1,]", false),
    ("[,1]", false),
    ("[1 2]", false),
    ("[1}", false),
    ("{\"a\":1]", false),
    ("{\"a\":1,}", false),
    ("{\"a\"}", false),
    ("{a:1}", false),
    ("{1:1}", false),
    ("{} {}", false),
    ("01", false),
    ("+1", false),
    (".5", false),
    ("1.", false),
    ("1e", false),
    ("-", false),
    ("NaN", false),
    ("1e400", false),
    ("\"\u{1}\"", false),
    ("\"\\x\"", false),
    ("\"\\u12g4\"", false),
    ("\"\\ud800\"", false),
    ("\"\\udc00\"", false),
    ("\"\\ud800\\u0041\"", false),
    ("\"", false),
    ("'a'", false),
    ("\u{feff}{}", false),
];

fn reference(value: Value<'_>) -> serde_json::Value {
    match value.kind() {
        Kind::Null => serde_json::Value::Null,
        Kind::Bool => value.truth().unwrap().into(),
        Kind::Number => serde_json::from_str(value.number().unwrap()).unwrap(),
        Kind::Text => value.text().unwrap().into(),
        Kind::Array => value.elements().unwrap().map(reference).collect(),
        Kind::Object => value
            .members()
            .unwrap()
            .map(|(name, value)| (name.to_string(), reference(value)))
            .collect::<serde_json::Map<_, _>>()
            .into(),
    }
}

/// The same bytes are JSON here and there, and say the same.
fn agrees(bytes: &[u8]) {
    let there = serde_json::from_slice::<serde_json::Value>(bytes).ok();
    let here = Document::parse(bytes).ok();
    assert_eq!(
        here.as_ref().map(|document| reference(document.root())),
        there,
        "{:?}",
        String::from_utf8_lossy(bytes)
    );
}

#[test]
fn texts_are_json_or_not() {
    for (text, is_json) in TEXTS {
        assert_eq!(Document::parse(text.as_bytes()).is_ok(), *is_json, "{text}");
        agrees(text.as_bytes());
    }
    assert_eq!(Document::parse(b"\"\xff\"").err(), Some(NotJson::NotText(1)));
    let number = "9".repeat(400);
    assert_eq!(Document::parse(number.as_bytes()).err(), Some(NotJson::OutOfRange(0)));
}

#[test]
fn cut_and_changed_texts_read_as_another_reader_does() {
    let text = r#"{"a":[-1.5e3,0,"x\u00e9\n",{"b":null,"b":[true,false]}],"":"é\\"}"#.as_bytes();
    for length in 0..=text.len() {
        agrees(&text[..length]);
    }
    for place in 0..text.len() {
        for byte in 0..=255 {
            let mut changed = text.to_vec();
            changed[place] = byte;
            agrees(&changed);
        }
    }
}

#[test]
fn nesting_ends_at_127() {
    for (open, close) in [("[", "]"), ("{\"a\":", "}")] {
        let nested = |depth: usize| {
            let inner = if open == "[" { "" } else { "0" };
            format!("{}{inner}{}", open.repeat(depth), close.repeat(depth))
        };
        assert!(Document::parse(nested(127).as_bytes()).is_ok());
        let refused = Document::parse(nested(128).as_bytes()).err();
        assert_eq!(refused, Some(NotJson::TooDeep(127 * open.len())));
    }
    assert!(matches!(Document::parse("[".repeat(4 << 20).as_bytes()), Err(NotJson::TooDeep(_))));
}

#[test]
fn of_a_name_the_last_counts_and_null_is_absent() {
    let document = Document::parse(br#"{"a":1,"b":2,"\u0061":3,"b":null}"#).unwrap();
    let [a, b, c] = document.root().named(["a", "b", "c"]).unwrap();
    assert_eq!((a.and_then(Value::number), b.is_none(), c.is_none()), (Some("3"), true, true));
    assert!(Document::parse(b"[]").unwrap().root().named(["a"]).is_none());
}

#[test]
fn texts_are_written_as_they_were() {
    let all: String = (0..0x250).filter_map(char::from_u32).chain("\u{2028}\u{1f600}".chars()).collect();
    let mut out = String::new();
    write_text(&mut out, &all);
    assert_eq!(Document::parse(out.as_bytes()).unwrap().root().text().unwrap(), all);
    let mut out = String::new();
    write_text(&mut out, "\u{1}\u{8}\t\n\u{c}\r\u{1f}\"\\/\u{7f}é");
    assert_eq!(out, "\"\\u0001\\b\\t\\n\\f\\r\\u001f\\\"\\\\/\u{7f}é\"");
}

#[test]
fn the_beginning_of_a_text_has_no_part_of_a_character() {
    let document = Document::parse("\"aé\\u00e9\\ud83d\\ude00\\n\"".as_bytes()).unwrap();
    let whole = document.root().text().unwrap();
    let begins: Vec<_> = (0..=30).map(|most| document.root().text_up_to(most).unwrap()).collect();
    assert!(begins.iter().all(|begin| whole.starts_with(&**begin)), "{begins:?}");
    let lengths: Vec<usize> = begins.iter().map(|begin| begin.chars().count()).collect();
    assert_eq!(lengths, [vec![0, 1, 1, 2, 2, 2, 2, 2, 2], vec![3; 12], vec![4; 2], vec![5; 8]].concat());
}

#[test]
fn numbers_near_the_range_are_known() {
    for (text, near) in
        [("1e307", false), ("[1.7e308]", true), ("-1e308", true), ("1", false), ("1e-320", false)]
    {
        assert_eq!(Document::parse(text.as_bytes()).unwrap().is_near_range(), near, "{text}");
    }
}

#[test]
fn the_ends_of_texts_and_digits_are_those_that_a_look_at_each_byte_finds() {
    let is_plain = |byte: &u8| *byte >= 32 && *byte != b'"' && *byte != b'\\';
    for length in 0..=26 {
        for place in 0..length {
            for byte in 0..=255u8 {
                let mut bytes = vec![b'7'; length];
                bytes[place] = byte;
                if let Some(next) = bytes.get_mut(place + 1) {
                    *next = byte.wrapping_add(1);
                }
                let plain = bytes.iter().take_while(|byte| is_plain(byte)).count();
                let digits = bytes.iter().take_while(|byte| byte.is_ascii_digit()).count();
                assert_eq!((plain_length(&bytes), digits_length(&bytes)), (plain, digits), "{bytes:?}");
            }
        }
    }
}
