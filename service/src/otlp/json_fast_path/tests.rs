//! What senders write is seen at once, and nothing else is.

use super::*;
use crate::otlp::from_json;
use crate::otlp::series::{visit_body, Profile, What};

const BODY: &str = r#"{"resourceMetrics":[{"resource":{"attributes":[{"key":"a","value":{"stringValue":"é"}}]},
    "schemaUrl":"u","scopeMetrics": [{"scope":{"name":"s","version":"1"},"metrics":[{"name":"m","description":"d",
    "unit":"By","sum":{"aggregationTemporality":1,"isMonotonic":true,"dataPoints":[{"attributes":[{"key":"k","value":
    {"intValue":"-9"}},{"key":"l","value":{"arrayValue":{"values":[{"boolValue":false}]}}}],"asInt":-5,"exemplars":[],
    "startTimeUnixNano":"1700000000000000000","timeUnixNano":2,"flags":0},{"attributes":[{"key":"a","value":{"stringValue":"é"}}],
    "asDouble":0.5}]}},{"histogram":{"dataPoints":[{"count":"3","sum":120,"min":0.25,"bucketCounts":["1",2],
    "explicitBounds":[10]}]}}]}]}]}"#;
/// Points that are looked at by their words.
const POINTS: &str = concat!(
    r#"{"resourceMetrics":[{"scopeMetrics":[{"metrics":[{"sum":{"dataPoints":["#,
    r#"{"attributes":[{"key":"k","value":{"intValue":"-9"}}],"#,
    r#""startTimeUnixNano":"1700000000000000000","timeUnixNano":"1700000001000000000","asInt":5},"#,
    r#"{"startTimeUnixNano":"1700000000000000000","timeUnixNano":"1700000001000000000","asInt":"-5","#,
    r#""attributes":[{"key":"k","value":{"intValue":"-9"}},{"key":"l","value":{"stringValue":"é"}}]},"#,
    r#"{"startTimeUnixNano":"1700000000000000000","timeUnixNano":"1700000001000000000","asInt":"7"}"#,
    r#"]}},{"histogram":{"dataPoints":["#,
    r#"{"attributes":[{"key":"k","value":{"intValue":"-9"}}],"#,
    r#""startTimeUnixNano":"1700000000000000000","timeUnixNano":"1700000001000000000","count":"3","sum":120,"#,
    r#""bucketCounts":["1","2"],"explicitBounds":[10],"min":0.5,"max":60},"#,
    r#"{"startTimeUnixNano":"1700000000000000000","timeUnixNano":"1700000001000000000","count":3,"#,
    r#""bucketCounts":[1,2],"explicitBounds":[10],"attributes":[{"key":"k","value":{"intValue":"-9"}}],"max":60},"#,
    r#"{"startTimeUnixNano":"1700000000000000000","timeUnixNano":"1700000001000000000","count":"3","sum":-5,"#,
    r#""bucketCounts":["3","0","0"],"explicitBounds":[-10,0]}"#,
    r#"]}}]}]}]}"#,
);

#[test]
fn what_senders_write_is_usual() {
    let with_escapes = BODY.replace("\"description\":\"d\"", r#""description":"\"\\ \/ \ud83d\ude00\n""#);
    for body in [BODY, POINTS, " {} ", r#"{"resourceMetrics":[]}"#, &with_escapes] {
        let is_cumulative = body.contains("Temporality\":2");
        let usual = Some(AsItCame { is_cumulative });
        assert_eq!(as_it_came(body.as_bytes(), &Reading::default()), usual, "{body}");
    }
}

/// What each point of a body says, or why it is foreign.
type Points = Vec<Result<(String, Vec<u64>), What>>;

/// None of a body that the book refuses whole.
fn points(body: &[u8]) -> Option<Points> {
    let mut points = Vec::new();
    visit_body(body, Profile::AlsoCumulative, |seen| {
        let found = seen.found.map(|_| (seen.key.to_string(), seen.words.to_vec()));
        points.push(found.map_err(|why| why.what));
    })?;
    Some(points)
}

#[test]
fn a_body_with_any_change_is_usual_only_where_it_says_the_same_once_it_is_written_anew() {
    let (mut tried, mut usual, reading) = (0, 0, Reading::default());
    let mut is_sound = |changed: Vec<u8>| {
        tried += 1;
        if let Some(AsItCame { is_cumulative }) = as_it_came(&changed, &reading) {
            usual += 1;
            let shown = String::from_utf8_lossy(&changed);
            let written = from_json::written(&changed, &reading);
            let written = written.unwrap_or_else(|refused| panic!("{refused}: {shown}"));
            assert_eq!(is_cumulative, written.is_cumulative, "{shown}");
            let said = points(&changed);
            assert!(said.is_some() && said == points(&written.text), "{shown}");
        }
    };
    for body in [BODY, POINTS].map(str::as_bytes) {
        for at in 0..body.len() {
            let (before, behind) = body.split_at(at);
            is_sound(before.to_vec());
            for byte in b"\"\\{}[]:,. 0123-+eEtfnu_x\n\x01\x80\xe9" {
                is_sound([before, &[*byte], &behind[1..]].concat());
                is_sound([before, &[*byte], behind].concat());
            }
            for length in [1, 2, 5, 9, 20, 40] {
                let (piece, rest) = behind.split_at(length.min(behind.len()));
                is_sound([before, rest].concat());
                is_sound([before, piece, piece, rest].concat());
            }
        }
    }
    assert!(usual > tried / 20, "{usual} of {tried} are usual");
}
