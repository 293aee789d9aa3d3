//! Requests that have all but the point in common.

use super::*;

fn request(name: &str, points: &str) -> String {
    format!(
        r#"{{"resourceMetrics":[{{"scopeMetrics":[{{"metrics":[{{"name":"{name}","sum":{{"dataPoints":[{points}],"isMonotonic":true}}}}]}}]}}]}}"#
    )
}

#[test]
fn requests_with_all_but_the_point_in_common_are_read_together() {
    let points = [r#"{"a":"\"}]"}"#, r#"{"b":[{"c":1},{}],"d":{}}"#, "{}"];
    let all = points.map(|point| request("n", point));
    let around = Around::of(all[0].as_bytes()).unwrap();
    let found: Vec<&[u8]> = all.iter().map(|text| around.point(text.as_bytes()).unwrap()).collect();
    assert_eq!(found, points.map(str::as_bytes));
    assert_eq!(around.with(&found), request("n", &points.join(",")).into_bytes());
}

/// What has more than a point in the place of the point may say something else of all.
#[test]
fn what_is_no_single_point_has_nothing_in_common() {
    let one = request("n", "{}");
    let around = Around::of(one.as_bytes()).unwrap();
    let beyond = r#"{}],"unit":"s","other":[{}"#;
    for points in ["", "{},{}", " {}", "{} ", beyond, "{}{", "}{", "1", "\"{}\"", "{\"", "{\"\\"] {
        assert!(around.point(request("n", points).as_bytes()).is_none(), "{points}");
    }
    assert!(around.point(request("m", "{}").as_bytes()).is_none());
    assert!(around.point(&one.as_bytes()[..one.len() - 1]).is_none());
    for other in ["", "{}", &request("n", ""), &one.replace("sum", "gauge")] {
        assert!(Around::of(other.as_bytes()).is_none(), "{other}");
    }
}
