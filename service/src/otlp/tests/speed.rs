//! How long long bodies take. Run it optimised:
//! `CARGO_PROFILE_DEV_OPT_LEVEL=3 tools/cargo test --lib speed -- --ignored --nocapture`

use super::*;

/// Nanoseconds that this thread was on a processor.
pub fn on_processor() -> u64 {
    let times = std::fs::read_to_string("/proc/thread-self/schedstat").unwrap();
    times.split(' ').next().unwrap().parse().unwrap()
}

#[test]
#[ignore = "prints times"]
fn speed_of_long_bodies() {
    let point = |place: usize| {
        format!(
            r#"{{"asInt":"{place}","attributes":[{{"key":"http.route","value":{{"stringValue":"/r/{}"}}}},{{"key":"code","value":{{"intValue":"200"}}}}],"startTimeUnixNano":"1700000000000000000","timeUnixNano":"1700000001000000000"}}"#,
            place % 1000
        )
    };
    let points: Vec<String> = (0..20_000).map(point).collect();
    let scope = r#""scope":{"attributes":[],"name":"s","version":"1"}"#;
    let body = format!(
        r#"{{"resourceMetrics":[{{"resource":{{"attributes":[]}},"scopeMetrics":[{{"metrics":[{{"name":"m","sum":{{"aggregationTemporality":1,"dataPoints":[{}],"isMonotonic":true}},"unit":""}}],{scope}}}]}}]}}"#,
        points.join(",")
    );
    let protobuf = Bytes::from(protobuf_of_forwarded(body.as_bytes()).unwrap());
    let typed = body.replace("asInt", "as_int");
    let time = |what: &str, run: &dyn Fn()| {
        let best = (0..5).map(|_| {
            let begin = on_processor();
            run();
            on_processor() - begin
        });
        println!("{what}: {:?} us", best.min().map(|time| time / 1_000));
    };
    println!("{} bytes of JSON, {} of protobuf", body.len(), protobuf.len());
    time("posted", &|| drop(posted(body.as_bytes())));
    time("forwarded", &|| drop(series::forwarded(body.as_bytes())));
    time("JSON as it is", &|| drop(prepared(Encoding::Json, body.clone())));
    time("JSON that is written", &|| drop(prepared(Encoding::Json, typed.clone())));
    time("protobuf", &|| drop(prepared(Encoding::Protobuf, protobuf.clone())));
}
