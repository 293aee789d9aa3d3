//! Tests each answer of a server, which answers by a script.

use super::script::{answer, Act, Server};
use super::*;

fn request(number: u64) -> Forwarded {
    Forwarded { shard: 3, epoch: "e".into(), number, body: br#"{"resourceMetrics":[]}"#.to_vec() }
}

fn sink(server: &Server) -> OtlpSink {
    let mut sink = OtlpSink::open(&server.url, false, false, &[], Access::default()).expect("a sink");
    sink.patience = Duration::from_secs(3); // also on a busy machine
    sink
}

async fn fate(act: Act) -> DeliveryOutcome {
    let server = Server::start(vec![act]).await;
    sink(&server).deliver(&request(1)).await
}

async fn fate_of(status: &str, headers: &str, body: &str) -> DeliveryOutcome {
    fate(Act::Write(answer(status, headers, body))).await
}

#[tokio::test]
async fn success_is_taken() {
    for (status, body) in
        [("200 OK", "{}"), ("200 OK", ""), ("202 Accepted", "no json"), ("204 No Content", "")]
    {
        assert_eq!(fate_of(status, "", body).await, DeliveryOutcome::Taken, "{status} {body}");
    }
    let json = r#"{"partialSuccess":{"rejectedDataPoints":"0","errorMessage":"a word of advice"}}"#;
    assert_eq!(fate_of("200 OK", "", json).await, DeliveryOutcome::Taken);
}

#[tokio::test]
async fn rejected_points_are_told() {
    let rejected = DeliveryOutcome::TakenPartly { rejected: 3, reason: "too old".into(), left: None };
    for body in [
        r#"{"partialSuccess":{"rejectedDataPoints":"3","errorMessage":"too old"}}"#,
        r#"{"partialSuccess":{"rejectedDataPoints":3,"errorMessage":"too old","more":1}}"#,
        r#"{"partial_success":{"rejected_data_points":"3","error_message":"too old"}}"#,
        r#"{"partialSuccess":{"rejectedDataPoints":3.0,"errorMessage":"too old"}}"#,
        r#"{"partial_success":null,"partialSuccess":{"rejectedDataPoints":"3e0","errorMessage":"too old"}}"#,
    ] {
        assert_eq!(fate_of("200 OK", "content-type: application/json\r\n", body).await, rejected, "{body}");
    }
    let without_reason = DeliveryOutcome::TakenPartly { rejected: 3, reason: String::new(), left: None };
    for json in [
        r#"{"partialSuccess":{"rejectedDataPoints":"3","errorMessage":null}}"#,
        r#"{"partialSuccess":{"rejectedDataPoints":"3","errorMessage":{}}}"#,
    ] {
        assert_eq!(fate_of("200 OK", "", json).await, without_reason, "{json}");
    }
}

/// The answer's own content type decides, not that of the request.
#[tokio::test]
async fn rejected_points_are_told_in_protobuf() {
    let body = b"\x0a\x0b\x08\x03\x12\x07too old";
    let body = std::str::from_utf8(body).expect("ASCII");
    let headers = "content-type: application/x-protobuf\r\n";
    let rejected = DeliveryOutcome::TakenPartly { rejected: 3, reason: "too old".into(), left: None };
    assert_eq!(fate_of("200 OK", headers, body).await, rejected);
}

/// Some servers declare JSON as text.
#[tokio::test]
async fn an_object_of_no_known_kind_is_json() {
    let json = "{\"partialSuccess\":{\"rejectedDataPoints\":\"3\",\"errorMessage\":\"too old\"}}\n";
    for headers in ["", "content-type: text/plain; charset=utf-8\r\n"] {
        let server = Server::start(vec![Act::Write(answer("200 OK", headers, json))]).await;
        let mut sink = OtlpSink::open(&server.url, true, false, &[], Access::default()).expect("a sink");
        sink.patience = Duration::from_secs(3);
        let rejected = DeliveryOutcome::TakenPartly { rejected: 3, reason: "too old".into(), left: None };
        assert_eq!(sink.deliver(&request(1)).await, rejected, "{headers}");
    }
}

#[tokio::test]
async fn trouble_that_passes_is_tried_again() {
    for status in ["408 Request Timeout", "425 Too Early", "429 Too Many Requests", "502 X", "503 X", "504 X"]
    {
        match fate_of(status, "", r#"{"message":"later"}"#).await {
            DeliveryOutcome::Again { reason, after: None } => assert!(reason.contains("later"), "{reason}"),
            other => panic!("{status}: {other:?}"),
        }
    }
}

#[tokio::test]
async fn a_sink_that_fails_says_not_whether_it_passes() {
    for status in ["500 X", "501 X", "505 X", "599 X"] {
        match fate_of(status, "retry-after: 7\r\n", r#"{"message":"broken"}"#).await {
            DeliveryOutcome::Failed { reason, after } => {
                assert!(reason.contains("broken"), "{reason}");
                assert_eq!(after, Some(Duration::from_secs(7)));
            }
            other => panic!("{status}: {other:?}"),
        }
    }
}

/// Usually a token has expired, and the next one is accepted.
#[tokio::test]
async fn who_is_not_let_in_is_not_refused_for_good() {
    for status in ["401 Unauthorized", "403 Forbidden"] {
        match fate_of(status, "", r#"{"message":"expired"}"#).await {
            DeliveryOutcome::Denied { reason, after: None } => {
                assert!(reason.contains("expired"), "{reason}")
            }
            other => panic!("{status}: {other:?}"),
        }
    }
}

#[tokio::test]
async fn retry_after_is_read() {
    let date = httpdate::fmt_http_date(std::time::SystemTime::now() + Duration::from_secs(90));
    for (value, least, most) in [("7", 7, 7), (date.as_str(), 85, 90)] {
        match fate_of("503 Service Unavailable", &format!("retry-after: {value}\r\n"), "").await {
            DeliveryOutcome::Again { after: Some(after), .. } => {
                let least_of = Duration::from_secs(least);
                assert!(least_of <= after && after <= Duration::from_secs(most), "{after:?}");
            }
            other => panic!("{value}: {other:?}"),
        }
    }
    match fate_of("503 Service Unavailable", "retry-after: soon\r\n", "").await {
        DeliveryOutcome::Again { after: None, .. } => {}
        other => panic!("{other:?}"),
    }
}

#[tokio::test]
async fn what_will_not_change_is_refused() {
    for status in ["400 Bad Request", "409 X", "413 X", "415 X", "422 X"] {
        match fate_of(status, "content-type: application/json\r\n", r#"{"code":3,"message":"bad\npoint"}"#)
            .await
        {
            DeliveryOutcome::Refused { reason } => assert!(reason.ends_with(": bad point"), "{reason}"),
            other => panic!("{status}: {other:?}"),
        }
    }
}

/// As while the receiver behind an ingress is being deployed.
#[tokio::test]
async fn a_proxy_without_its_receiver_says_not_whether_it_passes() {
    for status in ["404 Not Found", "405 Method Not Allowed"] {
        match fate_of(status, "retry-after: 7\r\n", "no backend").await {
            DeliveryOutcome::Failed { reason, after: Some(Duration { .. }) } => {
                assert!(reason.contains("no backend"), "{reason}")
            }
            other => panic!("{status}: {other:?}"),
        }
    }
    for status in ["301 Moved Permanently", "302 Found", "307 Temporary Redirect"] {
        match fate_of(status, "location: http://elsewhere/?key=secret\r\n", "").await {
            DeliveryOutcome::Failed { reason, after: None } => {
                assert!(reason.contains("http://elsewhere/?..: ") && !reason.contains("secret"), "{reason}")
            }
            other => panic!("{status}: {other:?}"),
        }
    }
}

#[tokio::test]
async fn no_answer_is_tried_again() {
    let half_a_head = Act::Last("HTTP/1.1 200 OK\r\ncontent-le".into());
    for (what, act) in [
        ("late", Act::Late),
        ("lost after taking", Act::Last(String::new())),
        ("half a head", half_a_head),
        ("no HTTP", Act::Last("hello\r\n\r\n".into())),
    ] {
        match fate(act).await {
            DeliveryOutcome::Again { reason, after: None } => {
                assert!(reason.starts_with("no answer"), "{what}: {reason}")
            }
            other => panic!("{what}: {other:?}"),
        }
    }
}

#[tokio::test]
async fn nobody_there_is_tried_again() {
    let free = std::net::TcpListener::bind("127.0.0.1:0").expect("a port").local_addr().expect("its address");
    let sink =
        OtlpSink::open(&format!("http://{free}/"), false, false, &[], Access::default()).expect("a sink");
    match sink.deliver(&request(1)).await {
        DeliveryOutcome::Away { reason } => assert!(reason.contains("refused"), "{reason}"),
        other => panic!("{other:?}"),
    }
}

/// The status has arrived, so the request is taken. A fault in the body is not worth a second delivery.
#[tokio::test]
async fn a_cut_or_late_body_does_not_change_the_status() {
    let cut = "HTTP/1.1 200 OK\r\ncontent-length: 100\r\n\r\n{\"par";
    assert_eq!(fate(Act::Last(cut.into())).await, DeliveryOutcome::Taken);
    assert_eq!(fate(Act::Write(cut.into())).await, DeliveryOutcome::Taken);
    match fate(Act::Last("HTTP/1.1 503 X\r\ncontent-length: 100\r\n\r\nbusy".into())).await {
        DeliveryOutcome::Again { reason, .. } => assert_eq!(reason, "503 Service Unavailable"),
        other => panic!("{other:?}"),
    }
}

#[tokio::test]
async fn a_huge_answer_is_cut_off() {
    let huge = "x".repeat(8 << 20);
    assert_eq!(fate_of("200 OK", "", &huge).await, DeliveryOutcome::Taken);
    match fate_of("400 Bad Request", "", &huge).await {
        DeliveryOutcome::Refused { reason } => assert!(reason.len() < 100, "{}", reason.len()),
        other => panic!("{other:?}"),
    }
    let endless_head = format!("HTTP/1.1 200 OK\r\nx: {}\r\n\r\n", "y".repeat(1 << 20));
    match fate(Act::Last(endless_head)).await {
        DeliveryOutcome::Again { .. } => {}
        other => panic!("{other:?}"),
    }
}

#[tokio::test]
async fn requests_share_a_connection_and_say_their_key() {
    let server = Server::start(vec![Act::Write(answer("200 OK", "", "{}"))]).await;
    let headers = [("Authorization".to_string(), "Bearer t".to_string()), ("x-tenant".into(), "a".into())];
    let sink = OtlpSink::open(&server.url, false, false, &headers, Access::default()).expect("a sink");
    for number in 1..=3 {
        assert_eq!(sink.deliver(&request(number)).await, DeliveryOutcome::Taken);
    }
    let came = server.came();
    assert_eq!(came.iter().map(|one| one.connection).collect::<Vec<_>>(), [0, 0, 0]);
    for (one, number) in came.iter().zip(1..) {
        assert!(one.head.starts_with("POST /v1/metrics HTTP/1.1\r\n"), "{}", one.head);
        assert_eq!(one.header("idempotency-key"), Some(format!("3-e-{number}").as_str()));
        assert_eq!(one.header("content-type"), Some("application/json"));
        assert_eq!(one.header("authorization"), Some("Bearer t"));
        assert_eq!(one.header("x-tenant"), Some("a"));
        assert_eq!(one.body, request(number).body);
    }
    assert!(!sink.name().contains("Bearer"), "{}", sink.name());
}

#[tokio::test]
async fn a_request_that_is_sent_again_has_the_same_bytes_and_key() {
    let acts = vec![
        Act::Last(String::new()),
        Act::Write(answer("503 X", "", "")),
        Act::Write(answer("200 OK", "", "")),
    ];
    let server = Server::start(acts).await;
    let sink = OtlpSink::open(&server.url, false, true, &[], Access::default()).expect("a sink");
    let mut fates = Vec::new();
    for _ in 0..3 {
        fates.push(sink.deliver(&request(9)).await);
        tokio::time::sleep(Duration::from_millis(1100)).await;
    }
    assert!(
        matches!(
            fates[..],
            [DeliveryOutcome::Again { .. }, DeliveryOutcome::Again { .. }, DeliveryOutcome::Taken]
        ),
        "{fates:?}"
    );
    let came = server.came();
    for one in &came {
        assert_eq!(one.body, came[0].body);
        assert_eq!(one.header("idempotency-key"), Some("3-e-9"));
        assert_eq!(one.header("content-encoding"), Some("gzip"));
        let mut plain = Vec::new();
        std::io::Read::read_to_end(&mut flate2::read::GzDecoder::new(&one.body[..]), &mut plain)
            .expect("gzip");
        assert_eq!(plain, request(9).body);
    }
}

/// The query may have a key.
#[test]
fn what_an_address_asks_for_is_not_shown() {
    let name = |url: &str| OtlpSink::open(url, false, false, &[], Access::default()).expect("a sink").name();
    assert_eq!(name("http://h:1/v1/metrics"), "otlp http://h:1/v1/metrics");
    assert_eq!(name("http://h:1/otlp?api_key=secret"), "otlp http://h:1/otlp?..");
}

#[test]
fn bad_headers_are_named() {
    let open = |name: &str, value: &str| {
        OtlpSink::open("http://h/", false, false, &[(name.into(), value.into())], Access::default())
    };
    for (name, value) in
        [("content-type", "x"), ("Accept-Encoding", "gzip"), ("Idempotency-Key", "x"), ("x-a", "secret\nb")]
    {
        let error = open(name, value).err().expect(name).to_string();
        assert!(error.contains(name) && !error.contains("secret"), "{error}");
    }
    let forgotten = open("Bearer secret", "b").err().expect("no name").to_string();
    assert!(forgotten.contains("name") && !forgotten.contains("secret"), "{forgotten}");
    assert!(open("x-a", "b").is_ok());
}

#[tokio::test]
async fn https_with_a_server_that_has_no_certificate_is_tried_again() {
    let server = Server::start(vec![Act::Write(answer("200 OK", "", ""))]).await;
    let url = server.url.replace("http://127.0.0.1", "https://localhost");
    let Ok(mut sink) = OtlpSink::open(&url, false, false, &[], Access::default()) else {
        return;
    };
    sink.patience = Duration::from_secs(5);
    match sink.deliver(&request(1)).await {
        DeliveryOutcome::Again { reason, .. } | DeliveryOutcome::Away { reason } => {
            assert!(reason.starts_with("no answer"), "{reason}")
        }
        other => panic!("{other:?}"),
    }
}
