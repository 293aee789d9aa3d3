//! Tests what is a post, and what is answered.

use crate::support::{gzip, json, post, Served, BODY};
use bytes::Bytes;
use prost::Message;
use totxegun::otlp::{Outcome, Reason};

/// The fields of `google.rpc.Status` that answers have.
#[derive(Clone, PartialEq, Message)]
struct Status {
    #[prost(int32, tag = "1")]
    code: i32,
    #[prost(string, tag = "2")]
    message: String,
}

#[tokio::test]
async fn a_kept_connection_serves_many_posts() {
    let served = Served::start().await;
    let mut client = served.client().await;
    for sender in ["A", "B", "C"] {
        client
            .write(&post(
                &format!("Content-Type: application/json\r\nX-Sender: {sender}\r\n"),
                BODY.as_bytes(),
            ))
            .await;
        let answer = client.answer().await;
        assert_eq!((answer.status, answer.body.as_slice()), (200, &b"{}"[..]));
        assert!(answer.has("content-type: application/json"), "{}", answer.head);
    }
    let senders: Vec<String> =
        served.kept.posts.lock().unwrap().iter().map(|(sender, _)| sender.clone()).collect();
    assert_eq!(senders, ["A", "B", "C"]);
    assert_eq!(served.bodies(), vec![Bytes::from(BODY); 3]);
    assert_eq!(served.budget.used(), 0);
    let page = String::from_utf8(served.metrics.page()).unwrap();
    assert!(page.contains("totxegun_requests_total{code=\"200\",reason=\"\"} 3\n"), "{page}");
}

#[tokio::test]
async fn a_post_in_pieces_and_in_chunks_is_one_post() {
    let served = Served::start().await;
    let mut client = served.client().await;
    for byte in json(BODY.as_bytes()) {
        client.write(&[byte]).await;
    }
    assert_eq!(client.answer().await.status, 200);
    let head = "POST /v1/metrics HTTP/1.1\r\nHost: a\r\nContent-Type: application/json\r\nTransfer-Encoding: chunked\r\n\r\n";
    client.write(format!("{head}5\r\n{}\r\n11\r\n{}\r\n0\r\n\r\n", &BODY[..5], &BODY[5..]).as_bytes()).await;
    assert_eq!(client.answer().await.status, 200);
    assert_eq!(served.bodies(), vec![Bytes::from(BODY); 2]);
}

#[tokio::test]
async fn a_body_is_called_for_only_where_it_is_wanted() {
    let served = Served::start().await;
    let mut client = served.client().await;
    let head = |kind: &str| {
        format!("POST /v1/metrics HTTP/1.1\r\nHost: a\r\nContent-Type: {kind}\r\nExpect: 100-continue\r\nContent-Length: {}\r\n\r\n", BODY.len())
    };
    client.write(head("application/json").as_bytes()).await;
    assert_eq!(client.answer().await.status, 100);
    client.write(BODY.as_bytes()).await;
    assert_eq!(client.answer().await.status, 200);
    client.write(head("text/plain").as_bytes()).await;
    assert_eq!(client.answer().await.status, 415);
}

#[tokio::test]
async fn packed_bodies_are_unpacked_in_both_encodings() {
    let served = Served::start().await;
    let answer = served
        .ask(&post("Content-Type: application/json\r\nContent-Encoding: gzip\r\n", &gzip(BODY.as_bytes())))
        .await;
    assert_eq!(answer.status, 200);
    let answer = served
        .ask(&post("Content-Type: application/x-protobuf\r\nContent-Encoding: gzip\r\n", &gzip(b"")))
        .await;
    assert_eq!((answer.status, answer.body.as_slice()), (200, &b""[..]));
    assert!(answer.has("content-type: application/x-protobuf"), "{}", answer.head);
    assert_eq!(served.bodies()[0], Bytes::from(BODY));
    let answer =
        served.ask(&post("Content-Type: application/json\r\nContent-Encoding: gzip\r\n", b"no gzip")).await;
    assert_eq!(
        (answer.status, answer.message().as_str()),
        (400, "bad compression: the body is not valid gzip")
    );
}

#[tokio::test]
async fn each_refusal_is_in_the_kind_of_its_request() {
    let served = Served::start().await;
    let answer = served.ask(&post("Content-Type: application/x-protobuf\r\n", b"\xff")).await;
    let status = Status::decode(answer.body.as_slice()).expect("google.rpc.Status");
    assert_eq!((answer.status, status.code), (400, 3));
    assert!(answer.has("content-type: application/x-protobuf"), "{}", answer.head);
    let answer = served.ask(&json(b"{")).await;
    assert_eq!(answer.status, 400);
    assert!(!answer.message().is_empty());
    let answer = served.ask(&post("Content-Type: text/plain\r\n", b"a")).await;
    assert_eq!(answer.status, 415);
    assert!(answer.has("content-type: application/json") && !answer.message().is_empty());
}

#[tokio::test]
async fn whoever_can_post_can_not_operate() {
    let served = Served::start().await;
    for (line, status) in [
        ("POST /flush", 404),
        ("POST /quarantine/A", 404),
        ("GET /metrics", 404),
        ("GET /report", 404),
        ("GET /", 404),
        ("GET /v1/metrics", 405),
        ("PUT /v1/metrics", 405),
    ] {
        let answer =
            served.ask(format!("{line} HTTP/1.1\r\nHost: a\r\nContent-Length: 0\r\n\r\n").as_bytes()).await;
        assert_eq!(answer.status, status, "{line}");
        assert_eq!(answer.has("allow: post"), status == 405, "{line}: {}", answer.head);
    }
}

#[tokio::test]
async fn names_of_senders_are_the_books() {
    let served = Served::start().await;
    let long = "a".repeat(65);
    for sender in [
        "x-sender: a b\r\n",
        "x-sender: \r\n",
        &format!("x-sender: {long}\r\n"),
        "x-sender: A\r\nX-Sender: A\r\n",
    ] {
        let answer =
            served.ask(&post(&format!("Content-Type: application/json\r\n{sender}"), BODY.as_bytes())).await;
        assert_eq!(
            (answer.status, answer.message().as_str()),
            (400, "bad sender: send one x-sender of 1 to 64 characters of A-Z a-z 0-9 . _ -"),
            "{sender}"
        );
    }
    assert!(served.bodies().is_empty());
}

#[tokio::test]
async fn what_a_shard_says_is_answered() {
    let refused = Reason::Recovering.into();
    let served = Served::with(refused, 1 << 20, 8).await;
    let answer = served.ask(&json(BODY.as_bytes())).await;
    assert_eq!((answer.status, answer.message().as_str()), (503, "recovering"));
    assert!(answer.has("retry-after: 1"), "{}", answer.head);
    let served = Served::with(Outcome::taken(7), 1 << 20, 8).await;
    let answer = served.ask(&json(BODY.as_bytes())).await;
    let read: serde_json::Value = serde_json::from_slice(&answer.body).unwrap();
    assert_eq!(read["partialSuccess"]["rejectedDataPoints"], "7");
}

/// Otherwise its bytes would be read as the beginning of the next answer.
#[tokio::test]
async fn an_answer_to_head_has_no_body() {
    let served = Served::start().await;
    let mut client = served.client().await;
    let head = b"HEAD /v1/metrics HTTP/1.1\r\nHost: a\r\n\r\n";
    client.write(&[&head[..], &json(BODY.as_bytes())].concat()).await;
    while !client.read.ends_with(b"{}") {
        assert!(client.more().await, "the connection ended");
    }
    let text = String::from_utf8(std::mem::take(&mut client.read)).unwrap();
    let (first, second) = text.split_once("\r\n\r\n").unwrap();
    assert!(first.starts_with("HTTP/1.1 405 ") && first.contains("\r\ncontent-length: 46\r\n"), "{first}");
    assert!(second.starts_with("HTTP/1.1 200 "), "{second}");
}

/// An empty body of protobuf is a request without points. If the length is missing, 200 would say that the points after
/// the head were taken.
#[tokio::test]
async fn a_post_says_how_long_its_body_is() {
    let served = Served::start().await;
    for version in ["1.0", "1.1"] {
        let head = format!(
            "POST /v1/metrics HTTP/{version}\r\nHost: a\r\nContent-Type: application/x-protobuf\r\n\r\n"
        );
        let answer = served.ask(&[head.as_bytes(), b"\x0a\x00"].concat()).await;
        let status = Status::decode(answer.body.as_slice()).expect("google.rpc.Status");
        assert_eq!((answer.status, status.code), (411, 3), "{}", status.message);
    }
    assert!(served.bodies().is_empty());
}
