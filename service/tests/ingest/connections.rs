//! Tests connections as senders use them: in pieces, with many requests at once, half closed, and gone.

use crate::support::{json, post, Served, BODY, LATE};
use std::time::Duration;
use tokio::io::AsyncWriteExt;
use totxegun::ingest::Limits;
use totxegun::otlp::{Outcome, Reason};

#[tokio::test]
async fn many_pipelined_requests_are_answered_in_order() {
    let served = Served::start().await;
    let mut client = served.client().await;
    let three = [json(BODY.as_bytes()), post("", b"x"), json(b"{")].concat();
    client.write(&three.repeat(300)).await;
    for _ in 0..300 {
        for status in [200, 415, 400] {
            assert_eq!(client.answer().await.status, status);
        }
    }
    assert_eq!(served.bodies().len(), 300);
}

#[tokio::test]
async fn a_pipelined_head_may_be_cut_anywhere() {
    let served = Served::start().await;
    let request = json(BODY.as_bytes());
    let two = request.repeat(2);
    for cut in (0..two.len()).step_by(7) {
        let mut client = served.client().await;
        client.write(&two[..cut]).await;
        tokio::task::yield_now().await;
        client.write(&two[cut..]).await;
        assert_eq!((client.answer().await.status, client.answer().await.status), (200, 200), "{cut}");
    }
}

#[tokio::test]
async fn a_sender_may_go_away_at_each_point() {
    let served = Served::start().await;
    let request = json(BODY.as_bytes());
    for cut in 0..request.len() {
        let mut client = served.client().await;
        client.write(&request[..cut]).await;
        if cut % 2 == 0 {
            let _ = client.stream.set_linger(Some(std::time::Duration::ZERO)); // by a reset
        }
    }
    assert_eq!(served.ask(&request).await.status, 200);
    assert_eq!(served.bodies().len(), 1, "what is cut is no post");
    let mut client = served.client().await;
    client.write(&request).await;
    drop(client);
    let begun = std::time::Instant::now();
    while served.bodies().len() < 2 && begun.elapsed() < 20 * LATE {
        tokio::time::sleep(LATE / 50).await;
    }
    assert_eq!(served.bodies().len(), 2, "a post is whole though its sender goes away");
    assert_eq!(served.budget.used(), 0);
}

#[tokio::test]
async fn a_sender_that_has_said_all_is_answered() {
    let served = Served::start().await;
    let mut client = served.client().await;
    client.write(&json(BODY.as_bytes()).repeat(2)).await;
    client.stream.shutdown().await.unwrap();
    assert_eq!((client.answer().await.status, client.answer().await.status), (200, 200));
    assert!(client.ends().await);
    let mut within = served.client().await;
    within.write(b"POST /v1/metrics HTTP/1.1\r\nHost: a\r\n").await;
    within.stream.shutdown().await.unwrap();
    assert!(within.ends().await, "half a head is no request");
}

#[tokio::test]
async fn many_connections_at_once() {
    let served = std::sync::Arc::new(Served::with(Outcome::taken(0), 64 << 20, 1000).await);
    let mut clients = tokio::task::JoinSet::new();
    for _ in 0..300 {
        let served = served.clone();
        clients.spawn(async move {
            let mut client = served.client().await;
            for _ in 0..5 {
                client.write(&json(BODY.as_bytes())).await;
                assert_eq!(client.answer().await.status, 200);
            }
        });
    }
    while let Some(ended) = clients.join_next().await {
        ended.unwrap();
    }
    assert_eq!(served.bodies().len(), 1500);
    assert_eq!(served.budget.used(), 0);
}

#[tokio::test]
async fn what_is_no_request_is_refused_and_ends_the_connection() {
    let served = Served::start().await;
    let long = format!("POST /v1/metrics HTTP/1.1\r\nHost: a\r\na: {}\r\n\r\n", "a".repeat(70 << 10));
    let many = format!("POST /v1/metrics HTTP/1.1\r\nHost: a\r\n{}\r\n", "a: b\r\n".repeat(200));
    let both =
        "POST /v1/metrics HTTP/1.1\r\nHost: a\r\nContent-Length: 2\r\nTransfer-Encoding: chunked\r\n\r\n{}";
    let cases = [
        ("SSH-2.0-OpenSSH_9.2\r\n\r\n", 400, "malformed request"),
        (both, 400, "malformed request"),
        (&long, 431, "head too long: over 65536 bytes or 100 fields: send fewer headers"),
        (&many, 431, "head too long: over 65536 bytes or 100 fields: send fewer headers"),
    ];
    for (text, status, message) in cases {
        let mut client = served.client().await;
        client.write(text.as_bytes()).await;
        let answer = client.answer().await;
        assert_eq!((answer.status, answer.message().as_str()), (status, message));
        assert!(answer.body.starts_with(b"{\"code\":3,"), "INVALID_ARGUMENT");
        assert!(answer.has("connection: close"), "{}", answer.head);
        assert!(client.ends().await);
    }
    let bad = "POST /v1/metrics HTTP/1.1\r\nHost: a\r\nContent-Type: application/json\r\nTransfer-Encoding: chunked\r\n\r\nx\r\n";
    let mut client = served.client().await;
    client.write(bad.as_bytes()).await;
    assert_eq!(client.answer().await.status, 400);
    assert!(client.ends().await);
    assert!(served.bodies().is_empty());
}

#[tokio::test]
async fn older_senders_are_served() {
    let served = Served::start().await;
    let request = |connection: &str| {
        let length = BODY.len();
        format!("POST /v1/metrics HTTP/1.0\r\nContent-Type: application/json\r\n{connection}Content-Length: {length}\r\n\r\n{BODY}")
    };
    let mut client = served.client().await;
    client.write(request("Connection: keep-alive\r\n").as_bytes()).await;
    let answer = client.answer().await;
    assert!(answer.status == 200 && answer.has("connection: keep-alive"), "{}", answer.head);
    client.write(request("").as_bytes()).await;
    let answer = client.answer().await;
    assert!(answer.status == 200 && answer.has("connection: close"), "{}", answer.head);
    assert!(client.ends().await);
}

#[tokio::test]
async fn a_sender_that_asks_for_the_end_gets_it_behind_its_answer() {
    let served = Served::start().await;
    let mut client = served.client().await;
    let request = post("Content-Type: application/json\r\nConnection: close\r\n", BODY.as_bytes());
    client.write(&request).await;
    assert_eq!(client.answer().await.status, 200);
    assert!(client.ends().await);
    let mut late = served.client().await;
    late.write(b"POST /v1/metrics HTTP/1.1\r\nHost: a\r\nContent-Type: text/plain\r\nExpect: 100-continue\r\nContent-Length: 5\r\n\r\n")
        .await;
    assert_eq!(late.answer().await.status, 415);
    assert!(late.ends().await, "whether the body comes is not known");
}

/// Otherwise it would keep its place while another sender waits for one.
#[tokio::test]
async fn a_sender_that_does_not_read_its_answer_is_closed_where_another_waits() {
    let limits = Limits {
        connections: 1,
        head: Duration::from_secs(8), // a sender has two seconds for reading
        idle: Duration::from_secs(600),
    };
    // More than the system buffers for a sender that buffers little itself.
    let long = Outcome::refused(Reason::Unreadable, "x".repeat(8 << 20));
    let served = Served::limited(limits, LATE, long, 64 << 20).await;
    let deaf = tokio::net::TcpSocket::new_v4().unwrap();
    deaf.set_recv_buffer_size(4096).unwrap();
    let mut deaf = deaf.connect(served.address).await.unwrap();
    deaf.write_all(&json(BODY.as_bytes())).await.unwrap();
    deaf.readable().await.unwrap();
    assert_eq!(served.ask(&json(BODY.as_bytes())).await.status, 400);
    drop(deaf);
}
