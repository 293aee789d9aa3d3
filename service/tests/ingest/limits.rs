//! Tests limits of bytes, times and connections, and the end of the service.

use crate::support::{gzip, json, post, Served, BODY, LATE, PATIENCE};
use std::time::{Duration, Instant};
use tokio::io::AsyncWriteExt;
use tokio::net::TcpStream;
use totxegun::ingest::Limits;
use totxegun::otlp::Outcome;

const TOO_LONG: &str = "body too long: over 4194304 bytes, compressed or not: post fewer points at a time";

#[tokio::test]
async fn a_bomb_ends_at_the_limit() {
    let served = Served::start().await;
    let bomb = gzip(&vec![b' '; 100 << 20]);
    let answer =
        served.ask(&post("Content-Type: application/json\r\nContent-Encoding: gzip\r\n", &bomb)).await;
    assert_eq!((answer.status, answer.message().as_str()), (413, TOO_LONG));
    assert_eq!(served.budget.used(), 0);
    assert!(served.bodies().is_empty());
}

#[tokio::test]
async fn a_body_over_the_limit_is_answered_and_its_rest_thrown_away() {
    let served = Served::start().await;
    let mut client = served.client().await;
    client.write(&json(&vec![b' '; (4 << 20) + 1])).await;
    let answer = client.answer().await;
    assert_eq!((answer.status, answer.message().as_str()), (413, TOO_LONG));
    client.write(&json(BODY.as_bytes())).await;
    assert_eq!(client.answer().await.status, 200);
}

#[tokio::test]
async fn a_slow_head_and_a_slow_body_are_ended() {
    let served = Served::impatient().await;
    let mut head = served.client().await;
    head.write(b"POST /v1/metrics HTTP/1.1\r\nHost:").await;
    let late = head.answer().await;
    assert_eq!(
        (late.status, late.message().as_str()),
        (503, "the request did not arrive in time: retry"),
        "senders of OTLP drop what is 408"
    );
    assert!(late.has("retry-after: 1") && late.has("connection: close"), "{}", late.head);
    assert!(head.ends().await);
    let mut body = served.client().await;
    let begun = Instant::now();
    body.write(b"POST /v1/metrics HTTP/1.1\r\nHost: a\r\nContent-Type: application/json\r\nContent-Length: 9\r\n\r\n{")
        .await;
    let answer = body.answer().await;
    assert_eq!(
        (answer.status, answer.message().as_str()),
        (503, "the request did not arrive in time: retry")
    );
    assert!(begun.elapsed() >= LATE);
    assert!(body.ends().await);
    let mut idle = served.client().await;
    assert!(idle.ends().await);
}

/// Otherwise its sender could take the 503 for the answer to its next request.
#[tokio::test]
async fn an_empty_line_behind_a_body_is_no_head_that_is_slow() {
    let served = Served::impatient().await;
    let mut client = served.client().await;
    client.write(&[&json(BODY.as_bytes())[..], b"\r\n"].concat()).await;
    assert_eq!(client.answer().await.status, 200);
    assert!(client.ends().await, "as one that is idle");
}

#[tokio::test]
async fn a_cut_body_is_no_post() {
    let served = Served::start().await;
    let mut client = served.client().await;
    client.write(&json(BODY.as_bytes())[..80]).await;
    drop(client);
    let mut half = served.client().await;
    half.write(b"POST /v1/metrics HTTP/1.1\r\nHost: a\r\nContent-Type: application/json\r\nContent-Length: 9\r\n\r\n{}")
        .await;
    half.stream.shutdown().await.unwrap();
    let answer = half.answer().await;
    assert_eq!(
        (answer.status, answer.message().as_str()),
        (503, "the sender has gone away before the body was complete: retry")
    );
    assert!(served.bodies().is_empty());
    assert_eq!(served.budget.used(), 0);
}

/// The sender repeats the post, so nothing is lost, and nobody has to do anything.
#[tokio::test]
async fn a_sender_that_goes_away_within_a_body_is_no_malformed_request() {
    let served = Served::start().await;
    let chunked = "POST /v1/metrics HTTP/1.1\r\nHost: a\r\nContent-Type: application/json\r\n\
                   Transfer-Encoding: chunked\r\n\r\n2\r\n{";
    for begun in [&json(BODY.as_bytes())[..90], chunked.as_bytes()] {
        for is_reset in [false, true] {
            let mut client = served.client().await;
            client.write(begun).await;
            tokio::time::sleep(LATE / 8).await;
            if is_reset {
                client.stream.set_linger(Some(Duration::ZERO)).unwrap();
            }
        }
    }
    let counted = "totxegun_requests_total{code=\"503\",reason=\"gone_away\"} 4";
    let begun = Instant::now();
    let page = || String::from_utf8(served.metrics.page()).unwrap();
    while !page().lines().any(|line| line == counted) {
        assert!(begun.elapsed() < PATIENCE, "{}", page());
        tokio::time::sleep(LATE / 8).await;
    }
    assert!(!page().contains("malformed request"), "{}", page());
}

#[tokio::test]
async fn what_is_over_the_bytes_in_flight_may_be_sent_again() {
    let served = Served::with(Outcome::taken(0), 1000, 8).await;
    let mut others = served.budget.hold();
    others.set(990).unwrap();
    let answer = served.ask(&json(BODY.as_bytes())).await;
    assert_eq!((answer.status, answer.message().as_str()), (503, "too many bytes in flight: retry"));
    assert!(answer.has("retry-after: 1"), "{}", answer.head);
    drop(others);
    assert_eq!(served.ask(&json(BODY.as_bytes())).await.status, 200);
}

/// A sender that was told to send it again would do so for ever.
#[tokio::test]
async fn what_is_over_the_bytes_of_all_posts_is_refused_for_good() {
    let served = Served::with(Outcome::taken(0), 1000, 8).await;
    for length in [200, 900] {
        let answer = served.ask(&json(&vec![b' '; length])).await;
        assert_eq!(answer.status, 413);
        assert!(answer.message().contains("--max-bytes"), "{}", answer.message());
    }
}

/// Otherwise a few senders would keep all others out, for as long as a body may take.
#[tokio::test]
async fn bodies_that_come_slowly_leave_the_memory_to_others() {
    let (most, quarter) = (4 << 20, 1 << 20);
    let served = Served::with(Outcome::taken(0), most, 64).await;
    let of_length = |length: usize| json(&[BODY.as_bytes(), &vec![b' '; length]].concat());
    let (slow, sent) = (of_length(150 << 10), 100 << 10);
    let mut clients = Vec::new();
    for _ in 0..48 {
        let mut client = served.client().await;
        client.write(&slow[..sent]).await;
        clients.push(client);
    }
    let begun = Instant::now();
    tokio::time::sleep(LATE).await;
    while begun.elapsed() < 8 * LATE || served.budget.used() > quarter {
        assert_eq!(served.ask(&of_length(30 << 10)).await.status, 200);
        assert!(begun.elapsed() < PATIENCE / 2);
    }
    assert_eq!(served.ask(&of_length(200 << 10)).await.status, 200);
    let (mut taken, mut too_slow) = (0, 0);
    for mut client in clients {
        client.write(&slow[sent..]).await;
        let answer = client.answer().await;
        taken += usize::from(answer.status == 200);
        too_slow += usize::from(answer.status == 503 && answer.message().contains("arrived too slowly"));
    }
    assert!((1..=8).contains(&taken), "a quarter has time: {taken}");
    assert!(too_slow > 0);
    assert_eq!(served.budget.used(), 0);
}

#[tokio::test]
async fn connections_over_the_bound_wait() {
    let served = Served::with(Outcome::taken(0), 1 << 20, 1).await;
    let request = json(BODY.as_bytes());
    let mut first = served.client().await;
    first.write(&request[..request.len() - 1]).await;
    let mut second = served.client().await;
    second.write(&request).await;
    tokio::time::sleep(LATE / 4).await;
    assert!(served.bodies().is_empty());
    first.write(&request[request.len() - 1..]).await;
    let answer = first.answer().await;
    assert!(answer.is_taken_and_last(), "who waits would wait for ever: {}", answer.head);
    assert_eq!(second.answer().await.status, 200);
}

#[tokio::test]
async fn idle_connections_leave_their_places_to_those_that_wait() {
    let patience = 10 * LATE;
    let served = Served::within(patience, Outcome::taken(0), 1 << 20, 1).await;
    let _idle = served.client().await;
    let begun = Instant::now();
    assert_eq!(served.ask(&json(BODY.as_bytes())).await.status, 200);
    assert!(begun.elapsed() < 2 * patience, "alone it is kept for {:?}", 3 * patience);
}

/// Otherwise senders that post would suffer from those that only hold a place.
#[tokio::test]
async fn who_idles_leaves_a_place_before_who_posts() {
    let limits = Limits { connections: 4, head: Duration::from_secs(60), idle: Duration::from_secs(600) };
    let served = Served::limited(limits, PATIENCE, Outcome::taken(0), 1 << 20).await;
    let request = json(BODY.as_bytes());
    let mut active = served.client().await;
    let mut posts = async |what: &str| {
        active.write(&request).await;
        let answer = active.answer().await;
        assert!(answer.status == 200 && !answer.has("connection: close"), "{what}: {}", answer.head);
    };
    let mut idle = vec![served.client().await, served.client().await, served.client().await];
    for _ in 0..20 {
        posts("all places are taken, and nobody waits for one").await;
        tokio::time::sleep(LATE / 20).await;
    }
    let begun = Instant::now();
    for _ in 0..6 {
        let mut new = served.client().await;
        new.write(&request).await;
        while new.read.is_empty() {
            posts("others idle").await;
            let reading = tokio::time::timeout(LATE / 20, new.more()).await;
            assert_ne!(reading, Ok(false), "it is not served");
        }
        assert_eq!(new.answer().await.status, 200);
        idle.push(new);
    }
    assert!(begun.elapsed() < PATIENCE / 2, "{:?}", begun.elapsed());
    assert!(
        idle[0].ends().await && idle[1].ends().await && idle[2].ends().await,
        "the first ones idled longest"
    );
}

#[tokio::test]
async fn an_intake_that_is_stopped_answers_what_is_under_way() {
    let served = Served::start().await;
    let (mut idle, mut busy) = (served.client().await, served.client().await);
    let request = json(BODY.as_bytes());
    busy.write(&request[..request.len() - 1]).await;
    tokio::time::sleep(LATE / 4).await;
    served.stop.send_replace(true);
    assert!(idle.ends().await);
    busy.write(&request[request.len() - 1..]).await;
    let answer = busy.answer().await;
    assert!(answer.is_taken_and_last(), "{}", answer.head);
    assert!(busy.ends().await);
    served.task.await.unwrap();
    assert!(TcpStream::connect(served.address).await.is_err());
}
