//! The queue, and receivers that are away, slow, or refuse.

use super::*;
use std::io::{Read, Write};
use std::net::TcpListener;

fn outside(body: &[u8], points: u64) -> Outside {
    Outside { encoding: Encoding::Protobuf, body: Bytes::copy_from_slice(body), points }
}

fn counted(metrics: &Metrics) -> [u64; 4] {
    [Passed::Taken, Passed::Refused, Passed::Lost, Passed::Dropped]
        .map(|passed| metrics.unsupported_points.with_label_values(&[passed.name()]).get())
}

#[test]
fn what_waits_has_a_bound() {
    let metrics = Arc::new(Metrics::new().unwrap());
    let pass = Passthrough::to("http://127.0.0.1:9", Access::default(), metrics.clone()).unwrap();
    let body = vec![0; MOST_WAITING / 4];
    (0..6).for_each(|_| pass.hand_on(outside(&body, 2)));
    assert_eq!(counted(&metrics), [0, 0, 0, 6]);
    assert!(locked(&pass.waiting).take().is_some());
    pass.hand_on(outside(&body, 2));
    assert_eq!(counted(&metrics), [0, 0, 0, 6]);
}

#[test]
fn several_of_protobuf_are_one_request() {
    let mut waiting = Waiting::default();
    let json = Outside { encoding: Encoding::Json, ..outside(b"{}", 1) };
    let bodies = [outside(b"a", 1), outside(b"b", 2), json, outside(b"c", 4)];
    let long = vec![0; MOST_OF_A_REQUEST];
    assert!(bodies.into_iter().all(|one| waiting.put(one)));
    assert!(waiting.put(outside(&long, 8)));
    let taken: Vec<(usize, u64)> =
        std::iter::from_fn(|| waiting.take()).map(|one| (one.body.len(), one.points)).collect();
    assert_eq!(taken, [(2, 3), (2, 1), (1, 4), (long.len(), 8)]);
    assert_eq!(waiting.bytes, 0);
}

/// Answers requests, one after another, with these heads and bodies.
fn answering(answers: &'static [(&'static str, &'static [u8])]) -> String {
    let listener = TcpListener::bind("127.0.0.1:0").unwrap();
    let address = format!("http://{}", listener.local_addr().unwrap());
    std::thread::spawn(move || {
        for (status, body) in answers {
            let (mut stream, _) = listener.accept().unwrap();
            let mut read = Vec::new();
            while !read.ends_with(b"\r\n\r\nx") {
                let mut byte = [0];
                stream.read_exact(&mut byte).unwrap();
                read.push(byte[0]);
            }
            let head =
                format!("HTTP/1.1 {status}\r\nContent-Length: {}\r\nConnection: close\r\n\r\n", body.len());
            stream.write_all(head.as_bytes()).unwrap();
            stream.write_all(body).unwrap();
        }
    });
    address
}

#[tokio::test]
async fn what_becomes_of_points_is_counted() {
    let answers = answering(&[
        ("200 OK", b""),
        ("200 OK", b"\x0a\x02\x08\x03"), // a partial success: 3 are rejected
        ("503 Service Unavailable", b"later"),
    ]);
    let metrics = Arc::new(Metrics::new().unwrap());
    let pass = Passthrough::to(&answers, Access::default(), metrics.clone()).unwrap();
    tokio::spawn(pass.clone().run());
    let mut before = 0;
    for _ in 0..4 {
        pass.hand_on(outside(b"x", 10));
        for _ in 0..1000 {
            if counted(&metrics).iter().sum::<u64>() > before {
                break;
            }
            tokio::time::sleep(Duration::from_millis(5)).await;
        }
        before += 10;
    }
    // The last request finds no receiver.
    assert_eq!(counted(&metrics), [17, 13, 10, 0]);
}

#[test]
fn an_address_is_one_of_otlp_over_http() {
    let to = |address| Passthrough::to(address, Access::default(), Arc::new(Metrics::new().unwrap()));
    let urls = ["http://h:4318", "http://h:4318/otlp"].map(|address| to(address).unwrap().url());
    assert_eq!(urls, ["http://h:4318/v1/metrics", "http://h:4318/otlp"]);
    for bad in ["", "h:4318", "sqlite:x", "http://", "https://127.0.0.1"] {
        let error = to(bad).err().unwrap().to_string();
        assert!(
            error.starts_with("--forward-unsupported takes http://HOST:PORT or https://HOST: "),
            "{error}"
        );
    }
}

/// A renewed token is used from the next request on.
#[tokio::test]
async fn headers_of_a_file_go_with_each_request() {
    let listener = TcpListener::bind("127.0.0.1:0").unwrap();
    let address = format!("http://{}", listener.local_addr().unwrap());
    let heads = std::thread::spawn(move || {
        let head = |_| {
            let (mut stream, _) = listener.accept().unwrap();
            let mut read = Vec::new();
            while !read.ends_with(b"\r\n\r\nx") {
                let mut byte = [0];
                stream.read_exact(&mut byte).unwrap();
                read.push(byte[0]);
            }
            stream.write_all(b"HTTP/1.1 200 OK\r\nContent-Length: 0\r\nConnection: close\r\n\r\n").unwrap();
            String::from_utf8(read).unwrap().to_ascii_lowercase()
        };
        (0..2).map(head).collect::<Vec<String>>()
    });
    let folder = tempfile::tempdir().unwrap();
    let file = folder.path().join("headers");
    let access = Access { headers: Some(file.clone()), ..Access::default() };
    std::fs::write(&file, "authorization: bearer one\n").unwrap();
    let metrics = Arc::new(Metrics::new().unwrap());
    let pass = Passthrough::to(&address, access, metrics.clone()).unwrap();
    tokio::spawn(pass.clone().run());
    for (token, taken) in [("one", 1), ("two", 2)] {
        std::fs::write(&file, format!("authorization: bearer {token}\n")).unwrap();
        pass.hand_on(outside(b"x", 1));
        for _ in 0..1000 {
            if counted(&metrics)[0] == taken {
                break;
            }
            tokio::time::sleep(Duration::from_millis(5)).await;
        }
        assert_eq!(counted(&metrics), [taken, 0, 0, 0]);
    }
    let heads = heads.join().unwrap();
    assert!(
        heads[0].contains("authorization: bearer one") && heads[1].contains("authorization: bearer two"),
        "{heads:?}"
    );
}
