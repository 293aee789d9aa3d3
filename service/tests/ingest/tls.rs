//! Tests TLS at the senders' address: answers are those of plain HTTP, handshakes may stall, and certificates may
//! change.

use crate::certificates::{client, door, folder, root, signed};
use crate::support::{gzip, json, post, Client, Served, BODY, LATE};
use std::process::{Command, Stdio};
use std::sync::Arc;
use std::time::{Duration, Instant};
use tokio::io::{AsyncReadExt, AsyncWriteExt};
use tokio::net::{TcpSocket, TcpStream};
use tokio_rustls::client::TlsStream;
use tokio_rustls::TlsConnector;
use totxegun::ingest::Limits;
use totxegun::otlp::{Outcome, Reason};

pub type Secure = Client<TlsStream<TcpStream>>;

impl Served {
    pub async fn secure(&self, config: impl Into<Arc<rustls::ClientConfig>>) -> std::io::Result<Secure> {
        self.secure_to("localhost", config).await
    }

    /// Connects to a server that shows a certificate for this name.
    async fn secure_to(
        &self,
        name: &str,
        config: impl Into<Arc<rustls::ClientConfig>>,
    ) -> std::io::Result<Secure> {
        let stream = TcpStream::connect(self.address).await?;
        let connector = TlsConnector::from(config.into());
        let stream = connector.connect(name.try_into().unwrap(), stream).await?;
        let read = Vec::new();
        Ok(Client { stream, read })
    }
}

/// The status and the text of an answer, without its date.
async fn said<S: tokio::io::AsyncRead + tokio::io::AsyncWrite + Unpin>(
    client: &mut Client<S>,
    request: &[u8],
) -> (String, Vec<u8>) {
    client.write(request).await;
    let answer = client.answer().await;
    let lines = answer.head.lines().filter(|line| !line.starts_with("date: "));
    (lines.collect::<Vec<_>>().join("\n"), answer.body)
}

/// Posts, and requests whose framing is ambiguous.
fn requests() -> Vec<Vec<u8>> {
    let head = "POST /v1/metrics HTTP/1.1\r\nHost: a\r\nContent-Type: application/json\r\n";
    let chunked = "Transfer-Encoding: chunked\r\n";
    let long = vec![b' '; 300 << 10];
    let of = |rest: &str| format!("{head}{rest}").into_bytes();
    vec![
        json(BODY.as_bytes()),
        json(&[&long, BODY.as_bytes()].concat()),
        post("Content-Type: application/json\r\nContent-Encoding: gzip\r\n", &gzip(BODY.as_bytes())),
        post("x-sender: a b\r\nContent-Type: application/json\r\n", b"{}"),
        of(&format!("{chunked}\r\n2\r\n{{}}\r\n0\r\n\r\n")),
        of(&format!("{chunked}Content-Length: 2\r\n\r\n{{}}")),
        of(&format!("{chunked}{chunked}\r\n0\r\n\r\n")),
        of("Content-Length: 2\r\nContent-Length: 3\r\n\r\n{}x"),
        of("Content-Length: +2\r\n\r\n{}"),
        of("\r\n"),
        of(&format!("{chunked}\r\nx\r\n")),
        b"GET /flush HTTP/1.1\r\nHost: a\r\n\r\n".to_vec(),
        b"POST /v1/metrics HTTP/1.1\r\n\r\n".to_vec(),
        b"SSH-2.0-OpenSSH_9.2\r\n\r\n".to_vec(),
    ]
}

#[tokio::test]
async fn answers_over_tls_are_those_without() {
    let at = folder();
    let (plain, secure) = (Served::start().await, Served::behind(door(at.path(), None, None)).await);
    for request in &requests() {
        let begin = String::from_utf8_lossy(&request[..request.len().min(200)]).into_owned();
        let wanted = said(&mut plain.client().await, request).await;
        let mut client = secure.secure(client(at.path(), "ca", None)).await.unwrap();
        assert_eq!(said(&mut client, request).await, wanted, "{begin}");
    }
    assert_eq!(secure.bodies(), plain.bodies());
    assert_eq!(secure.bodies().len(), 4);
    let mut kept = secure.secure(client(at.path(), "ca", None)).await.unwrap();
    kept.write(&json(BODY.as_bytes()).repeat(300)).await;
    for _ in 0..300 {
        assert_eq!(kept.answer().await.status, 200);
    }
    kept.write(b"POST /v1/metrics HTTP/1.1\r\nHost: a\r\nContent-Type: application/json\r\nExpect: 100-continue\r\nContent-Length: 2\r\n\r\n").await;
    assert_eq!(kept.answer().await.status, 100);
    kept.write(b"{}").await;
    assert_eq!(kept.answer().await.status, 200);
}

/// Whether `openssl s_client` completes a handshake with these arguments.
fn connects(served: &Served, words: &[&str]) -> bool {
    let address = served.address.to_string();
    let done = Command::new("openssl")
        .args(["s_client", "-connect", &address, "-brief"])
        .args(words)
        .stdin(Stdio::null())
        .output();
    done.expect("openssl is there").status.success()
}

#[tokio::test(flavor = "multi_thread")]
async fn tls_1_2_and_1_3_are_spoken_for_http_1_1() {
    let at = folder();
    let served = Served::behind(door(at.path(), None, None)).await;
    for (words, wanted) in [
        (&["-tls1_3"][..], true),
        (&["-tls1_2"], true),
        (&["-tls1_1", "-cipher", "ALL:@SECLEVEL=0"], false),
        (&["-tls1_2", "-cipher", "AES128-SHA:@SECLEVEL=0"], false),
        (&["-alpn", "http/1.1"], true),
        (&["-alpn", "h2,http/1.1"], true),
        (&["-alpn", "h2"], false),
    ] {
        assert_eq!(connects(&served, words), wanted, "{words:?}");
    }
    let wrong_name = served.secure_to("example.org", client(at.path(), "ca", None)).await;
    assert!(wrong_name.is_err(), "a client sees that it is somebody else's certificate");
}

/// Opens connections whose handshakes stall. Every other one has sent the beginning of a ClientHello.
async fn stalled(served: &Served, count: usize) -> Vec<TcpStream> {
    let mut stalled = Vec::new();
    for number in 0..count {
        let stream = TcpStream::connect(served.address).await.unwrap();
        if number % 2 == 0 {
            stream.writable().await.unwrap();
            stream.try_write(&[0x16, 3, 1, 2, 0, 1]).unwrap();
        }
        stalled.push(stream);
    }
    stalled
}

fn with_places(connections: usize) -> Limits {
    Limits { connections, head: Duration::from_secs(60), idle: Duration::from_secs(600) }
}

#[tokio::test]
async fn posts_go_on_while_handshakes_stall() {
    let at = folder();
    let served = Served::behind_with(door(at.path(), None, None), with_places(256)).await;
    let mut kept = served.secure(client(at.path(), "ca", None)).await.unwrap();
    let stalled = stalled(&served, 200).await;
    let begun = Instant::now();
    let mut longest = Duration::ZERO;
    while begun.elapsed() < Duration::from_secs(2) {
        let before = Instant::now();
        assert!(said(&mut kept, &json(BODY.as_bytes())).await.0.starts_with("HTTP/1.1 200"));
        let mut new = served.secure(client(at.path(), "ca", None)).await.unwrap();
        assert!(said(&mut new, &json(BODY.as_bytes())).await.0.starts_with("HTTP/1.1 200"));
        longest = longest.max(before.elapsed());
    }
    assert!(longest < Duration::from_secs(1), "{longest:?}");
    drop(kept);
    served.stop.send_replace(true);
    let ended = tokio::time::timeout(Duration::from_secs(1), served.task).await;
    assert!(ended.is_ok() && stalled.len() == 200, "an end waits for no handshake");
}

#[tokio::test]
async fn a_handshake_that_stalls_leaves_its_place_to_who_waits() {
    let at = folder();
    let served = Served::behind_with(door(at.path(), None, None), with_places(4)).await;
    let _stalled = stalled(&served, 24).await;
    // Each of the 24 takes one of the four places for a second.
    let came =
        tokio::time::timeout(Duration::from_secs(20), served.secure(client(at.path(), "ca", None))).await;
    let mut client = came.expect("it comes to its turn").unwrap();
    assert!(said(&mut client, &json(BODY.as_bytes())).await.0.starts_with("HTTP/1.1 200"));
}

#[tokio::test]
async fn a_handshake_has_ten_seconds() {
    let at = folder();
    let served = Served::behind(door(at.path(), None, None)).await;
    let begun = Instant::now();
    let mut stalled = stalled(&served, 2).await;
    for stream in &mut stalled {
        let mut alert = [0; 64];
        let ending = tokio::time::timeout(Duration::from_secs(30), stream.read(&mut alert));
        assert!(matches!(ending.await.expect("it ends"), Ok(0) | Err(_)));
    }
    assert!(begun.elapsed() > Duration::from_secs(8));
}

/// Otherwise it would keep its place for ever: TLS still has a part of the answer, which it sends before the end.
#[tokio::test]
async fn a_sender_that_does_not_read_its_answer_leaves_its_place() {
    let at = folder();
    let limits = Limits {
        connections: 1,
        head: Duration::from_secs(8), // a sender has two seconds for reading
        idle: Duration::from_secs(600),
    };
    // More than the system buffers for a sender that buffers little itself.
    let long = Outcome::refused(Reason::Unreadable, "x".repeat(8 << 20));
    let served = Served::all(door(at.path(), None, None), limits, LATE, long, 64 << 20).await;
    let deaf = TcpSocket::new_v4().unwrap();
    deaf.set_recv_buffer_size(4096).unwrap();
    let deaf = deaf.connect(served.address).await.unwrap();
    let connector = TlsConnector::from(Arc::new(client(at.path(), "ca", None)));
    let mut deaf = connector.connect("localhost".try_into().unwrap(), deaf).await.unwrap();
    deaf.write_all(&json(BODY.as_bytes())).await.unwrap();
    deaf.get_ref().0.readable().await.unwrap();
    let waiting = served.secure(client(at.path(), "ca", None));
    let waiting = tokio::time::timeout(Duration::from_secs(20), waiting).await;
    let mut other = waiting.expect("it comes to its turn").unwrap();
    other.write(&json(BODY.as_bytes())).await;
    assert_eq!(other.answer().await.status, 400);
    drop(deaf);
}

/// Posts on connections of its own until the new certificate is used. Returns how many posts were taken.
async fn posts_until_new(served: Arc<Served>, old: rustls::ClientConfig, new: rustls::ClientConfig) -> usize {
    let (mut taken, mut is_new) = (0, false);
    while !is_new {
        // A client that trusts only the old certificate learns of the change in its handshake at the latest, before it
        // posts.
        let mut client = match served.secure(old.clone()).await {
            Ok(client) => client,
            Err(_) => {
                is_new = true;
                served.secure(new.clone()).await.expect("either is used")
            }
        };
        assert!(said(&mut client, &json(BODY.as_bytes())).await.0.starts_with("HTTP/1.1 200"));
        taken += 1;
    }
    taken
}

/// Each of many connections posts once while the certificate and then its key are replaced.
#[tokio::test(flavor = "multi_thread", worker_threads = 2)]
async fn a_new_certificate_is_used_and_no_post_is_lost() {
    let at = folder();
    root(at.path(), "new");
    let served = Arc::new(Served::behind(door(at.path(), None, None)).await);
    let (old, new) = (client(at.path(), "ca", None), client(at.path(), "new", None));
    let mut kept = served.secure(old.clone()).await.unwrap();
    let load = tokio::spawn(posts_until_new(served.clone(), old, new));
    tokio::time::sleep(Duration::from_millis(500)).await;
    let begun = Instant::now();
    let path = at.path().to_path_buf();
    std::fs::create_dir(path.join("made")).unwrap();
    for name in ["new.pem", "new.key"] {
        std::fs::copy(path.join(name), path.join("made").join(name)).unwrap();
    }
    signed(&path.join("made"), "new", "localhost", "20");
    std::fs::copy(path.join("made/localhost.pem"), path.join("localhost.pem")).unwrap();
    tokio::time::sleep(Duration::from_millis(700)).await; // meanwhile the key is not that of the certificate
    assert!(!load.is_finished());
    std::fs::copy(path.join("made/localhost.key"), path.join("localhost.key")).unwrap();
    let taken = tokio::time::timeout(Duration::from_secs(10), load).await.expect("it is used").unwrap();
    assert!(begun.elapsed() < Duration::from_secs(10) && taken > 2, "{taken}");
    assert!(said(&mut kept, &json(BODY.as_bytes())).await.0.starts_with("HTTP/1.1 200"));
    assert_eq!(served.bodies().len(), taken + 1);
}
