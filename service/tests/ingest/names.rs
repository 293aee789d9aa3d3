//! Tests who a sender is: by its certificate, by its token, and by what it may call itself.

use crate::certificates::{client, client_of, door, folder, root, root_that_says, signed, signed_for};
use crate::support::{post, Answer, Client, Served, BODY};
use std::path::Path;
use std::sync::Arc;
use std::time::{Duration, Instant};
use tokio::io::{AsyncRead, AsyncWrite};
use totxegun::identity::{AllowedHosts, Door};
use totxegun::metrics::Metrics;

/// Digests of tokens, by `printf t0ken-N | sha256sum`.
const OF_1: &str = "sha256:8380bfcbf4fc84857bd24cfcd1f2632ffb6185c54aaf33d2d2ad4fb2468b7611";
const OF_2: &str = "sha256:626baab8982f0eaad4934ff0d77a6ae4f31731db88ab5d67f126b03cf8a72931";

async fn asked<S: AsyncRead + AsyncWrite + Unpin>(client: &mut Client<S>, headers: &str) -> Answer {
    let headers = format!("{headers}Content-Type: application/json\r\n");
    client.write(&post(&headers, BODY.as_bytes())).await;
    client.answer().await
}

fn senders(served: &Served) -> Vec<String> {
    served.kept.posts.lock().unwrap().iter().map(|post| post.0.clone()).collect()
}

fn tokens(at: &Path, text: &str) {
    std::fs::write(at.join("tokens"), text).unwrap();
}

/// The headers of a post, the status of its answer, and a part of its text.
const OF_TOKENS: [(&str, u16, &str); 16] = [
    ("Authorization: Bearer t0ken-1\r\n", 200, ""),
    ("authorization: bearer  t0ken-1\r\nx-sender: shop-1\r\n", 200, ""),
    ("Authorization: Bearer t0ken-2\r\n", 200, ""),
    ("Authorization: Bearer t0ken-2\r\nx-sender: shop-9\r\n", 200, ""),
    ("Authorization: Bearer t0ken-1\r\nx-sender: shop-9\r\n", 403, "shop-1 may not post as shop-9"),
    ("Authorization: Bearer t0ken-1\r\nx-sender: -\r\n", 403, "shop-1 may not post as -"),
    ("Authorization: Bearer t0ken-2\r\nx-sender: other\r\n", 403, "collector may not post as other"),
    ("Authorization: Bearer t0ken-1\r\nx-sender: a b\r\n", 400, "bad sender"),
    ("", 401, "no token"),
    ("x-sender: shop-1\r\n", 401, "no token"),
    ("x-sender: a b\r\n", 401, "no token"),
    ("Authorization: Basic dDBrZW4tMQ==\r\n", 401, "no token"),
    ("Authorization: Bearer \r\n", 401, "no token"),
    ("Authorization: Bearer t0ken-1\r\nAuthorization: Bearer t0ken-1\r\n", 401, "no token"),
    ("Authorization: Bearer t0ken-3\r\n", 401, "not known"),
    ("Authorization: Bearer t0ken-1x\r\n", 401, "not known"),
];

#[tokio::test]
async fn a_token_names_its_sender() {
    let at = folder();
    tokens(at.path(), &format!("shop-1 {OF_1}\ncollector/shop-* {OF_2}\n"));
    let served = Served::behind(door(at.path(), None, Some("tokens"))).await;
    let mut kept = served.secure(client(at.path(), "ca", None)).await.unwrap();
    for (headers, status, message) in OF_TOKENS {
        let answer = asked(&mut kept, headers).await;
        assert_eq!(answer.status, status, "{headers}");
        if status != 200 {
            assert!(answer.message().contains(message) && !answer.message().contains("t0ken"), "{headers}");
        }
        let challenge = answer.has("www-authenticate: bearer realm=\"totxegun\"");
        assert_eq!(challenge, status == 401, "{headers}: {}", answer.head);
    }
    assert_eq!(senders(&served), ["shop-1", "shop-1", "collector", "shop-9"]);
}

#[tokio::test]
async fn a_token_that_is_taken_out_stops_within_a_second() {
    let at = folder();
    tokens(at.path(), &format!("shop-1 {OF_1}\nshop-2 {OF_2}\n"));
    let served = Served::behind(door(at.path(), None, Some("tokens"))).await;
    let mut kept = served.secure(client(at.path(), "ca", None)).await.unwrap();
    let mut of =
        async |token: &str| asked(&mut kept, &format!("Authorization: Bearer {token}\r\n")).await.status;
    assert_eq!((of("t0ken-1").await, of("t0ken-2").await), (200, 200));
    tokens(at.path(), &format!("shop-2 {OF_2}\n"));
    let begun = Instant::now();
    while of("t0ken-1").await == 200 {
        assert!(begun.elapsed() < Duration::from_secs(1));
        tokio::time::sleep(Duration::from_millis(10)).await;
    }
    assert_eq!((of("t0ken-1").await, of("t0ken-2").await), (401, 200));
    // An editor that empties the file before it writes must not cause refusals.
    tokens(at.path(), "");
    tokio::time::sleep(Duration::from_millis(50)).await;
    tokens(at.path(), &format!("# shops\nshop-2 {OF_2}\n"));
    let begun = Instant::now();
    while begun.elapsed() < Duration::from_secs(1) {
        assert_eq!(of("t0ken-2").await, 200);
        tokio::time::sleep(Duration::from_millis(10)).await;
    }
    // Removing the last token works like removing another.
    tokens(at.path(), "# shops\n");
    let begun = Instant::now();
    while of("t0ken-2").await == 200 {
        assert!(begun.elapsed() < Duration::from_secs(1));
        tokio::time::sleep(Duration::from_millis(10)).await;
    }
    assert_eq!(of("t0ken-2").await, 401);
}

#[tokio::test]
async fn a_certificate_names_its_sender() {
    let at = folder();
    signed(at.path(), "ca", "shop-1", "20");
    signed(at.path(), "ca", "collector", "20");
    tokens(at.path(), &format!("collector/shop-* certificate\nshop-2 {OF_2}\n"));
    let served = Served::behind(door(at.path(), Some("ca.pem"), Some("tokens"))).await;
    let shown = |name| served.secure(client(at.path(), "ca", name));
    let mut shop = shown(Some("shop-1")).await.unwrap();
    assert_eq!(asked(&mut shop, "").await.status, 200);
    assert_eq!(asked(&mut shop, "x-sender: shop-1\r\n").await.status, 200);
    assert_eq!(asked(&mut shop, "x-sender: shop-2\r\n").await.status, 403);
    assert_eq!(asked(&mut shop, "Authorization: Bearer t0ken-2\r\n").await.status, 200);
    let mut collector = shown(Some("collector")).await.unwrap();
    assert_eq!(asked(&mut collector, "x-sender: shop-7\r\n").await.status, 200);
    assert_eq!(asked(&mut collector, "x-sender: other\r\n").await.status, 403);
    let mut without = shown(None).await.unwrap();
    assert_eq!(asked(&mut without, "").await.status, 401);
    assert_eq!(asked(&mut without, "Authorization: Bearer t0ken-2\r\n").await.status, 200);
    assert_eq!(senders(&served), ["shop-1", "shop-1", "shop-1", "shop-7", "shop-2"]);
}

/// Otherwise, by DNS rebinding, a web page could have a browser post under any name.
#[tokio::test]
async fn who_proves_nothing_posts_to_a_name_of_ours() {
    let hosts = || AllowedHosts::new(["box-1:4318".to_string(), "totxegun".to_string()]);
    let request = |target: &str, host: &str, more: &str| {
        let length = BODY.len();
        format!("POST {target} HTTP/1.1\r\nHost: {host}\r\n{more}Content-Type: application/json\r\nContent-Length: {length}\r\n\r\n{BODY}")
    };
    let served = Served::behind(Door::default().with_allowed_hosts(hosts())).await;
    let mut kept = served.client().await;
    for (target, host, status) in [
        ("/v1/metrics", "127.0.0.1:4318", 200),
        ("/v1/metrics", "localhost:4318", 200),
        ("/v1/metrics", "Box-1", 200),
        ("/v1/metrics", "totxegun:4318", 200),
        ("http://totxegun/v1/metrics", "totxegun", 200),
        ("/v1/metrics", "evil.example:4318", 403),
        ("http://evil.example/v1/metrics", "totxegun", 403),
    ] {
        kept.write(request(target, host, "").as_bytes()).await;
        let answer = kept.answer().await;
        assert_eq!(answer.status, status, "{target} {host}");
        let names_it = answer.message().starts_with("another host: `evil.example");
        assert!(
            status == 200 || names_it && answer.message().contains("--allowed-hosts"),
            "{}",
            answer.message()
        );
    }
    // A page knows no token, so with tokens any host will do.
    let at = folder();
    tokens(at.path(), &format!("shop-1 {OF_1}\n"));
    let metrics = Arc::new(Metrics::new().unwrap());
    let door =
        Door::open(None, Some(at.path().join("tokens")), &metrics).unwrap().with_allowed_hosts(hosts());
    let served = Served::behind(door).await;
    let by_token = request("/v1/metrics", "evil.example", "Authorization: Bearer t0ken-1\r\n");
    assert_eq!(served.ask(by_token.as_bytes()).await.status, 200);
}

/// The lines set quotas for senders with certificates. Nobody needs a token.
#[tokio::test]
async fn a_file_of_shares_alone_lets_certificates_in() {
    let at = folder();
    signed(at.path(), "ca", "shop-1", "20");
    tokens(at.path(), "shop-1 certificate series=7\n");
    let served = Served::behind(door(at.path(), Some("ca.pem"), Some("tokens"))).await;
    let mut shop = served.secure(client(at.path(), "ca", Some("shop-1"))).await.unwrap();
    assert_eq!(asked(&mut shop, "").await.status, 200);
}

/// Otherwise an operator would read no name, or only the first one.
#[tokio::test]
async fn who_is_refused_is_told_by_the_name_that_is_known() {
    let at = folder();
    signed(at.path(), "ca", "shop-1", "20");
    tokens(at.path(), &format!("shop-2 {OF_2}\n"));
    let served = Served::behind(door(at.path(), Some("ca.pem"), Some("tokens"))).await;
    let shown = |name| served.secure(client(at.path(), "ca", name));
    let (mut shop, mut without) = (shown(Some("shop-1")).await.unwrap(), shown(None).await.unwrap());
    let mut wanted = Vec::new();
    for (of_shop, headers, who, status) in [
        (true, "x-sender: shop-9\r\n", "shop-1", 403),
        (true, "x-sender: a b\r\n", "shop-1", 400),
        (true, "x-sender: t0ken-2\r\n", "shop-1", 403),
        (false, "Authorization: Bearer t0ken-2\r\nx-sender: shop-9\r\n", "shop-2", 403),
        (false, "Authorization: Bearer t0ken-2\r\nContent-Encoding: br\r\n", "shop-2", 415),
        (false, "Authorization: Bearer t0ken-3\r\nx-sender: shop-2\r\n", "address 127.0.0.1", 401),
        (false, "x-sender: shop-2\r\n", "address 127.0.0.1", 401),
    ] {
        let of = if of_shop { &mut shop } else { &mut without };
        assert_eq!(asked(of, headers).await.status, status, "{headers}");
        wanted.push((who.to_string(), status));
    }
    let turned = served.kept.turned.lock().unwrap().clone();
    let who: Vec<(String, u16)> = turned.iter().map(|(who, status, _)| (who.clone(), *status)).collect();
    assert_eq!(who, wanted);
    assert!(!turned.iter().any(|(_, _, text)| text.contains("t0ken")), "{turned:?}");
    assert!(turned[2].2.starts_with("shop-1 may not post as a token"), "{turned:?}");
    assert!(turned[0].2.contains("`shop-1/shop-9 sha256:HEX`"), "{turned:?}");
}

#[tokio::test]
async fn certificates_of_strangers_end_the_handshake() {
    let at = folder();
    root(at.path(), "other");
    for (root, name, days) in [("ca", "sound", "20"), ("ca", "expired", "-1"), ("other", "strange", "20")] {
        signed(at.path(), root, name, days);
    }
    let served = Served::behind(door(at.path(), Some("ca.pem"), None)).await;
    for (shown, wanted) in [
        (Some("sound"), true),
        (Some("expired"), false),
        (Some("strange"), false),
        (Some("other"), false), // it has signed itself
        (None, false),
    ] {
        let config = client(at.path(), "ca", shown);
        // With TLS 1.3 the client has finished the handshake before it is refused: it learns that when it first reads.
        let is_taken = match served.secure(config).await {
            Err(_) => false,
            Ok(mut client) => {
                client.takes(&post("Content-Type: application/json\r\n", BODY.as_bytes())).await
            }
        };
        assert_eq!(is_taken, wanted, "{shown:?}");
    }
    assert_eq!(senders(&served), ["sound"]);
}

/// A resumed session shows no certificate, and would have the name that the first handshake proved.
#[tokio::test]
async fn a_certificate_that_has_ended_posts_no_more_by_an_earlier_session() {
    let at = folder();
    let served = Served::behind(door(at.path(), Some("ca.pem"), None)).await;
    let short = Duration::from_secs(4);
    signed_for(at.path(), "ca", "short", short);
    let made = Instant::now();
    let versions = [&rustls::version::TLS12, &rustls::version::TLS13];
    let clients = versions.map(|version| Arc::new(client_of(&[version], at.path(), "ca", Some("short"))));
    let taken = async |client: &Arc<rustls::ClientConfig>| match served.secure(client.clone()).await {
        Err(_) => false,
        Ok(mut client) => client.takes(&post("Content-Type: application/json\r\n", BODY.as_bytes())).await,
    };
    for client in &clients {
        assert!(taken(client).await && taken(client).await, "until it ends");
    }
    tokio::time::sleep((short + Duration::from_secs(1)).saturating_sub(made.elapsed())).await;
    for (client, version) in clients.iter().zip(versions) {
        assert!(!taken(client).await, "{version:?}");
    }
}

/// Otherwise all paths through thirty certificates of one name would be tried on the only thread for handshakes, and
/// nobody could connect any more.
#[tokio::test]
async fn a_long_chain_of_a_stranger_is_refused_at_once() {
    let at = folder();
    signed(at.path(), "ca", "sound", "20");
    let pem = |name: &str| std::fs::read_to_string(at.path().join(format!("{name}.pem"))).unwrap();
    let mut between = String::new();
    for number in 0..30 {
        let name = format!("between-{number}");
        root_that_says(at.path(), &name, "ca");
        between += &pem(&name);
    }
    signed(at.path(), "between-0", "strange", "20");
    std::fs::write(at.path().join("strange.pem"), pem("strange") + &between).unwrap();
    let served = Served::behind(door(at.path(), Some("ca.pem"), None)).await;
    let request = post("Content-Type: application/json\r\n", BODY.as_bytes());
    for (shown, wanted) in [("strange", false), ("sound", true)] {
        let taken = async {
            match served.secure(client(at.path(), "ca", Some(shown))).await {
                Err(_) => false,
                Ok(mut client) => client.takes(&request).await,
            }
        };
        let taken = tokio::time::timeout(Duration::from_secs(5), taken).await;
        assert_eq!(taken, Ok(wanted), "{shown}");
    }
    assert_eq!(senders(&served), ["sound"]);
}

#[tokio::test]
async fn a_root_that_is_taken_out_ends_its_certificates() {
    let at = folder();
    root(at.path(), "other");
    signed(at.path(), "ca", "shop-1", "20");
    signed(at.path(), "other", "shop-2", "20");
    let pem = |name: &str| std::fs::read_to_string(at.path().join(name)).unwrap();
    std::fs::write(at.path().join("roots"), pem("ca.pem") + &pem("other.pem")).unwrap();
    let served = Served::behind(door(at.path(), Some("roots"), None)).await;
    let shown = |name| served.secure(client(at.path(), "ca", Some(name)));
    let (mut first, mut second) = (shown("shop-1").await.unwrap(), shown("shop-2").await.unwrap());
    assert_eq!((asked(&mut first, "").await.status, asked(&mut second, "").await.status), (200, 200));
    std::fs::write(at.path().join("roots"), pem("ca.pem")).unwrap();
    let begun = Instant::now();
    while asked(&mut second, "").await.status == 200 {
        assert!(begun.elapsed() < Duration::from_secs(1));
        tokio::time::sleep(Duration::from_millis(10)).await;
    }
    let answer = asked(&mut second, "").await;
    assert!(answer.status == 401 && answer.message().contains("certificate"), "{answer:?}");
    assert_eq!(asked(&mut first, "").await.status, 200);
    // Removing the last root works like removing another, for open connections and for new ones.
    std::fs::write(at.path().join("roots"), "").unwrap();
    let begun = Instant::now();
    while asked(&mut first, "").await.status == 200 {
        assert!(begun.elapsed() < Duration::from_secs(1));
        tokio::time::sleep(Duration::from_millis(10)).await;
    }
    assert_eq!(asked(&mut first, "").await.status, 401);
    for name in [None, Some("shop-1")] {
        let is_taken = match served.secure(client(at.path(), "ca", name)).await {
            Err(_) => false,
            Ok(mut client) => {
                client.takes(&post("Content-Type: application/json\r\n", BODY.as_bytes())).await
            }
        };
        assert!(!is_taken, "{name:?}");
    }
}
