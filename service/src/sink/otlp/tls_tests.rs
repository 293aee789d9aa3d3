//! Tests a sink behind TLS, whose root the client trusts or not. `openssl` makes the certificates.

use super::*;
use crate::sink::ClientFiles;
use std::io::Read;
use std::path::Path;
use std::process::{Command, Stdio};
use std::sync::Arc;

/// Runs `openssl` in a folder.
fn openssl(folder: &Path, arguments: &str) {
    let words = arguments.split_whitespace();
    let done = Command::new("openssl").current_dir(folder).args(words).stderr(Stdio::null()).status();
    assert!(done.expect("openssl is there").success(), "openssl {arguments}");
}

fn bytes(folder: &Path, name: &str) -> Vec<u8> {
    std::fs::read(folder.join(name)).expect(name)
}

/// Makes a root, and a certificate and key for a server named `localhost`.
fn certificates(folder: &Path) {
    std::fs::write(folder.join("names"), "subjectAltName=DNS:localhost\n").expect("written");
    let key = "-newkey ec -pkeyopt ec_paramgen_curve:prime256v1 -nodes";
    openssl(folder, &format!("req -x509 {key} -keyout root.key -out root.pem -subj /CN=root -days 2"));
    openssl(folder, &format!("req {key} -keyout key.pem -out request.pem -subj /CN=localhost"));
    openssl(folder, "x509 -req -in request.pem -CA root.pem -CAkey root.key -CAcreateserial -days 2 -extfile names -outform DER -out server.der");
    openssl(folder, &format!("req {key} -keyout own.key -out own.request -subj /CN=service"));
    openssl(folder, "x509 -req -in own.request -CA root.pem -CAkey root.key -CAcreateserial -days 2 -extfile names -out own.pem");
    openssl(folder, "x509 -in root.pem -outform DER -out root.der");
    openssl(folder, "pkcs8 -topk8 -nocrypt -in key.pem -outform DER -out key.der");
}

/// Answers one request with 200, only by this version of TLS.
fn serve(
    folder: &Path,
    version: &'static rustls::SupportedProtocolVersion,
    verifier: Arc<dyn rustls::server::ClientCertVerifier>,
) -> (u16, std::thread::JoinHandle<String>) {
    let config = rustls::ServerConfig::builder()
        .with_safe_default_cipher_suites()
        .with_safe_default_kx_groups()
        .with_protocol_versions(&[version])
        .expect("a version")
        .with_client_cert_verifier(verifier)
        .with_single_cert(
            vec![rustls::Certificate(bytes(folder, "server.der"))],
            rustls::PrivateKey(bytes(folder, "key.der")),
        )
        .expect("a certificate");
    let listener = std::net::TcpListener::bind("localhost:0").expect("a port");
    let port = listener.local_addr().expect("its address").port();
    let thread = std::thread::spawn(move || {
        let (socket, _) = listener.accept().expect("a connection");
        let session = rustls::ServerConnection::new(Arc::new(config)).expect("a session");
        let mut stream = rustls::StreamOwned::new(session, socket);
        let (mut read, mut part) = (Vec::new(), [0; 4096]);
        while !read.ends_with(b"body") {
            match stream.read(&mut part) {
                Ok(length) if length > 0 => read.extend_from_slice(&part[..length]),
                _ => return String::new(),
            }
        }
        stream.write_all(b"HTTP/1.1 200 OK\r\ncontent-length: 2\r\n\r\n{}").expect("an answer");
        String::from_utf8(read).expect("text")
    });
    (port, thread)
}

fn anybody() -> Arc<dyn rustls::server::ClientCertVerifier> {
    rustls::server::NoClientAuth::new()
}

fn root_of(folder: &Path) -> rustls::RootCertStore {
    let mut roots = rustls::RootCertStore::empty();
    roots.add(&rustls::Certificate(bytes(folder, "root.der"))).expect("a root");
    roots
}

fn sink(port: u16, roots: rustls::RootCertStore) -> OtlpSink {
    OtlpSink {
        url: format!("https://localhost:{port}/v1/metrics").parse().expect("a URL"),
        encoding: Encoding::Json,
        gzip: false,
        headers: HeaderMap::new(),
        access: Access::default(),
        client: connect::client_of(crate::sink::roots::client_config(roots)),
        patience: Duration::from_secs(10),
        keys: Keys::default(),
    }
}

#[tokio::test]
async fn a_sink_behind_tls_takes_where_its_root_is_known() {
    let folder = tempfile::tempdir().expect("a folder");
    certificates(folder.path());
    let request = Forwarded { shard: 0, epoch: "e".into(), number: 1, body: b"body".to_vec() };
    for version in [&rustls::version::TLS12, &rustls::version::TLS13] {
        let (port, thread) = serve(folder.path(), version, anybody());
        assert_eq!(
            sink(port, root_of(folder.path())).deliver(&request).await,
            DeliveryOutcome::Taken,
            "{version:?}"
        );
        assert!(thread.join().expect("it ended").contains("idempotency-key: 0-e-1"));
    }
    let (port, thread) = serve(folder.path(), &rustls::version::TLS13, anybody());
    match sink(port, rustls::RootCertStore::empty()).deliver(&request).await {
        DeliveryOutcome::Away { reason } => assert!(reason.contains("certificate"), "{reason}"),
        other => panic!("{other:?}"),
    }
    assert_eq!(thread.join().expect("it ended"), "", "nothing was sent");
}

/// As a receiver within a company: its root is on no machine, and clients need a certificate.
#[tokio::test]
async fn a_sink_is_told_by_its_own_root_and_is_shown_a_certificate() {
    let folder = tempfile::tempdir().expect("a folder");
    certificates(folder.path());
    let request = Forwarded { shard: 0, epoch: "e".into(), number: 1, body: b"body".to_vec() };
    let file = |name: &str| Some(folder.path().join(name));
    let tls = ClientFiles { roots: file("root.pem"), certificate: file("own.pem"), key: file("own.key") };
    let without = ClientFiles { certificate: None, key: None, ..tls.clone() };
    for (tls, is_taken) in [(tls, true), (without, false)] {
        let verifier = rustls::server::AllowAnyAuthenticatedClient::new(root_of(folder.path()));
        let (port, thread) = serve(folder.path(), &rustls::version::TLS13, verifier);
        let url = format!("https://localhost:{port}/v1/metrics");
        let access = Access { tls, headers: None };
        let sink = OtlpSink::open(&url, false, false, &[], access).expect("a sink");
        let fate = sink.deliver(&request).await;
        assert_eq!(fate == DeliveryOutcome::Taken, is_taken, "{fate:?}");
        assert_eq!(thread.join().expect("it ended").contains("body"), is_taken);
    }
}
