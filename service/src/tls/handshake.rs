//! Makes TLS handshakes within a time limit, on a thread of its own, so that a client that stalls delays no post.

use super::socket::Socket;
use super::{ClientChain, Contexts, Protocol, Tls};
use crate::log::RateLimit;
use rustls::internal::msgs::enums::AlertDescription::{BadCertificate, CertificateUnknown, UnknownCA};
use std::future::Future;
use std::io::{Error, Result};
use std::pin::pin;
use std::sync::Arc;
use std::time::Duration;
use tokio::net::TcpStream;
use tokio::runtime::Handle;
use tokio_rustls::server::TlsStream;
use tokio_rustls::TlsAcceptor;

/// How long a handshake may take, in looks. While another client waits for a permit, one look ends it.
const LOOK: Duration = Duration::from_secs(1);
const LOOKS: u32 = 10;

/// Failures are logged at most once a minute, since a stranger can cause them at any rate.
static TOLD: RateLimit = RateLimit::every(Duration::from_secs(60));

/// The stream of a connection after its handshake.
pub type Stream = TlsStream<Socket>;

/// A connection on its way from the handshake's thread to the one that serves it.
pub struct TlsConnection {
    stream: Stream,
    /// The contexts that verified it.
    contexts: Arc<Contexts>,
}

impl TlsConnection {
    /// Attaches the connection to the calling runtime.
    pub fn arrive(mut self) -> Result<Stream> {
        self.stream.get_mut().0.arrive()?;
        Ok(self.stream)
    }

    /// The certificates that the client has shown; none if it may go without.
    pub fn chain(&self, tls: &Arc<Tls>) -> Option<ClientChain> {
        let shown = self.stream.get_ref().1.peer_certificates()?;
        Some(ClientChain::new(shown.to_vec(), self.contexts.clone(), tls.clone()))
    }
}

impl Tls {
    /// The runtime on which handshakes are made.
    pub fn runtime(&self) -> Handle {
        self.threads.place().0
    }

    /// Makes a handshake; none if it failed or took too long. `is_full` is whether another client waits for a permit.
    pub async fn handshake(
        &self,
        stream: std::net::TcpStream,
        protocol: Protocol,
        is_full: impl Fn() -> bool,
    ) -> Option<TlsConnection> {
        let peer = stream.peer_addr().map_or_else(|_| "?".to_string(), |peer| peer.to_string());
        let (outcome, shaken) = match in_time(self.shake(stream, protocol), is_full).await {
            Some(Ok(shaken)) => ("done", Some(shaken)),
            Some(Err(error)) => {
                if TOLD.is_due() {
                    let reason = why(&error, self.certificate);
                    tracing::warn!(peer, reason, "a TLS handshake failed");
                }
                ("failed", None)
            }
            None => ("late", None),
        };
        self.metrics.handshakes.with_label_values(&[outcome]).inc();
        shaken
    }

    async fn shake(&self, stream: std::net::TcpStream, protocol: Protocol) -> Result<TlsConnection> {
        let contexts = self.contexts.now();
        let stream = Socket::Here(TcpStream::from_std(stream)?);
        let mut stream = TlsAcceptor::from(contexts.config(protocol)).accept(stream).await?;
        stream.get_mut().0.leave()?;
        Ok(TlsConnection { stream, contexts })
    }
}

async fn in_time<T>(shaking: impl Future<Output = T>, is_full: impl Fn() -> bool) -> Option<T> {
    let mut shaking = pin!(shaking);
    for _ in 0..LOOKS {
        if let Ok(shaken) = tokio::time::timeout(LOOK, shaking.as_mut()).await {
            return Some(shaken);
        }
        if is_full() {
            break;
        }
    }
    None
}

/// Explains why a handshake failed. A client reports by an alert that it does not trust us, which openssl sends in the
/// clear although TLS 1.3 requires it encrypted.
fn why(error: &Error, certificate: &str) -> String {
    let of_tls = error.get_ref().and_then(|inner| inner.downcast_ref::<rustls::Error>());
    match of_tls {
        Some(
            rustls::Error::DecryptError
            | rustls::Error::AlertReceived(BadCertificate | CertificateUnknown | UnknownCA),
        ) => format!(
            "the client aborted the handshake, usually because it does not trust the root of {certificate}: install that \
             root, and connect by a name in the certificate"
        ),
        _ => error.to_string(),
    }
}

#[cfg(test)]
mod tests {
    use super::*;
    use crate::tls::tests::{certificate, folder, server, tls, Made};
    use std::process::{Command, Stdio};

    /// Why a handshake with an openssl client fails.
    async fn failed(at: &std::path::Path, words: &[&str]) -> String {
        let listener = tokio::net::TcpListener::bind("127.0.0.1:0").await.unwrap();
        let address = listener.local_addr().unwrap().to_string();
        let mut client = Command::new("openssl")
            .current_dir(at)
            .args(["s_client", "-connect", &address])
            .args(words)
            .stdin(Stdio::null())
            .stdout(Stdio::null())
            .stderr(Stdio::null())
            .spawn()
            .unwrap();
        let (stream, _) = listener.accept().await.unwrap();
        let shaken = tls(at, None).shake(stream.into_std().unwrap(), Protocol::Http).await;
        client.wait().unwrap();
        why(&shaken.err().expect("it fails"), "--tls-cert")
    }

    /// Otherwise the operator would look for a fault of the service.
    #[tokio::test]
    async fn a_client_that_does_not_trust_the_root_is_said_to() {
        let at = folder();
        server(at.path());
        let (name, subject) = ("other", "/CN=other");
        certificate(at.path(), Made { name, subject, ..Made::default() });
        for version in ["-tls1_2", "-tls1_3"] {
            let words = [version, "-verify_return_error", "-CAfile", "other.pem"];
            let why = failed(at.path(), &words).await;
            assert!(why.contains("does not trust the root of --tls-cert"), "{version}: {why}");
        }
        let old = failed(at.path(), &["-tls1_2", "-cipher", "AES128-SHA:@SECLEVEL=0"]).await;
        assert!(!old.contains("trust"), "{old}");
    }
}
