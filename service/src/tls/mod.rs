//! TLS 1.2 and 1.3 at the addresses of senders, and between instances (`peers`), with files that are reloaded when they
//! change.
//!
//! `identity` owns the `Tls` of the senders' addresses; `ingest/connections` asks it for handshakes. A certificate
//! counts only as long as it is trusted and has not expired, also after the handshake (`chain`).
//!
//! - `pair`: our certificate and its key; `expiry`: the metric of its expiry.
//! - `certificate` (by `der`): the name and the expiry of a certificate.
//! - `handshake`: makes handshakes on a thread of its own; `socket`: moves a connection to the thread that serves it.
//! - `senders`: verifies the certificates of senders.

mod certificate;
mod chain;
mod der;
mod expiry;
mod handshake;
mod pair;
mod peers;
mod senders;
mod socket;

pub use chain::ClientChain;
pub use handshake::{Stream, TlsConnection};

use crate::ingest::Threads;
use crate::metrics::Metrics;
use crate::reloaded::{Reader, Reading, Reloaded};
use anyhow::Context;
use certificate::Certificate;
use pair::{certificates, Pair};
use rustls::server::{ClientCertVerifier, NoClientAuth, NoServerSessionStorage};
use rustls::{ClientConfig, RootCertStore, ServerConfig};
use senders::Senders;
use std::path::PathBuf;
use std::sync::Arc;
use std::time::SystemTime;

/// The options by which the files are given, for messages.
#[derive(Clone, Copy, Debug, PartialEq, Eq)]
pub struct Named {
    pub certificate: &'static str,
    pub key: &'static str,
    pub roots: &'static str,
}

impl Named {
    pub const OF_SENDERS: Named = Named { certificate: "--tls-cert", key: "--tls-key", roots: "--client-ca" };
}

/// The paths of the certificates, in PEM.
#[derive(Clone, Debug)]
pub struct Files {
    pub named: Named,
    /// Our certificate, with the intermediate ones.
    pub certificate: PathBuf,
    pub key: PathBuf,
    /// The roots of clients' certificates, if clients show any.
    pub client_ca: Option<PathBuf>,
}

/// Whether a client without a certificate is let in: then it proves its name in another way.
#[derive(Clone, Copy, Debug, PartialEq, Eq)]
pub enum WithoutCertificate {
    Refused,
    LetIn,
}

/// Between whom TLS is spoken.
#[derive(Clone, Copy)]
enum Place {
    Senders,
    Peers,
}

/// The protocol over TLS, by its name in ALPN.
#[derive(Clone, Copy, Debug, PartialEq, Eq)]
pub enum Protocol {
    Http,
    Grpc,
}

impl Protocol {
    fn name(self) -> &'static [u8] {
        match self {
            Protocol::Http => b"http/1.1",
            Protocol::Grpc => b"h2",
        }
    }
}

/// The configurations from the last valid contents of the files.
pub struct Contexts {
    http: Arc<ServerConfig>,
    grpc: Arc<ServerConfig>,
    senders: Option<Arc<Senders>>,
    /// The configuration for requests to other instances.
    client: Option<Arc<ClientConfig>>,
    /// When our certificate expires, in seconds since 1970.
    ends: i64,
}

impl Contexts {
    /// `contents` are those of the certificate, its key, and, if clients show certificates, their roots.
    fn read(named: Named, contents: &[Vec<u8>], without: WithoutCertificate) -> Result<Contexts, String> {
        let [chain, key, rest @ ..] = contents else {
            return Err(format!("{} and {} have to be given together", named.certificate, named.key));
        };
        let pair = Pair::read(named, chain, key)?;
        let roots = rest.first().map(|pem| roots(named.roots, pem)).transpose()?;
        Contexts::of(named, &pair, roots, without)
    }

    fn of(
        named: Named,
        pair: &Pair,
        roots: Option<RootCertStore>,
        without: WithoutCertificate,
    ) -> Result<Contexts, String> {
        let senders = roots.map(|roots| Arc::new(Senders::new(roots, without)));
        let of = |protocol| config(named, pair, senders.clone(), protocol).map(Arc::new);
        Ok(Contexts {
            http: of(Protocol::Http)?,
            grpc: of(Protocol::Grpc)?,
            senders,
            client: None,
            ends: pair.ends,
        })
    }

    /// The configuration for requests to other instances; none at the senders' addresses.
    pub fn client(&self) -> Option<Arc<ClientConfig>> {
        self.client.clone()
    }

    /// If senders may show a certificate but none is accepted: why, and what to do.
    fn shut(&self) -> Option<&'static str> {
        let is_empty = self.senders.as_ref().is_some_and(|senders| senders.is_empty());
        is_empty.then_some(
            "--client-ca has no certificate in PEM, so no sender can use one: add the certificate of a root, `-----BEGIN \
             CERTIFICATE-----`",
        )
    }

    fn config(&self, protocol: Protocol) -> Arc<ServerConfig> {
        match protocol {
            Protocol::Http => self.http.clone(),
            Protocol::Grpc => self.grpc.clone(),
        }
    }

    /// Whether a sender's chain is trusted now.
    pub fn believes(&self, chain: &[rustls::Certificate]) -> bool {
        let (Some(senders), Some((first, between))) = (&self.senders, chain.split_first()) else {
            return false;
        };
        senders.verify_client_cert(first, between, SystemTime::now()).is_ok()
    }
}

fn roots(option: &str, pem: &[u8]) -> Result<RootCertStore, String> {
    let mut roots = RootCertStore::empty();
    for (number, root) in certificates(option, pem)?.iter().enumerate() {
        roots
            .add(root)
            .map_err(|error| format!("certificate {} of {option} can't be used: {error}", number + 1))?;
    }
    Ok(roots)
}

fn config(
    named: Named,
    pair: &Pair,
    senders: Option<Arc<Senders>>,
    protocol: Protocol,
) -> Result<ServerConfig, String> {
    let verifier = match senders {
        None => NoClientAuth::new(),
        Some(senders) => senders as Arc<dyn ClientCertVerifier>,
    };
    let mut config = ServerConfig::builder()
        .with_safe_defaults()
        .with_client_cert_verifier(verifier)
        .with_single_cert(pair.chain.clone(), pair.key.clone())
        .map_err(|error| format!("{} can't be used: {error}", named.certificate))?;
    config.alpn_protocols = vec![protocol.name().to_vec()];
    // A resumed session keeps the certificates of its first handshake without verifying them again.
    config.session_storage = Arc::new(NoServerSessionStorage {});
    Ok(config)
}

/// Makes handshakes, on a thread of its own because one costs as much as many posts.
pub struct Tls {
    contexts: Arc<Reloaded<Contexts>>,
    threads: Threads,
    metrics: Arc<Metrics>,
    /// The option of our certificate.
    certificate: &'static str,
}

impl Tls {
    /// Reads the files. An error names what can't be used and says what to do.
    pub fn open(files: &Files, without: WithoutCertificate, metrics: Arc<Metrics>) -> anyhow::Result<Tls> {
        let named = files.named;
        let mut paths = vec![(named.certificate, files.certificate.clone()), (named.key, files.key.clone())];
        paths.extend(files.client_ca.clone().map(|path| (named.roots, path)));
        let read = move |contents: &[Vec<u8>]| Contexts::read(named, contents, without);
        Tls::by(Place::Senders, named, paths, Box::new(read), metrics)
    }

    /// Reads these files, and reloads them when they change.
    fn by(
        place: Place,
        named: Named,
        paths: Vec<(&'static str, PathBuf)>,
        read: Reading<Contexts>,
        metrics: Arc<Metrics>,
    ) -> anyhow::Result<Tls> {
        let contexts = Reloaded::open(paths, Reader { read, shut: Contexts::shut }, &metrics)?;
        expiry::register(place, &metrics, contexts.clone()).context("metrics")?;
        let thread = match place {
            Place::Senders => "handshake",
            Place::Peers => "peers",
        };
        let threads = Threads::named(thread, 1).context("no thread could be started")?;
        Ok(Tls { contexts, threads, metrics, certificate: named.certificate })
    }

    /// The contexts of the current files.
    pub fn contexts(&self) -> Arc<Contexts> {
        self.contexts.now()
    }
}

#[cfg(test)]
pub(crate) use peers::tests as peer_tests;
#[cfg(test)]
pub(crate) mod tests;
