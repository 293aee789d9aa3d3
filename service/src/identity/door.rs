//! Decides how senders are identified at an address: by TLS with certificates, by tokens, or by their own word.

use super::who::{By, Certified};
use super::{AllowedHosts, Tokens, Who};
use crate::metrics::Metrics;
use crate::reloaded::{Reader, Reloaded};
use crate::tls::{ClientChain, Files, Tls, TlsConnection, WithoutCertificate};
use anyhow::Result;
use std::fmt;
use std::net::IpAddr;
use std::path::PathBuf;
use std::sync::Arc;

/// The checks at the address of senders. By default there is no TLS, and every sender and host is believed.
#[derive(Clone, Default)]
pub struct Door {
    pub(crate) tls: Option<Arc<Tls>>,
    by_certificate: bool,
    tokens: Option<Arc<Reloaded<Tokens>>>,
    hosts: Option<Arc<AllowedHosts>>,
}

/// Opens the file of `--admin-tokens`.
pub fn operators(path: PathBuf, metrics: &Metrics) -> Result<Arc<Reloaded<Tokens>>> {
    let reader = Reader {
        read: Box::new(|contents: &[Vec<u8>]| Tokens::read(&contents.concat())?.of_operators()),
        shut: Tokens::shut,
    };
    Reloaded::open(vec![("--admin-tokens", path)], reader, metrics)
}

impl Door {
    /// Reads the files. An error names what can't be used and says what to do.
    pub fn open(tls: Option<&Files>, tokens: Option<PathBuf>, metrics: &Arc<Metrics>) -> Result<Door> {
        let without = match tokens {
            Some(_) => WithoutCertificate::LetIn,
            None => WithoutCertificate::Refused,
        };
        let by_certificate = tls.is_some_and(|files| files.client_ca.is_some());
        let tls = tls.map(|files| Tls::open(files, without, metrics.clone())).transpose()?;
        let reader = || Reader {
            read: Box::new(|contents: &[Vec<u8>]| Tokens::read(&contents.concat())),
            shut: if by_certificate { Tokens::shut_beside_certificates } else { Tokens::shut },
        };
        let tokens = tokens.map(|path| Reloaded::open(vec![("--tokens", path)], reader(), metrics));
        Ok(Door { tls: tls.map(Arc::new), by_certificate, tokens: tokens.transpose()?, hosts: None })
    }

    /// The same door, where requests that prove nothing have to name one of these hosts.
    pub fn with_allowed_hosts(self, hosts: AllowedHosts) -> Door {
        Door { hosts: Some(Arc::new(hosts)), ..self }
    }

    /// How the senders of a connection's requests are identified. `shaken` is its handshake, if it had one.
    pub fn who(&self, shaken: Option<&TlsConnection>, peer: Option<IpAddr>) -> Who {
        let chain = shaken.zip(self.tls.as_ref()).and_then(|(shaken, tls)| shaken.chain(tls));
        let by = match (chain, &self.tls, &self.tokens) {
            (Some(chain), _, tokens) => By::Certificate(Certified::new(chain, tokens.clone())),
            (None, _, Some(tokens)) => By::Token(tokens.clone()),
            // No handshake ends like this. If one did, nobody would be trusted.
            (None, Some(tls), None) if self.by_certificate => {
                let chain = ClientChain::new(Vec::new(), tls.contexts(), tls.clone());
                By::Certificate(Certified::new(chain, None))
            }
            _ => By::Believed(self.hosts.clone()),
        };
        Who { by, peer }
    }

    /// The file of `--tokens`.
    pub fn tokens(&self) -> Option<Arc<Reloaded<Tokens>>> {
        self.tokens.clone()
    }

    /// Whether senders have to prove who they are.
    pub fn has_names(&self) -> bool {
        self.by_certificate || self.tokens.is_some()
    }

    /// Whether the connections are encrypted.
    pub fn has_tls(&self) -> bool {
        self.tls.is_some()
    }

    /// Whether strangers can neither read nor post.
    pub fn is_closed(&self) -> bool {
        self.has_tls() && self.has_names()
    }
}

impl fmt::Display for Door {
    fn fmt(&self, to: &mut fmt::Formatter<'_>) -> fmt::Result {
        let named = match (self.by_certificate, &self.tokens) {
            (true, Some(_)) => "by their certificate, or else by their token",
            (true, None) => "by their certificate",
            (false, Some(_)) => "by their token",
            (false, None) => "by their header x-sender, which nothing verifies",
        };
        let over = if self.has_tls() { "over TLS" } else { "without TLS" };
        write!(to, "senders are named {named}, {over}")
    }
}
