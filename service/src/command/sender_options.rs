//! Options of TLS at the senders' addresses, and of how senders prove their names.

use crate::book::MOST_SERIES;
use crate::identity::{AllowedHosts, Door};
use crate::metrics::Metrics;
use crate::quota::{Quota, MOST_POINTS};
use crate::tls::{Files, Named};
use clap::{value_parser, Args};
use std::path::PathBuf;
use std::sync::Arc;

#[derive(Args)]
#[command(next_help_heading = "Options of TLS and of who a sender is")]
pub(super) struct SenderOptions {
    /// The certificate of --listen and --listen-grpc in PEM, with those between it and its root: these addresses take only TLS then
    #[arg(long, env = "TOTXEGUN_TLS_CERT", value_name = "FILE", requires = "tls_key")]
    tls_cert: Option<PathBuf>,
    /// The key of --tls-cert in PEM
    #[arg(long, env = "TOTXEGUN_TLS_KEY", value_name = "FILE", requires = "tls_cert")]
    tls_key: Option<PathBuf>,
    /// Root certificates in PEM: a sender has the name of its certificate, which one of these must have signed
    #[arg(long, env = "TOTXEGUN_CLIENT_CA", value_name = "FILE", requires = "tls_cert")]
    client_ca: Option<PathBuf>,
    /// A file of senders' names and digests of their tokens, which `totxegun token NAME` makes; after each may stand series=N and points=N, the most series that the sender may have, and points that it may post a second
    #[arg(long, env = "TOTXEGUN_TOKENS", value_name = "FILE")]
    tokens: Option<PathBuf>,
    /// The most series of a sender whose line in --tokens has no series= [default: nine tenths of --max-series, once others have some]
    #[arg(long, env = "TOTXEGUN_SENDER_SERIES", value_name = "N", value_parser = value_parser!(u64).range(1..=MOST_SERIES as u64))]
    sender_series: Option<u64>,
    /// The most points a second of a sender whose line has no points=; a minute's points may come at once [default: any number]
    #[arg(long, env = "TOTXEGUN_SENDER_POINTS", value_name = "N", value_parser = value_parser!(u64).range(1..=MOST_POINTS))]
    sender_points: Option<u64>,
    /// Host names by which senders may post, besides IP addresses, localhost and the host of --listen; they count if nothing proves who a sender is
    #[arg(long, env = "TOTXEGUN_ALLOWED_HOSTS", value_name = "NAME", value_delimiter = ',')]
    allowed_hosts: Vec<String>,
    /// Takes posts beyond loopback without TLS or names: for addresses that only a proxy with both can reach
    #[arg(long, env = "TOTXEGUN_BEHIND_PROXY")]
    pub behind_proxy: bool,
}

impl SenderOptions {
    /// Whether a sender has to prove who it is.
    pub fn has_names(&self) -> bool {
        self.client_ca.is_some() || self.tokens.is_some()
    }

    /// The certificate of the senders' addresses, and its key.
    pub fn pair(&self) -> Option<(PathBuf, PathBuf)> {
        self.tls_cert.clone().zip(self.tls_key.clone())
    }

    /// The quota of a sender that has none on its line.
    pub fn of_each(&self) -> Quota {
        Quota { series: self.sender_series, points: self.sender_points }
    }

    /// Reads the files. `listen` are the senders' addresses.
    pub fn door(&self, listen: [Option<&String>; 2], metrics: &Arc<Metrics>) -> anyhow::Result<Door> {
        let client_ca = self.client_ca.clone();
        let tls = self.pair().map(|(certificate, key)| Files {
            named: Named::OF_SENDERS,
            certificate,
            key,
            client_ca,
        });
        let hosts = AllowedHosts::new(listen.into_iter().flatten().chain(&self.allowed_hosts).cloned());
        Ok(Door::open(tls.as_ref(), self.tokens.clone(), metrics)?.with_allowed_hosts(hosts))
    }
}
