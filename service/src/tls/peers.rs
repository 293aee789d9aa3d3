//! TLS between instances: each shows a certificate that a root of `--peer-ca` has signed for the host of its `--peer`.
//! No other client is let in, and no other server is trusted.

use super::pair::Pair;
use super::{roots, Contexts, Files, Named, Place, Tls, WithoutCertificate};
use crate::metrics::Metrics;
use anyhow::bail;
use rustls::client::{ServerCertVerifier, WebPkiVerifier};
use rustls::{ClientConfig, RootCertStore, ServerName};
use std::sync::Arc;
use std::time::SystemTime;

impl Tls {
    /// Reads the files of an instance whose `--peer` has this host. An error names what can't be used and says what to
    /// do.
    pub fn of_peers(files: &Files, host: &str, metrics: Arc<Metrics>) -> anyhow::Result<Tls> {
        let Some(ca) = files.client_ca.clone() else {
            bail!("TLS between instances needs --peer-ca");
        };
        let Ok(name @ ServerName::DnsName(_)) = ServerName::try_from(host) else {
            bail!("with --peer-ca, --peer needs the name of a host, for which its certificate is, and no IP address");
        };
        let named = files.named;
        let paths = vec![
            (named.roots, ca),
            (named.certificate, files.certificate.clone()),
            (named.key, files.key.clone()),
        ];
        let host = host.to_string();
        let read = move |contents: &[Vec<u8>]| read(named, contents, &name, &host);
        Tls::by(Place::Peers, named, paths, Box::new(read), metrics)
    }
}

/// `contents` are those of the roots, of our certificate, and of its key.
fn read(named: Named, contents: &[Vec<u8>], name: &ServerName, host: &str) -> Result<Contexts, String> {
    let [ca, chain, key] = contents else {
        return Err("three files are read together".into());
    };
    let pair = Pair::read(named, chain, key)?;
    let believed = roots(named.roots, ca)?;
    if believed.is_empty() {
        return Err(format!(
            "{} has no certificate in PEM: add that of the root that signed the instances' certificates, `-----BEGIN \
             CERTIFICATE-----`",
            named.roots
        ));
    }
    let client = client(named, &pair, believed.clone())?;
    let mut contexts = Contexts::of(named, &pair, Some(believed.clone()), WithoutCertificate::Refused)?;
    if let Err(why) = would_be_asked(&pair, believed, name) {
        return Err(format!(
            "other instances would not trust this one: the certificate of {} has to be for {host}, the host of --peer, and \
             signed by a root of {} ({why})",
            named.certificate, named.roots
        ));
    }
    if !contexts.believes(&pair.chain) {
        return Err(format!(
            "other instances would reject this one: the certificate of {} has to be valid for clients too (extendedKeyUsage)",
            named.certificate
        ));
    }
    contexts.client = Some(Arc::new(client));
    Ok(contexts)
}

fn client(named: Named, pair: &Pair, roots: RootCertStore) -> Result<ClientConfig, String> {
    ClientConfig::builder()
        .with_safe_defaults()
        .with_root_certificates(roots)
        .with_single_cert(pair.chain.clone(), pair.key.clone())
        .map_err(|error| format!("{} can't be used: {error}", named.certificate))
}

/// Verifies our certificate as another instance would.
fn would_be_asked(pair: &Pair, roots: RootCertStore, name: &ServerName) -> Result<(), rustls::Error> {
    let (first, between) = pair.chain.split_first().ok_or(rustls::Error::NoCertificatesPresented)?;
    let verifier = WebPkiVerifier::new(roots, None);
    let now = SystemTime::now();
    verifier.verify_server_cert(first, between, name, &mut std::iter::empty(), &[], now).map(drop)
}

#[cfg(test)]
pub(crate) mod tests {
    use super::super::tests::{certificate, folder, server, Made};
    use super::*;
    use std::path::Path;

    pub const NAMED: Named = Named { certificate: "--peer-cert", key: "--peer-key", roots: "--peer-ca" };

    /// The certificate `name` of a folder and its roots `ca`.
    pub fn files(at: &Path, name: &str, ca: &str) -> Files {
        Files {
            named: NAMED,
            certificate: at.join(format!("{name}.pem")),
            key: at.join(format!("{name}.key")),
            client_ca: Some(at.join(format!("{ca}.pem"))),
        }
    }

    pub fn peer(at: &Path, name: &str, ca: &str) -> anyhow::Result<Arc<Tls>> {
        let metrics = Arc::new(Metrics::new().unwrap());
        Tls::of_peers(&files(at, name, ca), "localhost", metrics).map(Arc::new)
    }

    #[test]
    fn what_the_others_would_refuse_is_refused_by_name() {
        let at = folder();
        server(at.path());
        let made = |name, names, by| {
            certificate(at.path(), Made { name, names, by, ..Made::default() });
        };
        made("elsewhere", Some("DNS:other.example"), Some("ca"));
        made("other", Some("DNS:localhost"), None);
        std::fs::write(at.path().join("none.pem"), "").unwrap();
        assert!(peer(at.path(), "server", "ca").is_ok());
        for (name, ca, part) in [
            ("elsewhere", "ca", "for localhost, the host of --peer"),
            ("other", "ca", "a root of --peer-ca"),
            ("server", "none", "--peer-ca has no certificate"),
            ("ca", "ca", "other instances would not trust this one"),
        ] {
            let why = peer(at.path(), name, ca).err().expect(part).to_string();
            assert!(why.starts_with("--peer-ca can't be used") && why.contains(part), "{why}");
        }
        let files = files(at.path(), "server", "ca");
        let by_address = Tls::of_peers(&files, "127.0.0.1", Arc::new(Metrics::new().unwrap()));
        assert!(by_address.err().unwrap().to_string().contains("no IP address"));
    }
}
