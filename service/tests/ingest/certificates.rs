//! Certificates made by `openssl`, and clients that show them.

use std::path::Path;
use std::process::{Command, Stdio};
use std::sync::Arc;
use std::time::Duration;
use totxegun::identity::Door;
use totxegun::metrics::Metrics;
use totxegun::tls::{Files, Named};

pub fn openssl(at: &Path, words: &[&str]) {
    let done = Command::new("openssl")
        .current_dir(at)
        .args(words)
        .stdout(Stdio::null())
        .stderr(Stdio::null())
        .status();
    assert!(done.expect("openssl is there").success(), "openssl {words:?}");
}

const KEY: [&str; 5] = ["-newkey", "ec", "-pkeyopt", "ec_paramgen_curve:prime256v1", "-nodes"];

/// Makes NAME.pem and NAME.key of a root.
pub fn root(at: &Path, name: &str) {
    root_that_says(at, name, name);
}

/// The same, with a subject that may differ from its name.
pub fn root_that_says(at: &Path, name: &str, subject: &str) {
    let (key, chain, subject) = (format!("{name}.key"), format!("{name}.pem"), format!("/CN={subject}"));
    let words = ["req", "-x509", "-keyout", &key, "-out", &chain, "-subj", &subject, "-days", "20"];
    openssl(at, &[&words[..], &KEY].concat());
}

/// Makes NAME.pem and NAME.key, signed by a root, for this many days.
pub fn signed(at: &Path, root: &str, name: &str, days: &str) {
    std::fs::write(at.join("names"), format!("subjectAltName=DNS:{name}\nbasicConstraints=CA:FALSE\n"))
        .unwrap();
    let (key, chain, asked) = (format!("{name}.key"), format!("{name}.pem"), format!("{name}.csr"));
    let words = ["req", "-keyout", &key, "-out", &asked, "-subj", "/CN=other"];
    openssl(at, &[&words[..], &KEY].concat());
    let (by, by_key) = (format!("{root}.pem"), format!("{root}.key"));
    let words = ["x509", "-req", "-in", &asked, "-CA", &by, "-CAkey", &by_key, "-CAcreateserial"];
    openssl(at, &[&words[..], &["-extfile", "names", "-days", days, "-out", &chain]].concat());
}

/// Settings of `openssl ca`, the only command that sets the end of a certificate to the second.
const TO_THE_SECOND: &str =
    "[ca]\ndefault_ca=d\n[d]\nnew_certs_dir=.\ndatabase=index\nrand_serial=yes\ndefault_md=sha256\n\
    policy=p\n[p]\ncommonName=optional\n";

/// Makes NAME.pem and NAME.key, signed by a root, valid for this time from now on.
pub fn signed_for(at: &Path, root: &str, name: &str, time: Duration) {
    signed(at, root, name, "20");
    std::fs::write(at.join("to-the-second"), TO_THE_SECOND).unwrap();
    std::fs::write(at.join("index"), "").unwrap();
    let ends = format!("{} seconds", time.as_secs());
    let ends = Command::new("date").args(["-u", "-d", &ends, "+%Y%m%d%H%M%SZ"]).output().unwrap().stdout;
    let ends = String::from_utf8(ends).unwrap();
    let (by, by_key) = (format!("{root}.pem"), format!("{root}.key"));
    let (asked, chain) = (format!("{name}.csr"), format!("{name}.pem"));
    let words = ["ca", "-batch", "-notext", "-config", "to-the-second", "-cert", &by, "-keyfile", &by_key];
    let times = ["-startdate", "20200101000000Z", "-enddate", ends.trim()];
    openssl(at, &[&words[..], &times, &["-extfile", "names", "-in", &asked, "-out", &chain]].concat());
}

/// Makes a folder with the root `ca` and the certificate `localhost`.
pub fn folder() -> tempfile::TempDir {
    let at = tempfile::tempdir().unwrap();
    root(at.path(), "ca");
    signed(at.path(), "ca", "localhost", "20");
    at
}

/// TLS with that certificate; with roots for senders, and tokens, if these files are named.
pub fn door(at: &Path, client_ca: Option<&str>, tokens: Option<&str>) -> Door {
    let tls = Files {
        named: Named::OF_SENDERS,
        certificate: at.join("localhost.pem"),
        key: at.join("localhost.key"),
        client_ca: client_ca.map(|name| at.join(name)),
    };
    let tokens = tokens.map(|name| at.join(name));
    Door::open(Some(&tls), tokens, &Arc::new(Metrics::new().unwrap())).unwrap()
}

/// The certificates of NAME.pem.
fn chain(at: &Path, name: &str) -> Vec<rustls::Certificate> {
    let pem = std::fs::read(at.join(format!("{name}.pem"))).unwrap();
    let found = rustls_pemfile::certs(&mut &pem[..]).unwrap();
    found.into_iter().map(rustls::Certificate).collect()
}

/// A client that trusts a root, and may show a certificate.
pub fn client(at: &Path, root: &str, shown: Option<&str>) -> rustls::ClientConfig {
    client_of(rustls::DEFAULT_VERSIONS, at, root, shown)
}

/// The same with only these versions of TLS.
pub fn client_of(
    versions: &[&'static rustls::SupportedProtocolVersion],
    at: &Path,
    root: &str,
    shown: Option<&str>,
) -> rustls::ClientConfig {
    let mut roots = rustls::RootCertStore::empty();
    roots.add(&chain(at, root)[0]).unwrap();
    let config =
        rustls::ClientConfig::builder().with_safe_default_cipher_suites().with_safe_default_kx_groups();
    let config = config.with_protocol_versions(versions).unwrap().with_root_certificates(roots);
    let Some(shown) = shown else {
        return config.with_no_client_auth();
    };
    let key = std::fs::read(at.join(format!("{shown}.key"))).unwrap();
    let key = rustls_pemfile::pkcs8_private_keys(&mut &key[..]).unwrap().remove(0);
    config.with_single_cert(chain(at, shown), rustls::PrivateKey(key)).unwrap()
}
