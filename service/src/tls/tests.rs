//! Makes certificates by `openssl` for all tests that read some; tests handshakes.

use super::*;
use std::path::Path;
use std::process::{Command, Stdio};

pub fn folder() -> tempfile::TempDir {
    tempfile::tempdir().unwrap()
}

/// Runs `openssl` in a folder.
pub fn openssl(at: &Path, arguments: &str) {
    let words = arguments.split_whitespace();
    let done = Command::new("openssl").current_dir(at).args(words).stderr(Stdio::null()).status();
    assert!(done.expect("openssl is there").success(), "openssl {arguments}");
}

/// A certificate, self-signed or signed by another one of the folder.
pub struct Made<'a> {
    pub name: &'a str,
    pub key: &'a str,
    pub subject: &'a str,
    pub names: Option<&'a str>,
    pub by: Option<&'a str>,
}

impl Default for Made<'_> {
    fn default() -> Self {
        Made {
            name: "a",
            key: "ec -pkeyopt ec_paramgen_curve:prime256v1",
            subject: "/CN=a",
            names: None,
            by: None,
        }
    }
}

/// Makes a certificate and returns it in DER; NAME.pem and NAME.key are in the folder then.
pub fn certificate(at: &Path, made: Made) -> Vec<u8> {
    let Made { name, key, .. } = made;
    let mut line = format!("req -x509 -newkey {key} -nodes -keyout {name}.key -out {name}.pem -days 20");
    if let Some(by) = made.by {
        line += &format!(" -CA {by}.pem -CAkey {by}.key -addext basicConstraints=CA:FALSE");
    }
    if let Some(names) = made.names {
        line += &format!(" -addext subjectAltName={names}");
    }
    let subject = ["-subj", made.subject];
    let words = line.split_whitespace().chain(subject);
    let done = Command::new("openssl").current_dir(at).args(words).stderr(Stdio::null()).status();
    assert!(done.expect("openssl is there").success(), "{line}");
    openssl(at, &format!("x509 -in {name}.pem -outform DER -out {name}.der"));
    std::fs::read(at.join(format!("{name}.der"))).unwrap()
}

/// The configuration of `openssl ca`, the only command that sets the expiry of a certificate to the second.
const TO_THE_SECOND: &str =
    "[ca]\ndefault_ca=d\n[d]\nnew_certs_dir=.\ndatabase=index\nrand_serial=yes\ndefault_md=sha256\n\
    policy=p\n[p]\ncommonName=optional\n";

/// Makes NAME.pem and NAME.key for localhost, signed by `ca` of the folder, which expire after so many seconds.
pub fn certificate_for(at: &Path, name: &str, seconds: u64) -> Vec<u8> {
    std::fs::write(at.join("to-the-second"), TO_THE_SECOND).unwrap();
    std::fs::write(at.join("names"), "subjectAltName=DNS:localhost\nbasicConstraints=CA:FALSE\n").unwrap();
    std::fs::write(at.join("index"), "").unwrap();
    let ends = format!("{seconds} seconds");
    let ends = Command::new("date").args(["-u", "-d", &ends, "+%Y%m%d%H%M%SZ"]).output().unwrap().stdout;
    let ends = String::from_utf8(ends).unwrap();
    let key = Made::default().key;
    openssl(at, &format!("req -newkey {key} -nodes -keyout {name}.key -out {name}.csr -subj /CN={name}"));
    openssl(
        at,
        &format!(
            "ca -batch -notext -config to-the-second -cert ca.pem -keyfile ca.key -extfile names \
             -startdate 20200101000000Z -enddate {} -in {name}.csr -out {name}.pem",
            ends.trim()
        ),
    );
    openssl(at, &format!("x509 -in {name}.pem -outform DER -out {name}.der"));
    std::fs::read(at.join(format!("{name}.der"))).unwrap()
}

/// The certificate and its key in PEM.
pub fn pem(at: &Path, made: Made) -> (Vec<u8>, Vec<u8>) {
    let name = made.name;
    certificate(at, made);
    let read = |end: &str| std::fs::read(at.join(format!("{name}.{end}"))).unwrap();
    (read("pem"), read("key"))
}

/// TLS with the certificate `server` of a folder; with the roots `ca` if clients show certificates.
pub fn tls(at: &Path, client_ca: Option<WithoutCertificate>) -> Arc<Tls> {
    let metrics = Arc::new(Metrics::new().unwrap());
    let files = Files {
        named: Named::OF_SENDERS,
        certificate: at.join("server.pem"),
        key: at.join("server.key"),
        client_ca: client_ca.map(|_| at.join("ca.pem")),
    };
    let without = client_ca.unwrap_or(WithoutCertificate::LetIn);
    Arc::new(Tls::open(&files, without, metrics).unwrap())
}

/// Makes `ca`, and `server` for localhost, signed by it.
pub fn server(at: &Path) {
    certificate(at, Made { name: "ca", subject: "/CN=ca", ..Made::default() });
    certificate(at, Made { name: "server", names: Some("DNS:localhost"), by: Some("ca"), ..Made::default() });
}

#[test]
fn a_chain_is_believed_by_its_root_alone() {
    let at = folder();
    server(at.path());
    let of = |name, by| rustls::Certificate(certificate(at.path(), Made { name, by, ..Made::default() }));
    let (ours, own) = (of("ours", Some("ca")), of("own", None));
    let contexts = tls(at.path(), Some(WithoutCertificate::Refused)).contexts();
    assert!(
        contexts.believes(std::slice::from_ref(&ours))
            && !contexts.believes(&[own])
            && !contexts.believes(&[])
    );
    assert!(!tls(at.path(), None).contexts().believes(&[ours]));
}

/// Each intermediate certificate is signed by the root or by the one before it.
#[test]
fn a_chain_is_believed_up_to_four_between_it_and_its_root() {
    let at = folder();
    server(at.path());
    let names = ["ca", "b", "c", "d", "e", "f"];
    let mut between = Vec::new();
    for (by, name) in names.iter().zip(&names[1..]) {
        openssl(
            at.path(),
            &format!("req -x509 -newkey rsa:2048 -nodes -keyout {name}.key -out {name}.pem -days 20 -subj /CN={name} -CA {by}.pem -CAkey {by}.key"),
        );
        let pem = std::fs::read(at.path().join(format!("{name}.pem"))).unwrap();
        between.insert(0, certificates("--client-ca", &pem).unwrap().remove(0));
    }
    let of = |by| rustls::Certificate(certificate(at.path(), Made { by: Some(by), ..Made::default() }));
    let contexts = tls(at.path(), Some(WithoutCertificate::Refused)).contexts();
    let chain = |first, between: &[rustls::Certificate]| [&[first], between].concat();
    assert!(contexts.believes(&chain(of("e"), &between[1..])));
    assert!(!contexts.believes(&chain(of("f"), &between)));
    let mut long = between[1..].to_vec();
    long[3].0.resize(16 << 10, 0);
    assert!(!contexts.believes(&chain(of("e"), &long)));
}

fn der(tag: u8, body: &[u8]) -> Vec<u8> {
    let length = u16::try_from(body.len()).unwrap().to_be_bytes();
    [&[tag, 0x82, length[0], length[1]], body].concat()
}

/// In the form of openssl's options.
fn shown(der: &[u8]) -> String {
    let bytes: Vec<String> = der.iter().map(|byte| format!("{byte:02x}")).collect();
    format!("DER:{}", bytes.join(":"))
}

/// Otherwise names times constraints would be compared on each path, for seconds, on the one thread of handshakes.
#[test]
fn a_chain_with_many_constraints_of_names_is_refused_at_once() {
    let at = folder();
    server(at.path());
    let (names, constraints) = (b"\x82\0".repeat(3700), b"\x30\x02\x87\0".repeat(1500));
    let constraints = der(0x30, &der(0xa1, &der(0x30, &constraints)));
    let of = |name: &str, words: &str| {
        openssl(
            at.path(),
            &format!("req -x509 -newkey ec -pkeyopt ec_paramgen_curve:prime256v1 -nodes -keyout {name}.key -out {name}.pem -days 20 -subj /CN=ca {words}"),
        );
        let pem = std::fs::read(at.path().join(format!("{name}.pem"))).unwrap();
        certificates("--client-ca", &pem).unwrap().remove(0)
    };
    let mut chain = vec![of("b", &format!("-addext 2.5.29.30={}", shown(&constraints)))];
    chain.extend(["c", "d", "e"].map(|name| of(name, "")));
    let first = certificate(
        at.path(),
        Made { names: Some(&shown(&der(0x30, &names))), by: Some("b"), ..Made::default() },
    );
    chain.insert(0, rustls::Certificate(first));
    let contexts = tls(at.path(), Some(WithoutCertificate::Refused)).contexts();
    let begun = std::time::Instant::now();
    assert!(!contexts.believes(&chain));
    assert!(begun.elapsed() < std::time::Duration::from_secs(1));
}

#[test]
fn the_page_says_when_the_certificate_ends() {
    let at = folder();
    server(at.path());
    let tls = tls(at.path(), None);
    let page = String::from_utf8(tls.metrics.page()).unwrap();
    let line =
        page.lines().find_map(|line| line.strip_prefix("totxegun_certificate_not_after_timestamp_seconds "));
    let left = line.unwrap().parse::<i64>().unwrap() - crate::log::seconds() as i64;
    assert!((20 * 86_400 - 600..=20 * 86_400).contains(&left), "{left}");
}
