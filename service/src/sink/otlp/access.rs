//! The files that an operator names for an OTLP receiver: its roots, a certificate for this client, and headers.

use super::{connect, header_of, BadOtlp};
use crate::sink::roots::{self, ClientFiles};
use hyper::header::HeaderMap;
use hyper::Uri;
use std::path::{Path, PathBuf};

/// Files that an operator names for a receiver.
#[derive(Clone, Debug, Default, PartialEq, Eq)]
pub struct Access {
    pub tls: ClientFiles,
    /// One header on a line, `NAME: VALUE`. The file is read for each request, so that a token can be renewed.
    pub headers: Option<PathBuf>,
}

impl Access {
    /// The client for a receiver at this URL, or an error if a file can't be used now.
    pub(crate) fn client(&self, url: &Uri) -> Result<connect::Client, BadOtlp> {
        self.read_headers()?;
        match url.scheme_str() {
            Some("https") => Ok(connect::client_of(self.tls.client_config()?)),
            _ if !self.tls.is_empty() => Err(BadOtlp::NoTls),
            _ => Ok(connect::client_of(roots::client_config(rustls::RootCertStore::empty()))),
        }
    }

    /// The headers that the file has now.
    pub(crate) fn read_headers(&self) -> Result<HeaderMap, BadOtlp> {
        match &self.headers {
            Some(file) => headers_in(file),
            None => Ok(HeaderMap::new()),
        }
    }
}

fn headers_in(file: &Path) -> Result<HeaderMap, BadOtlp> {
    let bad = |why: String| BadOtlp::HeaderFile { file: file.into(), why };
    let text = std::fs::read_to_string(file).map_err(|error| bad(error.to_string()))?;
    let lines = text.lines().map(str::trim).filter(|line| !line.is_empty() && !line.starts_with('#'));
    let header = |line: &str| {
        let (name, value) = line.split_once(':').ok_or_else(|| bad("a line is not `NAME: VALUE`".into()))?;
        header_of(name.trim(), value.trim()).map_err(|why| bad(why.to_string()))
    };
    lines.map(header).collect()
}

#[cfg(test)]
mod tests {
    use super::*;

    #[test]
    fn headers_are_read_from_a_file_each_time() {
        let folder = tempfile::tempdir().expect("a folder");
        let file = folder.path().join("headers");
        let access = Access { headers: Some(file.clone()), ..Access::default() };
        let error = access.read_headers().expect_err("no file").to_string();
        assert!(error.contains("headers can't be read as headers: No such file"), "{error}");
        std::fs::write(&file, "# of the tenant\nAuthorization: Bearer a:b\n\nx-tenant: t\n")
            .expect("written");
        let headers = access.read_headers().expect("headers");
        assert_eq!(
            (headers.len(), &headers["authorization"], &headers["x-tenant"]),
            (2, &"Bearer a:b".parse().expect("a value"), &"t".parse().expect("a value"))
        );
        for (text, part) in [
            ("secret", "is not `NAME: VALUE`"),
            ("content-type: x", "the service sets header"),
            ("a b: c", "is not a header's name"),
        ] {
            std::fs::write(&file, text).expect("written");
            let error = access.read_headers().expect_err(text).to_string();
            assert!(error.contains(part) && !error.contains("secret"), "{error}");
        }
    }

    #[test]
    fn files_of_tls_are_for_tls() {
        let tls = ClientFiles { roots: Some("/nowhere".into()), ..ClientFiles::default() };
        let access = Access { tls, headers: None };
        let error = |url: &str| access.client(&url.parse().expect("a URL")).expect_err(url).to_string();
        assert!(error("http://h/").contains("https://"), "{}", error("http://h/"));
        assert!(error("https://h/").contains("/nowhere can't be used for TLS"), "{}", error("https://h/"));
    }
}
