//! The address of a sink, as it is written on the command line.

use super::postgres::Server;
use super::{roots, Access};
use crate::storage::KnownSink;
use std::path::PathBuf;
use std::str::FromStr;

/// Where to deliver, with what the options of an OTLP sink add.
#[derive(Clone, Debug, PartialEq, Eq)]
pub enum Address {
    Sqlite(PathBuf),
    Postgres(Box<Server>),
    Otlp { url: String, protobuf: bool, gzip: bool, headers: Vec<(String, String)>, access: Access },
}

impl Address {
    /// The kind and the place, as a folder remembers them: without user, password and query.
    pub fn known(&self) -> KnownSink {
        match self {
            Address::Sqlite(path) => KnownSink::new("sqlite", &path.to_string_lossy()),
            Address::Postgres(server) => KnownSink::new("postgres", &server.place()),
            Address::Otlp { url, .. } => KnownSink::new("otlp", url.split('?').next().unwrap_or(url)),
        }
    }
}

#[derive(Clone, Debug, PartialEq, Eq, thiserror::Error)]
pub enum BadAddress {
    #[error("the sink's address is empty: write sqlite:PATH, postgres://USER@HOST:PORT/DB, http://HOST:PORT/PATH or https://HOST/PATH")]
    Empty,
    #[error("`{0}:` is not a kind of sink: write sqlite:PATH, postgres://USER@HOST:PORT/DB, http://HOST:PORT/PATH or \
        https://HOST/PATH")]
    Unknown(String),
    /// This and the next show no address, since it may have a password.
    #[error("the sink's URL is not valid: {0}; write http://HOST:PORT/PATH or https://HOST/PATH")]
    Url(String),
    #[error(
        "the address of the PostgreSQL sink is not valid: {0}; write postgres://USER@HOST:PORT/DB, or \
        postgres://USER@/DB?host=/FOLDER"
    )]
    Postgres(String),
}

impl FromStr for Address {
    type Err = BadAddress;

    /// Reads `sqlite:PATH`, `postgres://..`, `http://..`, `https://..`, or the path of a SQLite file.
    fn from_str(text: &str) -> Result<Address, BadAddress> {
        if text.is_empty() {
            return Err(BadAddress::Empty);
        }
        let Some((scheme, rest)) = text.split_once(':') else {
            return Ok(Address::Sqlite(text.into()));
        };
        match scheme.to_ascii_lowercase().as_str() {
            "sqlite" if rest.is_empty() => Err(BadAddress::Empty),
            "sqlite" => Ok(Address::Sqlite(rest.into())),
            scheme @ ("http" | "https") => otlp(format!("{scheme}:{rest}")),
            "postgres" | "postgresql" => {
                let server = Server::read(rest).map_err(BadAddress::Postgres)?;
                Ok(Address::Postgres(server.into()))
            }
            _ if scheme.contains('/') => Ok(Address::Sqlite(text.into())),
            // HOST:PORT ends here too. Otherwise it would be taken for a file.
            _ => Err(BadAddress::Unknown(scheme.into())),
        }
    }
}

/// A URL without a path is the base of a collector, which takes metrics at `/v1/metrics`.
fn otlp(url: String) -> Result<Address, BadAddress> {
    let bad = |why: &str| BadAddress::Url(why.into());
    let uri: hyper::Uri = url.parse().map_err(|error| bad(&format!("{error}")))?;
    let authority = uri.authority().ok_or_else(|| bad("there is no host"))?;
    if authority.host().is_empty() {
        return Err(bad("there is no host"));
    }
    if authority.as_str().contains('@') {
        return Err(bad("a name and password in it would not be sent: give a header `authorization`"));
    }
    // hyper would replace a port that is none by the scheme's default port, and so reach another server.
    let port = authority.as_str()[authority.host().len()..].strip_prefix(':');
    if port.is_some_and(|port| !port.parse().is_ok_and(|port: u16| port > 0)) {
        return Err(bad("its port is not one of 1 to 65535"));
    }
    if uri.scheme_str() == Some("https") && !roots::is_name(authority.host()) {
        return Err(bad(roots::NO_NAME));
    }
    let path = match uri.path_and_query().map(|path| path.as_str()) {
        None | Some("" | "/") => "/v1/metrics",
        Some(path) => path,
    };
    let url = format!("{}://{authority}{path}", uri.scheme_str().unwrap_or("http"));
    Ok(Address::Otlp { url, protobuf: false, gzip: false, headers: Vec::new(), access: Access::default() })
}

#[cfg(test)]
mod tests {
    use super::*;

    fn url_of(text: &str) -> String {
        match text.parse() {
            Ok(Address::Otlp { url, .. }) => url,
            other => panic!("{text}: {other:?}"),
        }
    }

    #[test]
    fn paths_are_sqlite() {
        for (text, path) in
            [("sqlite:/a/b.db", "/a/b.db"), ("b.db", "b.db"), ("/a:b/c", "/a:b/c"), ("sqlite:x", "x")]
        {
            assert_eq!(text.parse(), Ok(Address::Sqlite(path.into())), "{text}");
        }
    }

    #[test]
    fn urls_are_otlp() {
        assert_eq!(url_of("http://h:4318/v1/metrics"), "http://h:4318/v1/metrics");
        assert_eq!(url_of("http://h:4318"), "http://h:4318/v1/metrics");
        assert_eq!(url_of("HTTPS://h/"), "https://h/v1/metrics");
        assert_eq!(url_of("https://h/otlp?tenant=1"), "https://h/otlp?tenant=1");
        assert_eq!(url_of("http://[::1]:65535"), "http://[::1]:65535/v1/metrics");
        assert_eq!(url_of("http://[::1]"), "http://[::1]/v1/metrics");
    }

    #[test]
    fn bad_addresses_say_why() {
        for (text, part) in [
            ("", "empty"),
            ("sqlite:", "empty"),
            ("kafka://h/db", "`kafka:`"),
            ("localhost:4318", "`localhost:`"),
            ("http:/x", "URL is not valid"),
            ("http://", "URL is not valid"),
            ("http://a b/", "URL is not valid"),
            ("http://user:secret@h/", "authorization"),
            ("http://h:65536/", "1 to 65535"),
            ("http://h:4318x/", "1 to 65535"),
            ("https://[::1]:0", "1 to 65535"),
            ("http://h:/", "1 to 65535"),
            ("https://127.0.0.1:4318/", "name of a host"),
            ("HTTPS://[::1]/", "name of a host"),
        ] {
            let error = text.parse::<Address>().expect_err(text);
            let said = error.to_string();
            assert!(said.contains(part) && !said.contains("secret"), "{text}: {said}");
        }
    }
}
