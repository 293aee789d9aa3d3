//! Refuses requests that a browser sends for another site's page.
//!
//! Any page can have the browser of somebody on this machine send a request here, and by DNS rebinding the page even
//! gets the answer. So a request is refused if it says that it comes from a page, or if its host is not one of ours. An
//! IP address is always ours, since nobody can rebind it.

use crate::log::shown;
use hyper::header::{HeaderMap, HOST, ORIGIN};
use hyper::{Body, Request};
use std::net::IpAddr;

/// The header in which a browser says where a request comes from.
const FETCH_SITE: &str = "sec-fetch-site";
/// The value if a person has typed the address.
pub const BY_HAND: &[u8] = b"none";
/// The value for a page of the same scheme, host and port. Since `Host` is checked too, the page is ours.
pub const BY_US: &[u8] = b"same-origin";

/// How much of a foreign host name is shown, in characters.
const SHOWN: usize = 100;

/// Why a request is refused as one of a page; none if it is not. Requests from `sites` are allowed. `ours` is the
/// address that is listened on, as it was given.
pub fn stranger(request: &Request<Body>, ours: &str, sites: &[&[u8]]) -> Option<String> {
    of_a_page(request.headers(), sites).or_else(|| of_another_name(request, ours))
}

fn of_another_name(request: &Request<Body>, ours: &str) -> Option<String> {
    let named = request.headers().get_all(HOST).iter();
    let hosts = named.map(|host| host.to_str().unwrap_or_default());
    let place = request.uri().authority().map(|place| place.as_str());
    let other = hosts.chain(place).find(|host| !is_ours(host, ours))?;
    let other = shown(other, SHOWN);
    Some(format!(
        "refused: `{other}` is not an allowed host: ask for an IP address, localhost, or the host of --admin"
    ))
}

/// Refuses a request that says that it comes from a page, unless it is from one of `sites`.
fn of_a_page(headers: &HeaderMap, sites: &[&[u8]]) -> Option<String> {
    let what = match headers.get(FETCH_SITE) {
        _ if headers.contains_key(ORIGIN) => "an Origin",
        Some(site) if !sites.contains(&site.as_bytes()) => "a Sec-Fetch-Site",
        _ => return None,
    };
    Some(format!(
        "refused: it has {what}, so it is of a web page: ask by `totxegun` or curl, or type the address"
    ))
}

/// Whether a host, with or without a port, is an IP address, a name of the loopback or the host that is listened on.
pub fn is_ours(host: &str, ours: &str) -> bool {
    let name = without_port(host);
    let is_name = |other: &str| name.eq_ignore_ascii_case(other);
    let address = name.strip_prefix('[').and_then(|name| name.strip_suffix(']'));
    address.unwrap_or(name).parse::<IpAddr>().is_ok()
        || is_name("localhost")
        || is_name("localhost.")
        || is_name(without_port(ours))
}

fn without_port(host: &str) -> &str {
    match host.rsplit_once(':') {
        // The colons of an IPv6 address are within brackets.
        Some((name, port)) if port.bytes().all(|byte| byte.is_ascii_digit()) => name,
        _ => host,
    }
}

#[cfg(test)]
mod tests {
    use super::*;

    fn refused(uri: &str, headers: &[(&str, &str)]) -> Option<String> {
        refused_but(uri, headers, &[BY_HAND])
    }

    fn refused_but(uri: &str, headers: &[(&str, &str)], sites: &[&[u8]]) -> Option<String> {
        let mut request = Request::builder().method("POST").uri(uri);
        for (name, value) in headers {
            request = request.header(*name, *value);
        }
        stranger(&request.body(Body::empty()).unwrap(), "Box-1:4319", sites)
    }

    #[test]
    fn programs_are_let_in() {
        for host in [
            "127.0.0.1:4319",
            "127.0.0.1",
            "localhost:4319",
            "LOCALHOST",
            "localhost.",
            "[::1]:4319",
            "[::1]",
            "192.0.2.7:80",
            "box-1:4319",
            "box-1",
        ] {
            assert_eq!(refused("/flush", &[("host", host)]), None, "{host}");
        }
        let by_hand = [("host", "127.0.0.1:4319"), ("sec-fetch-site", "none")];
        assert_eq!(refused("/totals", &by_hand), None);
        assert_eq!(refused("/flush", &[]), None, "HTTP/1.0 may have no Host");
        assert_eq!(refused("http://localhost:4319/flush", &[("host", "localhost:4319")]), None);
    }

    #[test]
    fn pages_are_turned_away() {
        let host = ("host", "127.0.0.1:4319");
        for origin in ["https://evil.example", "null", "http://127.0.0.1:4319"] {
            let why = refused("/flush", &[host, ("origin", origin)]).unwrap();
            assert!(why.contains("it has an Origin, so it is of a web page"), "{why}");
        }
        for site in ["cross-site", "same-site", "same-origin", ""] {
            let why = refused("/flush", &[host, ("sec-fetch-site", site)]).unwrap();
            assert!(why.contains("it has a Sec-Fetch-Site"), "{why}");
        }
    }

    #[test]
    fn our_pages_lead_to_each_other_alone() {
        let asked = |headers: &[(&str, &str)]| refused_but("/series", headers, &[BY_HAND, BY_US]);
        let (host, site) = (("host", "127.0.0.1:4319"), "sec-fetch-site");
        assert_eq!(asked(&[host, (site, "same-origin")]), None);
        assert_eq!(asked(&[host, (site, "none")]), None);
        for other in ["cross-site", "same-site", ""] {
            assert!(asked(&[host, (site, other)]).is_some(), "{other}");
        }
        assert!(asked(&[host, ("origin", "http://127.0.0.1:4319")]).is_some());
        assert!(asked(&[("host", "evil.example:4319"), (site, "same-origin")]).is_some());
    }

    /// As by DNS rebinding.
    #[test]
    fn other_names_are_turned_away() {
        for host in [
            "evil.example:4319",
            "localhost.evil.example",
            "127.0.0.1.evil.example",
            "box-1.evil.example:4319",
            "[evil]:4319",
            "",
            "x\u{1b}[2J",
        ] {
            if let Ok(value) = hyper::header::HeaderValue::from_bytes(host.as_bytes()) {
                let why = refused("/flush", &[("host", value.to_str().unwrap())]).unwrap();
                assert!(why.contains("is not an allowed host"), "{why}");
            }
        }
        let two = [("host", "127.0.0.1:4319"), ("host", "evil.example")];
        assert!(refused("/flush", &two).is_some());
        assert!(refused("http://evil.example/flush", &[("host", "127.0.0.1")]).is_some());
    }
}
