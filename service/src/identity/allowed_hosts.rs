//! Which hosts a request may name if nothing proves who sends it. `Who` asks it for each request.
//!
//! By DNS rebinding a web page can make a name of its own resolve to this machine, and have the browser post here under
//! any sender's name. Such a request names the page's host. If senders need a token or a certificate, a page has
//! neither, so any host is accepted.

use super::SenderRefusal;
use crate::admin::is_ours;
use crate::log::shown;

/// How much of another host a refusal shows, in characters.
const SHOWN: usize = 100;

/// The hosts of the senders' addresses and those of --allowed-hosts. IP addresses and localhost are always allowed.
pub struct AllowedHosts(Vec<String>);

impl AllowedHosts {
    pub fn new(names: impl IntoIterator<Item = String>) -> AllowedHosts {
        AllowedHosts(names.into_iter().collect())
    }

    /// Refuses a request that names another host.
    pub fn check<'h>(&self, mut named: impl Iterator<Item = &'h [u8]>) -> Result<(), SenderRefusal> {
        let is_one = |host: &str| is_ours(host, "localhost") || self.0.iter().any(|name| is_ours(host, name));
        let other = named.find(|host| !std::str::from_utf8(host).is_ok_and(is_one));
        other.map_or(Ok(()), |host| {
            Err(SenderRefusal::OtherHost { host: shown(&String::from_utf8_lossy(host), SHOWN) })
        })
    }
}

#[cfg(test)]
mod tests {
    use super::*;

    #[test]
    fn a_request_is_for_one_of_our_names() {
        let hosts = AllowedHosts::new(["0.0.0.0:4318", "box-1:4317", "totxegun"].map(String::from));
        let passes = |named: &[&str]| hosts.check(named.iter().map(|host| host.as_bytes())).is_ok();
        for host in
            ["127.0.0.1:4318", "[::1]:4318", "10.0.0.7", "localhost:1", "LOCALHOST", "box-1", "Totxegun:4318"]
        {
            assert!(passes(&[host]), "{host}");
        }
        assert!(passes(&[]), "HTTP/1.0 may have none");
        for host in ["evil.example:4318", "box-1.evil.example", "totxegun.evil.example", "box", ""] {
            assert!(!passes(&[host]) && !passes(&["127.0.0.1", host]), "{host}");
        }
        let why = hosts.check([&b"a\x1b[2J\xff"[..]].into_iter()).unwrap_err().to_string();
        assert!(why.starts_with("another host: `a [2J") && !why.contains('\u{1b}'), "{why}");
    }
}
