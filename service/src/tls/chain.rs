//! The certificates that a client has shown in its handshake, and whether they are still trusted. `identity` asks for
//! each request.

use super::{Certificate, Contexts, Tls};
use crate::log::seconds;
use crate::work::locked;
use std::sync::{Arc, Mutex};

/// The chain of one connection, the client's own certificate first. The handshake has verified it; since then a certificate may
/// have expired, or its root may have been removed from the file.
pub struct ClientChain {
    shown: Vec<rustls::Certificate>,
    tls: Arc<Tls>,
    judged: Mutex<ChainVerdict>,
}

/// Whether the chain was trusted, by which files, and until when that holds.
struct ChainVerdict {
    by: Arc<Contexts>,
    is_believed: bool,
    /// When the next of its certificates expires, in seconds since 1970.
    until: i64,
}

impl ClientChain {
    /// A chain that a handshake gave under `by`. An expired one is verified again before its first use: a finished handshake
    /// does not prove that the chain was verified then.
    pub fn new(shown: Vec<rustls::Certificate>, by: Arc<Contexts>, tls: Arc<Tls>) -> ClientChain {
        let is_believed = shown.first().is_some_and(|first| Certificate::read(&first.0).is_some());
        let judged = ChainVerdict { by, is_believed, until: next_end(&shown, i64::MIN) };
        ClientChain { shown, tls, judged: Mutex::new(judged) }
    }

    /// The name in the client's own certificate.
    pub fn name(&self) -> Option<String> {
        Certificate::read(&self.shown.first()?.0)?.name
    }

    /// Verifies the chain once for each expiry and each change of the files: that takes longer than a post, and on the thread
    /// of other senders' posts.
    pub fn is_believed(&self) -> bool {
        let (now, contexts) = (seconds() as i64, self.tls.contexts());
        let mut judged = locked(&self.judged);
        if now > judged.until || !Arc::ptr_eq(&judged.by, &contexts) {
            let is_believed = contexts.believes(&self.shown);
            *judged = ChainVerdict { by: contexts, is_believed, until: next_end(&self.shown, now) };
        }
        judged.is_believed
    }
}

/// When the first of these certificates expires that has not expired before `then`.
fn next_end(chain: &[rustls::Certificate], then: i64) -> i64 {
    let ends = chain.iter().filter_map(|shown| Some(Certificate::read(&shown.0)?.ends));
    ends.filter(|end| *end >= then).min().unwrap_or(i64::MAX)
}

#[cfg(test)]
mod tests {
    use super::super::tests::{certificate, certificate_for, folder, server, tls, Made};
    use super::super::WithoutCertificate;
    use super::*;

    /// A chain of one certificate that the root `ca` has signed.
    fn chain(made: impl FnOnce(&std::path::Path) -> Vec<u8>) -> ClientChain {
        let at = folder();
        server(at.path());
        let tls = tls(at.path(), Some(WithoutCertificate::Refused));
        ClientChain::new(vec![rustls::Certificate(made(at.path()))], tls.contexts(), tls)
    }

    fn sound(at: &std::path::Path) -> Vec<u8> {
        certificate(at, Made { by: Some("ca"), ..Made::default() })
    }

    #[test]
    fn a_chain_counts_until_one_of_it_ends() {
        let mut chain = chain(sound);
        let days = |judged: &ChainVerdict| (judged.until - seconds() as i64) / 86_400;
        assert!((19..=20).contains(&days(chain.judged.get_mut().unwrap())));
        // One certificate between it and its root has expired since then.
        let shown = std::mem::take(&mut chain.shown);
        assert!(chain.is_believed(), "it is not looked at for each post");
        chain.judged.get_mut().unwrap().until = seconds() as i64 - 1;
        assert!(!chain.is_believed());
        let ends = Certificate::read(&shown[0].0).unwrap().ends;
        assert_eq!([next_end(&shown, ends), next_end(&shown, ends + 1)], [ends, i64::MAX]);
    }

    /// As after a resumed session: no handshake has checked its expiry.
    #[test]
    fn a_chain_that_had_ended_before_its_handshake_is_not_believed() {
        let ended = chain(|at| {
            let made = certificate_for(at, "short", 1);
            std::thread::sleep(std::time::Duration::from_millis(2500));
            made
        });
        assert!(!ended.is_believed());
    }

    /// Otherwise a client that was let in before could go on posting, or its chain would be verified for each post.
    #[test]
    fn a_chain_is_judged_once_by_each_file() {
        let (of, other) = (chain(sound), chain(sound));
        let moved = ClientChain { tls: other.tls.clone(), ..of };
        for _ in 0..2 {
            assert!(!moved.is_believed(), "another root of that name");
            assert!(Arc::ptr_eq(&moved.judged.lock().unwrap().by, &other.tls.contexts()));
        }
    }
}
