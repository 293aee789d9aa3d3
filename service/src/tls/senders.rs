//! Verifies the certificates of senders: only short chains to one of the roots are trusted.
//!
//! A chain is checked before its sender has proved anything, and Debian's webpki tries all paths through it without a
//! bound, so thirty certificates with one name would occupy the thread of handshakes for ever.

use super::WithoutCertificate;
use rustls::server::{AllowAnyAuthenticatedClient, ClientCertVerified, ClientCertVerifier};
use rustls::{Certificate, DistinguishedNames, Error, RootCertStore};
use std::sync::Arc;
use std::time::SystemTime;

/// How many intermediate certificates a chain may have.
const MOST_BETWEEN: usize = 4;
/// The longest chain in bytes. Five RSA certificates with keys of 4096 bits have about 8,000.
const MOST_BYTES: usize = 16 << 10;
/// The object identifier of `nameConstraints`, 2.5.29.30, in DER. Each constraint is compared with each name, on all
/// paths. Debian's webpki can't read them as RFC 5280 encodes them, and trusts no chain that has some.
const NAME_CONSTRAINTS: &[u8] = &[0x06, 0x03, 0x55, 0x1d, 0x1e];

/// Verifies that a chain is short and ends at one of its roots.
pub struct Senders {
    inner: Arc<dyn ClientCertVerifier>,
    without: WithoutCertificate,
}

impl Senders {
    pub fn new(roots: RootCertStore, without: WithoutCertificate) -> Senders {
        Senders { inner: AllowAnyAuthenticatedClient::new(roots), without }
    }

    /// Whether nobody can be trusted, for want of roots.
    pub fn is_empty(&self) -> bool {
        let roots = self.inner.client_auth_root_subjects();
        roots.is_none_or(|roots| roots.is_empty())
    }
}

impl ClientCertVerifier for Senders {
    fn client_auth_mandatory(&self) -> Option<bool> {
        Some(self.without == WithoutCertificate::Refused)
    }

    fn client_auth_root_subjects(&self) -> Option<DistinguishedNames> {
        self.inner.client_auth_root_subjects()
    }

    fn verify_client_cert(
        &self,
        first: &Certificate,
        between: &[Certificate],
        now: SystemTime,
    ) -> Result<ClientCertVerified, Error> {
        let bytes = first.0.len() + between.iter().map(|shown| shown.0.len()).sum::<usize>();
        if between.len() > MOST_BETWEEN || bytes > MOST_BYTES {
            return Err(Error::InvalidCertificateData(format!(
                "the chain has over {MOST_BETWEEN} certificates between the sender's and its root, or over {MOST_BYTES} \
                 bytes: send a shorter one"
            )));
        }
        let has_constraints = |shown: &Certificate| {
            let mut places = shown.0.windows(NAME_CONSTRAINTS.len());
            places.any(|place| place == NAME_CONSTRAINTS)
        };
        if between.iter().any(has_constraints) {
            return Err(Error::InvalidCertificateData(
                "a certificate between the sender's and its root has name constraints: send a chain without them"
                    .into(),
            ));
        }
        self.inner.verify_client_cert(first, between, now)
    }
}
