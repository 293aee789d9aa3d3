//! Identifies the sender of a connection and of each of its requests. `ingest/head` and `grpc` ask it.

use super::{AllowedHosts, Sender, SenderRefusal, Tokens};
use crate::otlp::{self, NO_NAME};
use crate::reloaded::Reloaded;
use crate::tls::ClientChain;
use std::net::IpAddr;
use std::sync::Arc;

/// How the senders of a connection are identified, and its peer.
pub struct Who {
    pub(super) by: By,
    pub(super) peer: Option<IpAddr>,
}

/// How the requests of a connection are identified.
pub enum By {
    /// By their own word, if they name one of these hosts.
    Believed(Option<Arc<AllowedHosts>>),
    /// By a token in each request.
    Token(Arc<Reloaded<Tokens>>),
    /// By the certificate that the connection has shown.
    Certificate(Certified),
}

/// The proved identity of a request.
#[derive(Debug)]
pub enum Proved {
    /// Nothing is proved: the sender is whatever the request says.
    Anybody,
    Sender(Arc<Sender>),
}

impl Who {
    /// Refuses a request that names a host which is not allowed.
    pub fn check_hosts<'h>(&self, named: impl Iterator<Item = &'h [u8]>) -> Result<(), SenderRefusal> {
        match &self.by {
            By::Believed(Some(hosts)) => hosts.check(named),
            _ => Ok(()),
        }
    }

    /// The identity of a request with these values of the header `Authorization`.
    pub fn proved<'h>(&self, authorization: impl Iterator<Item = &'h [u8]>) -> Result<Proved, SenderRefusal> {
        match &self.by {
            By::Believed(_) => Ok(Proved::Anybody),
            By::Token(tokens) => by_token(&tokens.now(), authorization).map(Proved::Sender),
            By::Certificate(certified) => certified.sender().map(Proved::Sender),
        }
    }

    /// The label of a request that is refused before its sender is known. If senders prove their names, it is the
    /// certificate's name or the peer's address, in a form that is no sender's name.
    pub fn unnamed(&self) -> String {
        let certified = match &self.by {
            By::Believed(_) => return NO_NAME.into(),
            By::Token(_) => None,
            By::Certificate(certified) => certified.sender.as_ref(),
        };
        match (certified, self.peer) {
            (Some(sender), _) => sender.name.clone(),
            (None, Some(peer)) => format!("{STRANGER}{}", peer.to_canonical()),
            (None, None) => NO_NAME.into(),
        }
    }

    /// The same refusal without a token in it: some senders put theirs into `x-sender`.
    pub fn without_token(&self, stranger: SenderRefusal) -> SenderRefusal {
        let tokens = match &self.by {
            By::Believed(_) => None,
            By::Token(tokens) => Some(tokens),
            By::Certificate(certified) => certified.tokens.as_ref(),
        };
        match stranger {
            SenderRefusal::OtherName { name, other }
                if tokens.is_some_and(|tokens| tokens.now().owner(other.as_bytes()).is_some()) =>
            {
                SenderRefusal::TokenAsName { name }
            }
            other => other,
        }
    }
}

/// Stands before the address of a client without a name.
const STRANGER: &str = "address ";

impl Proved {
    /// The label of a request that is refused for another reason.
    pub fn known(&self) -> &str {
        match self {
            Proved::Anybody => NO_NAME,
            Proved::Sender(sender) => &sender.name,
        }
    }

    /// The sender, if it is proved.
    pub fn sender(self) -> Option<Arc<Sender>> {
        match self {
            Proved::Anybody => None,
            Proved::Sender(sender) => Some(sender),
        }
    }

    /// The name that the request posts under; `own` is what it calls itself.
    pub fn name(&self, own: Option<&str>) -> Result<String, SenderRefusal> {
        match (self, own) {
            (Proved::Anybody, own) => Ok(own.unwrap_or(NO_NAME).to_string()),
            (Proved::Sender(sender), None) => Ok(sender.name.clone()),
            (Proved::Sender(sender), Some(own)) if sender.may_be(own) => Ok(own.to_string()),
            (Proved::Sender(sender), Some(own)) => {
                Err(SenderRefusal::OtherName { name: sender.name.clone(), other: own.to_string() })
            }
        }
    }
}

/// The owner of the token in these values of the header `Authorization`.
pub fn by_token<'h>(
    tokens: &Tokens,
    mut authorization: impl Iterator<Item = &'h [u8]>,
) -> Result<Arc<Sender>, SenderRefusal> {
    let (Some(value), None) = (authorization.next(), authorization.next()) else {
        return Err(SenderRefusal::NoToken);
    };
    let token = bearer(value).ok_or(SenderRefusal::NoToken)?;
    tokens.owner(token).ok_or(SenderRefusal::WrongToken)
}

/// The token of `Bearer TOKEN` (RFC 6750, 2.1). The scheme is case-insensitive (RFC 9110, 11.1).
fn bearer(value: &[u8]) -> Option<&[u8]> {
    const SCHEME: &[u8] = b"bearer ";
    let (scheme, token) = value.split_at_checked(SCHEME.len())?;
    let token = token.trim_ascii();
    (scheme.eq_ignore_ascii_case(SCHEME) && !token.is_empty()).then_some(token)
}

/// A sender identified by its certificate.
pub struct Certified {
    chain: ClientChain,
    sender: Option<Arc<Sender>>,
    tokens: Option<Arc<Reloaded<Tokens>>>,
}

impl Certified {
    pub fn new(chain: ClientChain, tokens: Option<Arc<Reloaded<Tokens>>>) -> Certified {
        let name = chain.name().map(|name| otlp::legal(&name));
        let sender = name.map(|name| Sender { name, others: Vec::new() });
        Certified { chain, sender: sender.map(Arc::new), tokens }
    }

    fn sender(&self) -> Result<Arc<Sender>, SenderRefusal> {
        if !self.chain.is_believed() {
            return Err(SenderRefusal::NotBelieved);
        }
        let sender = self.sender.as_ref().ok_or(SenderRefusal::Nameless)?;
        let with_others = self.tokens.as_ref().and_then(|tokens| tokens.now().certified(&sender.name));
        Ok(with_others.unwrap_or_else(|| sender.clone()))
    }
}

#[cfg(test)]
mod tests {
    use super::*;
    use crate::tls::tests::{certificate, folder, server, tls, Made};
    use crate::tls::WithoutCertificate;

    /// A client with a certificate of the trusted root.
    fn shown(subject: &str, names: Option<&str>) -> Certified {
        let at = folder();
        server(at.path());
        let tls = tls(at.path(), Some(WithoutCertificate::Refused));
        let made = Made { name: "c", subject, names, by: Some("ca"), ..Made::default() };
        let chain = vec![rustls::Certificate(certificate(at.path(), made))];
        Certified::new(ClientChain::new(chain, tls.contexts(), tls), None)
    }

    /// The digits are those of `printf spiffe://d/shop | sha256sum`.
    #[test]
    fn a_certificate_names_its_sender() {
        let uri = shown("/CN=x", Some("URI:spiffe://d/shop"));
        let name = "spiffe---d-shop.670deb13c283c1a0157c1bc0a623e9338a3f2cb6";
        assert_eq!(uri.sender().unwrap().name, name);
    }

    /// Whichever name it may post under.
    #[test]
    fn who_shows_a_certificate_has_proved_its_own_name() {
        let who = Who { by: By::Certificate(shown("/CN=x", Some("DNS:shop-1"))), peer: None };
        let sender = who.proved(std::iter::empty()).unwrap().sender();
        assert_eq!(sender.map(|sender| sender.name.clone()).as_deref(), Some("shop-1"));
        let who = Who { by: By::Believed(None), peer: None };
        assert!(who.proved(std::iter::empty()).unwrap().sender().is_none());
    }

    #[test]
    fn a_certificate_without_a_name_is_nobody_s() {
        assert_eq!(shown("/O=x", None).sender(), Err(SenderRefusal::Nameless));
    }
}
