//! Determines the sender of a request from its certificate or token and its header `x-sender`. `head` and `grpc` call
//! it. A stranger is refused before anything else of its request is looked at.

use super::refusal::{Refusal, RejectedRequest};
use crate::identity::{Sender, Who};
use crate::shard::is_sender;
use std::sync::Arc;

/// The sender of a request.
#[derive(Debug, PartialEq, Eq)]
pub struct Poster {
    /// The name under which it posts.
    pub name: String,
    /// Its identity by certificate or token; none if it proved nothing.
    pub proved: Option<Arc<Sender>>,
}

/// Determines the sender by the values of the headers `authorization` and `x-sender`.
pub fn sender<'h>(
    who: &Who,
    authorization: impl Iterator<Item = &'h [u8]>,
    mut names: impl Iterator<Item = &'h [u8]>,
) -> Result<Poster, RejectedRequest> {
    let proved = who.proved(authorization);
    let proved =
        proved.map_err(|stranger| RejectedRequest { sender: who.unnamed(), refusal: stranger.into() })?;
    let of_proved = |refusal| RejectedRequest { sender: proved.known().into(), refusal };
    let own = match (names.next(), names.next()) {
        (None, _) => None,
        (Some(name), None) => Some(legal(name).ok_or_else(|| of_proved(Refusal::BadSender))?),
        (Some(_), Some(_)) => return Err(of_proved(Refusal::BadSender)),
    };
    let name = proved.name(own).map_err(|stranger| of_proved(who.without_token(stranger).into()))?;
    Ok(Poster { name, proved: proved.sender() })
}

fn legal(name: &[u8]) -> Option<&str> {
    std::str::from_utf8(name).ok().filter(|name| is_sender(name))
}

/// A sender that proved nothing.
#[cfg(test)]
impl From<&str> for Poster {
    fn from(name: &str) -> Poster {
        Poster { name: name.into(), proved: None }
    }
}
