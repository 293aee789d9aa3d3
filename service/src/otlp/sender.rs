//! `--sender-from`: the name of a sender out of its resource, where it does not name itself.

use super::request::{Node, Request};
use super::schema::{ANY_VALUE, ATTRIBUTES, KEY, RESOURCES, RESOURCE_OF, STRING_VALUE, VALUE};
use super::{refusal, Encoding, Reading, Refused};
use crate::shard::is_sender;
use sha2::{Digest, Sha256};
use std::borrow::Cow;

/// The name of who has none.
pub const NO_NAME: &str = "-";

/// Of a value that is no name: how much of it is kept, and how many digits of its digest stand behind.
const KEPT: usize = 23;
const DIGITS: usize = 40;

/// What a resource has of the attribute.
#[derive(Clone, Debug, PartialEq, Eq)]
enum ResourceName<'d> {
    Name(Cow<'d, str>),
    Nothing,
    /// It is no text, or an empty one.
    NoText,
}

/// The sender of a request: as its header names it, else as its resources do, else nobody. One request has one
/// sender, since one answer can't say which of several is to repeat.
pub fn sender(header: String, encoding: Encoding, body: &[u8], reading: &Reading) -> Result<String, Refused> {
    let Some(attribute) = reading.sender_from.as_deref().filter(|_| header == NO_NAME) else {
        return Ok(header);
    };
    let request = Request::of(encoding, body)?;
    let (mut first, mut is_read) = (None, false);
    for found in names(request.root(), attribute).into_iter().flatten() {
        let found = match found {
            Ok(found) => found,
            // As who reads all of it refuses it, which is looked for once.
            Err(found) if std::mem::replace(&mut is_read, true) => found,
            Err(found) => refusal(encoding, body, reading).map_or(Ok(found), Err)?,
        };
        let other = first.get_or_insert_with(|| found.clone());
        let why = match found {
            ResourceName::NoText => format!("the resource's {attribute} is no text"),
            found if found != *other => format!(
                "the request has resources of more than one {attribute}: name the sender by the header x-sender"
            ),
            _ => continue,
        };
        return Err(Refused::NoSender(why));
    }
    Ok(match first {
        Some(ResourceName::Name(name)) => legal(&name),
        _ => header,
    })
}

/// The value itself where it is a sender's name, else a name of its own: the value's beginning and its digest. A value
/// that looks like such a name is given another, so no two values have one name.
pub fn legal(value: &str) -> String {
    if is_sender(value) && !is_made(value) && value != NO_NAME {
        return value.to_string();
    }
    let kept = value.bytes().take(KEPT).map(|byte| match byte {
        byte if byte.is_ascii_alphanumeric() || b"._-".contains(&byte) => char::from(byte),
        _ => '-',
    });
    let digits = format!("{:x}", Sha256::digest(value.as_bytes()));
    format!("{}.{}", kept.collect::<String>(), &digits[..DIGITS])
}

fn is_made(name: &str) -> bool {
    let is_digit = |byte: u8| byte.is_ascii_digit() || (b'a'..=b'f').contains(&byte);
    let digits = name.rsplit_once('.').map_or("", |parts| parts.1);
    digits.len() == DIGITS && digits.bytes().all(is_digit)
}

/// What each resource has of the attribute: an error if that can't be read, and what it is then if the request is
/// read all the same. None of a request that can't be read.
fn names<'d>(
    root: Node<'d>,
    attribute: &'d str,
) -> Option<impl Iterator<Item = Result<ResourceName<'d>, ResourceName<'d>>>> {
    Some(root.all(RESOURCES)?.map(move |element| match pair_of(element, attribute) {
        None => Err(ResourceName::Nothing),
        Some(None) => Ok(ResourceName::Nothing),
        Some(Some(pair)) => name(pair).ok_or(ResourceName::NoText),
    }))
}

/// The first attribute of this key that a resource has; none if they can't be read.
fn pair_of<'d>(element: Node<'d>, attribute: &str) -> Option<Option<Node<'d>>> {
    for resource in element.all(RESOURCE_OF)? {
        for pair in resource.all(ATTRIBUTES)? {
            if pair.bytes(KEY)? == attribute.as_bytes() {
                return Some(Some(pair));
            }
        }
    }
    Some(None)
}

/// The text that an attribute's value is; none if it can't be read.
fn name(pair: Node<'_>) -> Option<ResourceName<'_>> {
    let mut text = None;
    for part in pair.all(VALUE)? {
        text = part.last_text(&ANY_VALUE, STRING_VALUE, text)?;
    }
    Some(match text {
        Some(text) if !text.is_empty() => ResourceName::Name(text),
        _ => ResourceName::NoText,
    })
}

#[cfg(test)]
mod tests;
