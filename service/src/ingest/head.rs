//! Parses the head of a request: how its body is framed, encoded and packed, who sends it, and whether the connection
//! stays open. `front` calls it. A head that a proxy could read in another way is refused.

use super::refusal::{Refusal, RejectedRequest};
use super::sender::{sender, Poster};
use super::wire::{Body, HEADERS, READ_AHEAD};
use crate::identity::Who;
use crate::otlp::Encoding;
use httparse::{Header, Request, Status};
use std::mem::MaybeUninit;

/// How a body is packed.
#[derive(Clone, Copy, Debug, PartialEq, Eq)]
pub enum Packing {
    Plain,
    Gzip,
    /// RFC 8878.
    Zstd,
}

/// The head of a post that may have a body.
#[derive(Debug, PartialEq, Eq)]
pub struct Head {
    pub sender: Poster,
    pub encoding: Encoding,
    pub packing: Packing,
}

/// What the head of a request says.
#[derive(Debug)]
pub struct Asked {
    pub head: Result<Head, RejectedRequest>,
    /// The encoding of the answer.
    pub encoding: Encoding,
    pub body: Body,
    /// The sender waits for `100 Continue`.
    pub waits: bool,
    /// Its method is HEAD: an answer has no body.
    pub wants_head: bool,
    pub connection: Connection,
}

/// Whether the connection stays open after the request.
#[derive(Clone, Copy, Debug, PartialEq, Eq)]
pub enum Connection {
    Kept,
    /// Kept, and the answer has to say so: HTTP/1.0.
    KeptIfSaid,
    Closed,
}

/// Parses the head at the beginning of `input`: its length and what it says; none if it is not whole yet. `who` is the
/// peer of the connection.
pub fn read(input: &[u8], who: &Who) -> Result<Option<(usize, Asked)>, Refusal> {
    let mut headers = [const { MaybeUninit::uninit() }; HEADERS];
    let mut request = Request::new(&mut []);
    let end = match request.parse_with_uninit_headers(input, &mut headers) {
        Ok(Status::Complete(end)) if end <= READ_AHEAD => end,
        Ok(Status::Partial) if input.len() < READ_AHEAD => return Ok(None),
        Ok(_) | Err(httparse::Error::TooManyHeaders) => return Err(Refusal::HeadTooLong),
        Err(_) => return Err(Refusal::Malformed),
    };
    let is_old = request.version == Some(0);
    // Without a host, or with two, the target of the request is ambiguous: a server has to refuse it (RFC 9112, 3.2).
    if !is_old && named(request.headers, "host").count() != 1 {
        return Err(Refusal::Malformed);
    }
    let head = Head::read(&request, who);
    let mut expects = named(request.headers, "expect");
    let asked = Asked {
        encoding: match &head {
            Ok(head) => head.encoding,
            Err(_) => encoding(request.headers).unwrap_or(Encoding::Json),
        },
        head,
        body: framing(request.headers, is_old)?,
        waits: !is_old && expects.any(|value| value.eq_ignore_ascii_case(b"100-continue")),
        wants_head: request.method == Some("HEAD"),
        connection: connection(request.headers, is_old),
    };
    Ok(Some((end, asked)))
}

impl Head {
    /// Checks the head in this order: host, path, method, sender, content.
    fn read(request: &Request, who: &Who) -> Result<Head, RejectedRequest> {
        let target = request.path.filter(|target| !target.starts_with('/'));
        let target = target.and_then(|target| target.parse::<hyper::Uri>().ok());
        let named_twice = target.as_ref().and_then(|target| Some(target.authority()?.as_str().as_bytes()));
        let looked = who.check_hosts(named(request.headers, "host").chain(named_twice));
        looked.map_err(|stranger| RejectedRequest { sender: who.unnamed(), refusal: stranger.into() })?;
        if !request.path.is_some_and(is_of_metrics) {
            return Err(RejectedRequest { sender: who.unnamed(), refusal: Refusal::NoSuchPath });
        }
        if request.method != Some("POST") {
            return Err(RejectedRequest { sender: who.unnamed(), refusal: Refusal::WrongMethod });
        }
        let of = |name| named(request.headers, name);
        let sender = sender(who, of("authorization"), of("x-sender"))?;
        match content(request.headers) {
            Err(refusal) => Err(RejectedRequest { sender: sender.name, refusal }),
            Ok((encoding, packing)) => Ok(Head { sender, encoding, packing }),
        }
    }
}

/// The encoding and packing of the body. A request without a length is refused: its body would be empty, an empty
/// protobuf body is a valid request without points, and so whatever the sender meant to send would be lost.
fn content(headers: &[Header]) -> Result<(Encoding, Packing), Refusal> {
    let encoding = encoding(headers).ok_or(Refusal::ContentType)?;
    let packing = packing(headers)?;
    let mut says = named(headers, "content-length").chain(named(headers, "transfer-encoding"));
    says.next().map(|_| (encoding, packing)).ok_or(Refusal::NoLength)
}

/// Whether a request target has the path of metrics, in origin or absolute form, with or without a query.
fn is_of_metrics(target: &str) -> bool {
    const PATH: &str = "/v1/metrics";
    match target.strip_prefix(PATH) {
        Some(rest) => rest.is_empty() || rest.starts_with(['?', '#']),
        None if target.starts_with('/') => false,
        None => target.parse::<hyper::Uri>().is_ok_and(|uri| uri.path() == PATH),
    }
}

fn named<'a>(headers: &'a [Header<'a>], name: &'a str) -> impl Iterator<Item = &'a [u8]> + 'a {
    let found = headers.iter().filter(move |header| header.name.eq_ignore_ascii_case(name));
    found.map(|header| header.value)
}

/// The tokens of a list that may span several headers; empty ones are skipped (RFC 9110, 5.6.1.2). A value that is not
/// UTF-8 matches no token.
fn words<'a>(headers: &'a [Header<'a>], name: &'a str) -> impl Iterator<Item = &'a str> + 'a {
    named(headers, name).flat_map(|value| {
        std::str::from_utf8(value).unwrap_or("?").split(',').map(str::trim).filter(|word| !word.is_empty())
    })
}

/// The framing of the body. Ambiguous framing is refused: a proxy may have read it in the other way (request
/// smuggling).
fn framing(headers: &[Header], is_old: bool) -> Result<Body, Refusal> {
    let mut coding = named(headers, "transfer-encoding");
    let mut lengths = named(headers, "content-length");
    match (coding.next(), lengths.next()) {
        (None, None) => Ok(Body::Length(0)),
        (None, Some(first)) if lengths.all(|other| other == first) => Ok(Body::Length(length(first)?)),
        (Some(only), None) if !is_old && coding.next().is_none() && only.eq_ignore_ascii_case(b"chunked") => {
            Ok(Body::Line)
        }
        _ => Err(Refusal::Malformed),
    }
}

fn length(value: &[u8]) -> Result<u64, Refusal> {
    let text = std::str::from_utf8(value).ok();
    let digits = text.filter(|text| text.bytes().all(|byte| byte.is_ascii_digit()));
    digits.and_then(|text| text.parse().ok()).ok_or(Refusal::Malformed)
}

fn connection(headers: &[Header], is_old: bool) -> Connection {
    let mut connection = match is_old {
        true => Connection::Closed,
        false => Connection::Kept,
    };
    for word in words(headers, "connection") {
        if word.eq_ignore_ascii_case("close") {
            return Connection::Closed;
        }
        if is_old && word.eq_ignore_ascii_case("keep-alive") {
            connection = Connection::KeptIfSaid;
        }
    }
    connection
}

/// The encoding that the content type names. Parameters after a `;` are ignored; most requests have none, so the whole
/// value is compared first.
fn encoding(headers: &[Header]) -> Option<Encoding> {
    let whole = std::str::from_utf8(named(headers, "content-type").next()?).ok()?;
    encoding_of(whole).or_else(|| encoding_of(whole.split(';').next()?.trim_matches([' ', '\t'])))
}

fn encoding_of(kind: &str) -> Option<Encoding> {
    let is_so = |encoding: &Encoding| kind.eq_ignore_ascii_case(encoding.media_type());
    [Encoding::Json, Encoding::Protobuf].into_iter().find(is_so)
}

/// The packing that `Content-Encoding` or `grpc-encoding` names. `x-gzip` is gzip (RFC 9110, 8.4.1.3).
pub fn named_packing(coding: &[u8]) -> Option<Packing> {
    const NAMES: [(&[u8], Packing); 4] = [
        (b"identity", Packing::Plain),
        (b"gzip", Packing::Gzip),
        (b"x-gzip", Packing::Gzip),
        (b"zstd", Packing::Zstd),
    ];
    NAMES.iter().find(|(name, _)| coding.eq_ignore_ascii_case(name)).map(|(_, packing)| *packing)
}

/// The packing of a body, which may be packed once at most.
fn packing(headers: &[Header]) -> Result<Packing, Refusal> {
    let mut found = Packing::Plain;
    for coding in words(headers, "content-encoding") {
        match (found, named_packing(coding.as_bytes())) {
            (_, Some(Packing::Plain)) => {}
            (Packing::Plain, Some(packing)) => found = packing,
            _ => return Err(Refusal::ContentEncoding),
        }
    }
    Ok(found)
}

#[cfg(test)]
mod tests;
