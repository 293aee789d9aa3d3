//! One request a connection, by httparse.

use std::io::{Error, ErrorKind, Read, Result, Write};
use std::net::{Shutdown, TcpStream};
use std::time::{Duration, Instant};

use crate::serve::Answer;

const MAX_HEAD: usize = 16 * 1024;
const MAX_BODY: usize = 4 << 20;
const MAX_HEADERS: usize = 64;
const MAX_SIZE_LINE: usize = 1024;
const PIECE: usize = 16 * 1024;
/// What still comes behind a refusal is read so long, and so far, so that the answer reaches the sender.
const REST_TIME: Duration = Duration::from_secs(5);
const REST: usize = 64 << 20;

/// What is kept of a request's head.
pub trait Head: Sized {
    fn of(head: &httparse::Request) -> Self;
}

pub struct Request<H> {
    pub head: H,
    bytes: Vec<u8>,
    start: usize,
}

impl<H> Request<H> {
    pub fn body(&self) -> &[u8] {
        &self.bytes[self.start..]
    }
}

pub enum Fault {
    Malformed,
    TooLong,
}

enum Frame {
    Sized(usize),
    Chunked,
}

type Found<T> = std::result::Result<T, Fault>;

/// Reads a request, or what is wrong with it.
pub fn read<H: Head>(stream: &mut TcpStream) -> Result<Found<Request<H>>> {
    let mut bytes = Vec::with_capacity(PIECE);
    let (head, start, frame) = loop {
        need_more(stream, &mut bytes)?;
        match find_head(&bytes) {
            Ok(Some(found)) => break found,
            Ok(None) => continue,
            Err(fault) => return Ok(Err(fault)),
        }
    };
    match frame {
        Frame::Sized(length) if length > MAX_BODY => return Ok(Err(Fault::TooLong)),
        Frame::Sized(length) => {
            bytes.reserve((start + length).saturating_sub(bytes.len()));
            while bytes.len() < start + length {
                need_more(stream, &mut bytes)?;
            }
            bytes.truncate(start + length);
        }
        Frame::Chunked => match read_chunks(stream, bytes.split_off(start))? {
            Ok(body) => {
                return Ok(Ok(Request {
                    head,
                    bytes: body,
                    start: 0,
                }))
            }
            Err(fault) => return Ok(Err(fault)),
        },
    }
    Ok(Ok(Request { head, bytes, start }))
}

/// Reads a piece behind what there is; false at the end.
fn more(stream: &mut TcpStream, bytes: &mut Vec<u8>) -> Result<bool> {
    let mut piece = [0; PIECE];
    let count = stream.read(&mut piece)?;
    bytes.extend_from_slice(&piece[..count]);
    Ok(count > 0)
}

fn need_more(stream: &mut TcpStream, bytes: &mut Vec<u8>) -> Result<()> {
    if more(stream, bytes)? {
        Ok(())
    } else {
        Err(ErrorKind::UnexpectedEof.into())
    }
}

/// The head, where it ends, and how the body comes; none where the head has not ended.
fn find_head<H: Head>(bytes: &[u8]) -> Found<Option<(H, usize, Frame)>> {
    let mut headers = [httparse::EMPTY_HEADER; MAX_HEADERS];
    let mut parsed = httparse::Request::new(&mut headers);
    match parsed.parse(bytes) {
        Ok(httparse::Status::Complete(end)) if end <= MAX_HEAD => {
            let frame = frame(&parsed).ok_or(Fault::Malformed)?;
            Ok(Some((H::of(&parsed), end, frame)))
        }
        Ok(httparse::Status::Partial) if bytes.len() <= MAX_HEAD => Ok(None),
        _ => Err(Fault::Malformed),
    }
}

/// How the headers frame the body, where they do.
fn frame(head: &httparse::Request) -> Option<Frame> {
    let (mut length, mut is_chunked) = (None, false);
    for header in head.headers.iter() {
        if header.name.eq_ignore_ascii_case("content-length") {
            if length.replace(decimal(header.value)?).is_some() {
                return None;
            }
        } else if header.name.eq_ignore_ascii_case("transfer-encoding") {
            if is_chunked || head.version != Some(1) || !header.value.eq_ignore_ascii_case(b"chunked") {
                return None;
            }
            is_chunked = true;
        }
    }
    match (length, is_chunked) {
        (Some(_), true) => None,
        (None, true) => Some(Frame::Chunked),
        (length, false) => Some(Frame::Sized(length.unwrap_or(0))),
    }
}

/// A length in decimal digits; one that is too long for a number is too long for a body too.
fn decimal(digits: &[u8]) -> Option<usize> {
    if digits.is_empty() || !digits.iter().all(u8::is_ascii_digit) {
        return None;
    }
    let add = |sum: usize, digit: &u8| sum.saturating_mul(10).saturating_add(usize::from(digit - b'0'));
    Some(digits.iter().fold(0, add))
}

/// The body of a request that comes in chunks, whose first bytes are there.
fn read_chunks(stream: &mut TcpStream, mut bytes: Vec<u8>) -> Result<Found<Vec<u8>>> {
    let (mut body, mut at) = (Vec::new(), 0);
    loop {
        match httparse::parse_chunk_size(&bytes[at..]) {
            Ok(httparse::Status::Complete((line, size))) if line <= MAX_SIZE_LINE => {
                at += line;
                if size == 0 {
                    return Ok(end_of_chunks(stream, bytes, at)?.map(|()| body));
                }
                if size > (MAX_BODY - body.len()) as u64 {
                    return Ok(Err(Fault::TooLong));
                }
                let end = at + size as usize;
                while bytes.len() < end + 2 {
                    need_more(stream, &mut bytes)?;
                }
                if &bytes[end..end + 2] != b"\r\n" {
                    return Ok(Err(Fault::Malformed));
                }
                body.extend_from_slice(&bytes[at..end]);
                bytes.drain(..end + 2);
                at = 0;
            }
            Ok(httparse::Status::Partial) if bytes.len() - at <= MAX_SIZE_LINE => {
                need_more(stream, &mut bytes)?
            }
            _ => return Ok(Err(Fault::Malformed)),
        }
    }
}

/// Reads the trailers, which are ignored.
fn end_of_chunks(stream: &mut TcpStream, mut bytes: Vec<u8>, at: usize) -> Result<Found<()>> {
    loop {
        let mut headers = [httparse::EMPTY_HEADER; MAX_HEADERS];
        match httparse::parse_headers(&bytes[at..], &mut headers) {
            Ok(httparse::Status::Complete((end, _))) if end <= MAX_HEAD => return Ok(Ok(())),
            Ok(httparse::Status::Partial) if bytes.len() - at <= MAX_HEAD => need_more(stream, &mut bytes)?,
            _ => return Ok(Err(Fault::Malformed)),
        }
    }
}

/// Writes an answer at once. Behind a refusal the rest of the request is read, else the sender may not see it.
pub fn answer(stream: &mut TcpStream, answer: &Answer) -> Result<()> {
    let Answer {
        status,
        kind,
        allow,
        body,
    } = answer;
    let length = body.len();
    let text = format!(
        "HTTP/1.1 {status}\r\nContent-Type: {kind}\r\nContent-Length: {length}\r\n{allow}Connection: close\r\n\r\n{body}"
    );
    stream.write_all(text.as_bytes())?;
    if ["400", "413", "503"].contains(&&status[..3]) {
        throw_away(stream)?;
    }
    Ok(())
}

fn throw_away(stream: &mut TcpStream) -> Result<()> {
    stream.shutdown(Shutdown::Write)?;
    let (until, mut rest) = (Instant::now() + REST_TIME, REST);
    let mut piece = [0; PIECE];
    while let Some(left) = until
        .checked_duration_since(Instant::now())
        .filter(|left| !left.is_zero())
    {
        stream.set_read_timeout(Some(left))?;
        let count = stream.read(&mut piece)?;
        rest = rest.saturating_sub(count);
        if count == 0 || rest == 0 {
            break;
        }
    }
    Ok(())
}

/// Posts a body to the back end, and returns the status of its answer and its `Retry-After`.
pub fn post(address: &str, body: &[u8]) -> Result<(u16, Option<String>)> {
    let mut stream = TcpStream::connect(address)?;
    let head = format!(
        "POST /v1/metrics HTTP/1.1\r\nHost: {address}\r\nContent-Type: application/json\r\n\
         Content-Length: {}\r\nConnection: close\r\n\r\n",
        body.len()
    );
    stream.write_all(head.as_bytes())?;
    stream.write_all(body)?;
    let mut bytes = Vec::new();
    while more(&mut stream, &mut bytes)? {
        let mut headers = [httparse::EMPTY_HEADER; MAX_HEADERS];
        let mut response = httparse::Response::new(&mut headers);
        if let Ok(httparse::Status::Complete(_)) = response.parse(&bytes) {
            let found = response
                .headers
                .iter()
                .find(|header| header.name.eq_ignore_ascii_case("retry-after"));
            let seconds = found.and_then(|header| String::from_utf8(header.value.to_vec()).ok());
            return Ok((response.code.unwrap_or(0), seconds));
        }
    }
    Err(Error::from(ErrorKind::UnexpectedEof))
}
