//! The HTTP/1.1 framing of a sender's connection: reads heads and bodies (by length or in chunks) and sends answers.
//! `front` owns one for each connection. Ambiguous framing is refused, since a proxy may have read it in another way.

use super::refusal::Refusal;
use crate::work::within;
use bytes::{Buf, Bytes, BytesMut};
use std::future::{poll_fn, Future};
use std::io;
use std::pin::pin;
use std::task::Poll;
use std::time::Duration;
use tokio::io::{AsyncRead, AsyncReadExt, AsyncWrite, AsyncWriteExt};

/// The longest head. A body up to this length is read into one piece.
pub const READ_AHEAD: usize = 64 << 10;
/// How much is read at a time: more than most requests have.
const AT_ONCE: usize = 8 << 10;
const LEAST: usize = 1 << 10;
/// More than most heads have.
const HEAD: usize = 512;
/// The most buffer memory of an answer that is kept for the next one.
const KEPT: usize = 16 << 10;
/// How long the size line of a chunk may be.
const CHUNK_LINE: usize = 4 << 10;
pub const HEADERS: usize = 100;
/// How long closing may take: TLS first sends what it has buffered, and a client that does not read may never take it.
const TO_END: Duration = Duration::from_secs(1);

/// The framing of a body, and what is still to come of it.
#[derive(Clone, Copy, Debug, PartialEq, Eq)]
pub enum Body {
    /// So many more bytes.
    Length(u64),
    /// The size line of the next chunk.
    Line,
    Chunk(u64),
    BehindChunk,
    Trailers,
    Whole,
}

/// A connection with the input that was received and not consumed yet.
pub struct Wire<S> {
    stream: S,
    pub input: BytesMut,
    /// About the length of the last request. The buffer has room for as much, so that one read gets the next request.
    expected: usize,
    body: Body,
    /// The sender waits for `100 Continue`.
    waits: bool,
    output: Vec<u8>,
}

impl<S: AsyncRead + AsyncWrite + Unpin> Wire<S> {
    pub fn new(stream: S) -> Wire<S> {
        Wire {
            stream,
            input: BytesMut::new(),
            expected: LEAST,
            body: Body::Whole,
            waits: false,
            output: Vec::new(),
        }
    }

    /// Reads what is available and returns how many bytes it read, 0 at the end of the stream.
    pub async fn fill(&mut self) -> io::Result<usize> {
        let missing = match self.body {
            Body::Length(left) | Body::Chunk(left) => short(left).saturating_sub(self.input.len()),
            _ => self.expected.saturating_sub(self.input.len()),
        };
        if self.input.capacity() - self.input.len() < missing.max(LEAST) {
            self.input.reserve(missing.max(AT_ONCE));
        }
        self.stream.read_buf(&mut self.input).await
    }

    /// Begins to read the body after a head.
    pub fn body_begins(&mut self, body: Body, waits: bool) {
        self.body = match body {
            Body::Length(0) => Body::Whole,
            other => other,
        };
        if let Body::Length(length) = body {
            self.expected = short(length) + HEAD;
        }
        self.waits = waits && self.body != Body::Whole;
    }

    /// Whether the body has been read to its end.
    pub fn is_whole(&self) -> bool {
        self.body == Body::Whole
    }

    /// Whether the sender waits for `100 Continue` and has sent none of the body.
    pub fn is_not_called_for(&self) -> bool {
        self.waits && self.input.is_empty()
    }

    /// How many bytes of the body are still to come at least.
    pub fn announced(&self) -> u64 {
        match self.body {
            Body::Length(left) => left,
            _ => 0,
        }
    }

    /// The whole body, if all of it has been received in one piece.
    pub fn whole_body(&mut self) -> Option<Bytes> {
        match self.body {
            Body::Whole => Some(Bytes::new()),
            Body::Length(left) if left <= READ_AHEAD as u64 && self.input.len() as u64 >= left => {
                self.body = Body::Whole;
                Some(self.input.split_to(left as usize).freeze())
            }
            _ => None,
        }
    }

    /// The next part of the body, or none after its end.
    pub async fn part(&mut self) -> Result<Option<Bytes>, Refusal> {
        if self.is_not_called_for() {
            self.send(b"HTTP/1.1 100 Continue\r\n\r\n").await?;
        }
        self.waits = false;
        loop {
            match self.body {
                Body::Whole => return Ok(None),
                Body::Length(left) => return self.piece(left, Body::Length, Body::Whole).await.map(Some),
                Body::Chunk(left) => return self.piece(left, Body::Chunk, Body::BehindChunk).await.map(Some),
                Body::Line | Body::BehindChunk | Body::Trailers => self.between_chunks().await?,
            }
        }
    }

    /// The next piece of data whose length is known. Up to `READ_AHEAD` bytes it is one piece.
    async fn piece(&mut self, left: u64, rest: impl Fn(u64) -> Body, end: Body) -> Result<Bytes, Refusal> {
        let wanted = short(left);
        while self.input.len() < wanted {
            self.some_more().await?;
        }
        let piece = self.input.split_to(wanted.max(self.input.len().min(left as usize)));
        self.body = match left - piece.len() as u64 {
            0 => end,
            left => rest(left),
        };
        Ok(piece.freeze())
    }

    /// Parses what stands between two chunks or after the last one.
    async fn between_chunks(&mut self) -> Result<(), Refusal> {
        let mut trailers = [httparse::EMPTY_HEADER; HEADERS];
        let (used, next) = match self.body {
            Body::Line => match httparse::parse_chunk_size(&self.input) {
                Ok(httparse::Status::Complete((used, _))) if !is_size_line(&self.input[..used]) => {
                    return Err(Refusal::Malformed)
                }
                Ok(httparse::Status::Complete((used, 0))) => (used, Body::Trailers),
                Ok(httparse::Status::Complete((used, length))) => (used, Body::Chunk(length)),
                Ok(httparse::Status::Partial) if self.input.len() < CHUNK_LINE => (0, Body::Line),
                _ => return Err(Refusal::Malformed),
            },
            Body::BehindChunk => match &self.input[..] {
                [b'\r', b'\n', ..] => (2, Body::Line),
                [] | [b'\r'] => (0, Body::BehindChunk),
                _ => return Err(Refusal::Malformed),
            },
            _ => match httparse::parse_headers(&self.input, &mut trailers) {
                Ok(httparse::Status::Complete((used, _))) => (used, Body::Whole),
                Ok(httparse::Status::Partial) if self.input.len() < READ_AHEAD => (0, Body::Trailers),
                _ => return Err(Refusal::Malformed),
            },
        };
        if used == 0 {
            return self.some_more().await;
        }
        self.input.advance(used);
        self.body = next;
        Ok(())
    }

    async fn some_more(&mut self) -> Result<(), Refusal> {
        match self.fill().await? {
            0 => Err(Refusal::Gone),
            _ => Ok(()),
        }
    }

    pub async fn send(&mut self, bytes: &[u8]) -> io::Result<()> {
        self.stream.write_all(bytes).await?;
        self.stream.flush().await // TLS may have buffered a part of it
    }

    /// Sends an answer, which `write` appends to the buffer, with one write.
    pub async fn answer(&mut self, write: impl FnOnce(&mut Vec<u8>)) -> io::Result<()> {
        self.output.clear();
        write(&mut self.output);
        self.stream.write_all(&self.output).await?;
        self.stream.flush().await?; // TLS may have buffered a part of it
        self.output.shrink_to(KEPT);
        Ok(())
    }

    /// Shuts the connection down and discards what has come: closing with unread bytes resets the connection, and the
    /// sender may lose the answer.
    pub async fn end(mut self) {
        let _ = within(TO_END, self.stream.shutdown()).await; // the client may be gone already
        self.input.clear();
        self.input.reserve(READ_AHEAD);
        let mut reading = pin!(self.stream.read_buf(&mut self.input));
        poll_fn(|context| Poll::Ready(reading.as_mut().poll(context).is_ready())).await;
    }
}

/// The length of the next piece if so many bytes are left.
fn short(left: u64) -> usize {
    left.min(READ_AHEAD as u64) as usize
}

/// Whether the text before a chunk is one line that begins with a digit. `httparse` reads a line without digits as 0,
/// which would end the body.
fn is_size_line(line: &[u8]) -> bool {
    let has_digit = line.first().is_some_and(u8::is_ascii_hexdigit);
    has_digit && line.iter().filter(|byte| **byte == b'\n').count() == 1
}

impl From<io::Error> for Refusal {
    /// If the connection fails within a request, the sender is gone.
    fn from(_: io::Error) -> Refusal {
        Refusal::Gone
    }
}

#[cfg(test)]
mod tests {
    use super::*;
    use tokio::io::{duplex, BufStream};

    /// A TLS stream buffers what the socket had no room for, and so does this one.
    #[tokio::test]
    async fn what_is_sent_does_not_stay_in_the_stream() {
        let (mut sender, stream) = duplex(1024);
        let mut wire = Wire::new(BufStream::new(stream));
        let mut read = [0; 4];
        wire.send(b"wait").await.unwrap();
        let reading = tokio::time::timeout(Duration::from_secs(5), sender.read_exact(&mut read));
        assert!(reading.await.is_ok());
        wire.answer(|out| out.extend_from_slice(b"done")).await.unwrap();
        let reading = tokio::time::timeout(Duration::from_secs(5), sender.read_exact(&mut read));
        assert!(reading.await.is_ok() && &read == b"done");
    }
}
