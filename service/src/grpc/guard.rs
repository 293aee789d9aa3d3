//! Closes a connection that floods the service: with a headers block that is too long, or with too many frames that
//! cost the sender nothing. It sits between the socket and h2, which lacks these bounds in the release used here, and
//! looks only at the type and the length of each frame.
//!
//! - A ping for each received message is allowed: gRPC's client for Go measures the connection like this after each
//!   answer. So is one empty frame to end each call.
//! - Input that is no HTTP/2 is left to h2, except for two things at which it panics: a status in a request (`block`),
//!   and GOAWAY, which is hidden from it.
//! - For each frame that is wrong by itself h2 queues a reset, without a bound if the client does not read them
//!   (RUSTSEC-2024-0003). So after a number of frames nothing more is read until all answers are sent.

use super::block::Block;
use std::io::{Error, ErrorKind, IoSlice, Result};
use std::pin::Pin;
use std::task::{ready, Context, Poll, Waker};
use std::time::{Duration, Instant};
use tokio::io::{AsyncRead, AsyncWrite, ReadBuf};

/// The length of the client's connection preface.
const PREFACE: usize = 24;
/// The length of a frame header: length, type, flags, stream.
const HEAD: usize = 9;

/// The longest headers block, and the most frames it may have.
const BLOCK: usize = 64 << 10;
const BLOCK_FRAMES: usize = 16;

/// How many idle frames may come within this time.
const IDLE_FRAMES: usize = 1000;
const WITHIN: Duration = Duration::from_secs(10);

/// About how many frames are read before everything queued in answer is sent.
const UNANSWERED: usize = 1000;

const DATA: u8 = 0;
/// A flag of DATA. Some clients end a message with an empty frame: one for each call.
const END_STREAM: u8 = 1;
const HEADERS: u8 = 1;
const PUSH_PROMISE: u8 = 5;
const PING: u8 = 6;
/// GOAWAY: the client says that it accepts no more streams, of which it never gets any. h2 would cancel the calls after
/// the stream that the frame names, and miscounts those that it has not begun.
const GOAWAY: u8 = 7;
const WINDOW_UPDATE: u8 = 8;
const CONTINUATION: u8 = 9;
/// A frame type that does not exist; h2 ignores such frames.
const UNKNOWN: u8 = 0xff;
/// The index of the type in a frame header.
const KIND: usize = 3;

/// The state of the frames of a connection.
struct Frames {
    /// How many bytes to skip: of the preface, or of a frame after its header.
    passed_over: usize,
    head: [u8; HEAD],
    of_head: usize,
    block: Block,
    /// Whether the current frame belongs to the block.
    is_of_block: bool,
    /// How many frames have come since everything was sent.
    unanswered: usize,
    idle: usize,
    since: Instant,
    /// How many pings may come for messages received.
    pings: usize,
    /// How many empty frames may end calls that have begun.
    ends: usize,
}

impl Frames {
    fn new() -> Frames {
        Frames {
            passed_over: PREFACE,
            head: [0; HEAD],
            of_head: 0,
            block: Block::default(),
            is_of_block: false,
            unanswered: 0,
            idle: 0,
            since: Instant::now(),
            pings: 0,
            ends: 0,
        }
    }

    /// Whether the connection may continue after these bytes. Changes the type of GOAWAY frames in them.
    fn may_go_on(&mut self, mut bytes: &mut [u8]) -> bool {
        while !bytes.is_empty() {
            let passed_over = self.passed_over.min(bytes.len());
            self.passed_over -= passed_over;
            let (part, behind) = bytes.split_at_mut(passed_over);
            if self.is_of_block {
                self.block.put(part);
            }
            if self.passed_over == 0 && !self.frame_ends() {
                return false;
            }
            let (head, behind) = behind.split_at_mut((HEAD - self.of_head).min(behind.len()));
            self.head[self.of_head..self.of_head + head.len()].copy_from_slice(head);
            let kind = KIND.checked_sub(self.of_head).and_then(|place| head.get_mut(place));
            if let Some(kind) = kind.filter(|kind| **kind == GOAWAY) {
                *kind = UNKNOWN;
            }
            self.of_head += head.len();
            bytes = behind;
            if self.of_head == HEAD {
                self.of_head = 0;
                if !self.frame() {
                    return false;
                }
            }
        }
        // A frame that consists of its header alone ends here.
        self.passed_over > 0 || self.frame_ends()
    }

    /// At the end of a frame: whether h2 may read it.
    fn frame_ends(&mut self) -> bool {
        !std::mem::take(&mut self.is_of_block) || self.block.may_be_read()
    }

    fn frame(&mut self) -> bool {
        let [a, b, c, kind, flags, ..] = self.head;
        let length = u32::from_be_bytes([0, a, b, c]) as usize;
        self.passed_over = length;
        self.unanswered += 1;
        self.is_of_block = matches!(kind, HEADERS | CONTINUATION);
        match kind {
            HEADERS => {
                self.block.begins(flags);
                self.ends = IDLE_FRAMES.min(self.ends + 1);
            }
            CONTINUATION => self.block.goes_on(flags),
            DATA if length > 0 => self.pings = IDLE_FRAMES.min(self.pings + 1),
            DATA if flags & END_STREAM != 0 && self.ends > 0 => self.ends -= 1,
            PING if self.pings > 0 => self.pings -= 1,
            PUSH_PROMISE => return false, // no client may send it, and its headers would be in no `block`
            WINDOW_UPDATE => {}
            _ => {
                if self.since.elapsed() > WITHIN {
                    (self.idle, self.since) = (0, Instant::now());
                }
                self.idle += 1;
            }
        }
        let block = if self.is_of_block { self.block.length() + length } else { 0 };
        block <= BLOCK && self.block.frames() <= BLOCK_FRAMES && self.idle <= IDLE_FRAMES
    }
}

/// A connection whose frames are counted.
pub struct Guarded<S> {
    stream: S,
    frames: Frames,
    /// The task that reads again after everything is sent.
    reader: Option<Waker>,
}

impl<S> Guarded<S> {
    pub fn new(stream: S) -> Guarded<S> {
        Guarded { stream, frames: Frames::new(), reader: None }
    }
}

impl<S: AsyncRead + Unpin> AsyncRead for Guarded<S> {
    fn poll_read(
        mut self: Pin<&mut Self>,
        context: &mut Context<'_>,
        into: &mut ReadBuf<'_>,
    ) -> Poll<Result<()>> {
        if self.frames.unanswered >= UNANSWERED {
            self.reader = Some(context.waker().clone()); // woken by `poll_flush`
            return Poll::Pending;
        }
        let before = into.filled().len();
        ready!(Pin::new(&mut self.stream).poll_read(context, into))?;
        if !self.frames.may_go_on(&mut into.filled_mut()[before..]) {
            return Poll::Ready(Err(Error::new(
                ErrorKind::InvalidData,
                "the client sent HTTP/2 frames that no client may send",
            )));
        }
        Poll::Ready(Ok(()))
    }
}

impl<S: AsyncWrite + Unpin> AsyncWrite for Guarded<S> {
    fn poll_write(mut self: Pin<&mut Self>, context: &mut Context<'_>, from: &[u8]) -> Poll<Result<usize>> {
        Pin::new(&mut self.stream).poll_write(context, from)
    }

    fn poll_write_vectored(
        mut self: Pin<&mut Self>,
        context: &mut Context<'_>,
        from: &[IoSlice<'_>],
    ) -> Poll<Result<usize>> {
        Pin::new(&mut self.stream).poll_write_vectored(context, from)
    }

    fn is_write_vectored(&self) -> bool {
        self.stream.is_write_vectored()
    }

    fn poll_flush(mut self: Pin<&mut Self>, context: &mut Context<'_>) -> Poll<Result<()>> {
        ready!(Pin::new(&mut self.stream).poll_flush(context))?;
        self.frames.unanswered = 0;
        if let Some(reader) = self.reader.take() {
            reader.wake();
        }
        Poll::Ready(Ok(()))
    }

    fn poll_shutdown(mut self: Pin<&mut Self>, context: &mut Context<'_>) -> Poll<Result<()>> {
        Pin::new(&mut self.stream).poll_shutdown(context)
    }
}

#[cfg(test)]
mod tests {
    use super::*;

    fn frame(kind: u8, length: usize) -> Vec<u8> {
        let mut frame = (length as u32).to_be_bytes()[1..].to_vec();
        frame.extend([kind, 0, 0, 0, 0, 1]);
        frame.resize(HEAD + length, 0xff);
        frame
    }

    /// Whether a connection with these frames may continue, however its bytes are cut into parts.
    fn may_go_on(frames: &[Vec<u8>]) -> bool {
        let bytes = [vec![0; PREFACE], frames.concat()].concat();
        let (may_go_on, passed_on) = passed_on(&bytes, bytes.len());
        for part in [1, 7, 10, 1000] {
            let in_parts = self::passed_on(&bytes, part);
            assert_eq!(in_parts.0, may_go_on, "{part}");
            assert!(!may_go_on || in_parts.1 == passed_on, "{part}");
        }
        may_go_on
    }

    /// The same for bytes in parts of this length, and the bytes that h2 reads.
    fn passed_on(bytes: &[u8], part: usize) -> (bool, Vec<u8>) {
        let (mut counted, mut bytes) = (Frames::new(), bytes.to_vec());
        let may_go_on = bytes.chunks_mut(part).all(|part| counted.may_go_on(part));
        (may_go_on, bytes)
    }

    #[test]
    fn calls_go_on_and_floods_end() {
        let call = [frame(HEADERS, 100), frame(DATA, 500), frame(WINDOW_UPDATE, 4)].concat();
        assert!(may_go_on(&vec![call.clone(); 3000]));
        let (short, mut end) = ([frame(HEADERS, 30), frame(DATA, 5)].concat(), frame(DATA, 0));
        end[4] = END_STREAM;
        assert!(may_go_on(&vec![[&short[..], &end].concat(); 3000]));
        assert!(!may_go_on(&vec![[&short[..], &end, &end].concat(); IDLE_FRAMES + 1]));
        assert!(may_go_on(&[frame(HEADERS, 16384), frame(CONTINUATION, 16384)]));
        for (kind, length) in [(DATA, 0), (3, 4), (4, 0), (6, 8)] {
            assert!(may_go_on(&vec![frame(kind, length); IDLE_FRAMES]), "{kind}");
            assert!(!may_go_on(&vec![frame(kind, length); IDLE_FRAMES + 1]), "{kind}");
        }
        let with_pings = |pings: usize| [call.clone(), frame(PING, 8).repeat(pings)].concat();
        assert!(may_go_on(&vec![with_pings(1); 3000]));
        assert!(!may_go_on(&vec![with_pings(2); IDLE_FRAMES + 1]));
        let begun = [call.clone(), frame(3, 4)].concat();
        assert!(!may_go_on(&vec![begun; IDLE_FRAMES + 1]));
        let reset = [frame(HEADERS, 30), frame(3, 4)].concat();
        assert!(!may_go_on(&vec![reset; IDLE_FRAMES + 1]));
        let empty = vec![frame(CONTINUATION, 0); BLOCK_FRAMES];
        assert!(!may_go_on(&[vec![frame(HEADERS, 1)], empty].concat()));
        assert!(!may_go_on(&[frame(HEADERS, 16384), frame(CONTINUATION, 50_000)]));
    }

    /// Otherwise h2 would keep a reset for each frame of a client that does not read.
    #[tokio::test]
    async fn no_more_is_read_before_what_was_said_is_sent() {
        use tokio::io::{AsyncReadExt, AsyncWriteExt};
        let short = Duration::from_millis(200);
        let (mut client, stream) = tokio::io::duplex(1 << 20);
        let mut guarded = Guarded::new(stream);
        let flood = [vec![0; PREFACE], frame(HEADERS, 0).repeat(2 * UNANSWERED + 500)].concat();
        client.write_all(&flood).await.unwrap();
        let (mut all, mut part) = (0, [0; 100 * HEAD]);
        for round in 1..=2 {
            while let Ok(read) = tokio::time::timeout(short, guarded.read(&mut part)).await {
                all += read.unwrap();
            }
            let most = PREFACE + round * (UNANSWERED + 100) * HEAD;
            assert!(all >= round * UNANSWERED * HEAD && all <= most, "{round}: {all}");
            if round == 1 {
                guarded.flush().await.unwrap();
            }
        }
        let (mut reading, mut sending) = tokio::io::split(guarded);
        let more = tokio::spawn(async move { reading.read(&mut [0; HEAD]).await });
        tokio::time::sleep(short).await;
        assert!(!more.is_finished());
        sending.flush().await.unwrap();
        assert_eq!(tokio::time::timeout(short, more).await.unwrap().unwrap().unwrap(), HEAD);
    }

    const END_HEADERS: u8 = 4;

    fn headers(kind: u8, flags: u8, block: &[u8]) -> Vec<u8> {
        let mut bytes = frame(kind, block.len());
        bytes[4] = flags;
        bytes[HEAD..].copy_from_slice(block);
        bytes
    }

    #[test]
    fn headers_with_a_status_end_a_connection() {
        let (sound, status) = (&[0x83][..], &[0x48, 3, b'1', b'0', b'0'][..]);
        let whole = |block: &[u8]| headers(HEADERS, END_HEADERS, block);
        assert!(may_go_on(&[whole(sound), frame(DATA, 0x88), whole(sound)]));
        assert!(!may_go_on(&[whole(sound), whole(status)]));
        assert!(may_go_on(&[whole(b"")]));
        let second = |block: &[u8]| [headers(HEADERS, 0, sound), headers(CONTINUATION, END_HEADERS, block)];
        assert!(may_go_on(&second(sound)) && may_go_on(&second(b"")) && !may_go_on(&second(status)));
        assert!(!may_go_on(&[frame(PUSH_PROMISE, 8)]));
    }

    #[test]
    fn the_library_is_not_told_that_a_client_goes_away() {
        let bytes = [vec![0; PREFACE], frame(PING, 8), frame(GOAWAY, 8), frame(PING, 8)].concat();
        for part in [1, 2, 3, 4, 5, bytes.len()] {
            let wanted = [vec![0; PREFACE], frame(PING, 8), frame(UNKNOWN, 8), frame(PING, 8)].concat();
            assert_eq!(passed_on(&bytes, part), (true, wanted), "{part}");
        }
        assert!(!may_go_on(&vec![frame(GOAWAY, 8); IDLE_FRAMES + 1]));
    }
}
