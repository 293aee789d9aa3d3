//! Receives the body of a post within its time, and unpacks it within its length and the memory budget. `Ingest` calls
//! it for HTTP; bodies from gRPC are only unpacked here.

use super::arrival::Arrival;
use super::head::Packing;
use super::refusal::Refusal;
use super::weight::MemoryHold;
use super::wire::Wire;
use super::zstd;
use bytes::Bytes;
use flate2::bufread::GzDecoder;
use std::io::Read;
use std::time::Duration;
use tokio::io::{AsyncRead, AsyncWrite};

/// The most bytes of a body, packed and unpacked: the most that the book reads.
pub const MOST: usize = 4 << 20;

/// How long, and how many bytes, the service goes on reading a refused request so that the sender can read its answer.
pub const LEFT_TIME: Duration = Duration::from_secs(5);
pub const LEFT_BYTES: usize = 64 << 20;

/// Receives a body. If its announced length is too long, it is refused before any of it is read.
pub async fn receive<S: AsyncRead + AsyncWrite + Unpin>(
    wire: &mut Wire<S>,
    hold: &mut MemoryHold,
) -> Result<Bytes, Refusal> {
    if wire.announced() > MOST as u64 {
        return Err(Refusal::TooLong);
    }
    let mut arrival = Arrival::of(hold);
    let Some(first) = next(wire, 0, &mut arrival).await? else {
        return Ok(Bytes::new());
    };
    if wire.is_whole() {
        return Ok(first); // most bodies are one piece, which is not copied
    }
    let mut whole = Vec::from(first);
    while let Some(part) = next(wire, whole.len(), &mut arrival).await? {
        whole.extend_from_slice(&part);
    }
    Ok(whole.into())
}

/// The next part of the body, after `have` bytes.
async fn next<S: AsyncRead + AsyncWrite + Unpin>(
    wire: &mut Wire<S>,
    have: usize,
    arrival: &mut Arrival<'_>,
) -> Result<Option<Bytes>, Refusal> {
    let Some(part) = arrival.next(wire.part()).await?? else {
        return Ok(None);
    };
    if have + part.len() > MOST {
        return Err(Refusal::TooLong);
    }
    arrival.has(have + part.len())?;
    Ok(Some(part))
}

/// Reads the rest of a refused request and discards it: closing a connection with unread bytes resets it, and the
/// sender may lose the answer.
pub async fn throw_away<S: AsyncRead + AsyncWrite + Unpin>(wire: &mut Wire<S>) {
    let reading = async {
        let mut thrown = 0;
        while thrown <= LEFT_BYTES {
            let Ok(Some(part)) = wire.part().await else { return };
            thrown += part.len();
        }
    };
    let _ = tokio::time::timeout(LEFT_TIME, reading).await; // a slower sender may lose the answer
}

/// How many gzip members a body may have (RFC 1952, 2.2). Each costs some microseconds, even an empty one. The longest
/// body packed in members of 64 KiB has 65.
pub const MAX_MEMBERS: usize = 100;

/// The first bytes of gzip data. Neither JSON nor a protobuf request begins with them.
const GZIP: &[u8] = &[0x1f, 0x8b];

/// Unpacks a body. Unpacking stops as soon as the body exceeds `most`, so a bomb takes no more memory than a body of
/// that length. Gzip is unpacked twice if needed, because Python's gRPC (1.51) packs some messages twice.
pub fn unpack(packed: Bytes, packing: Packing, most: usize, hold: &mut MemoryHold) -> Result<Bytes, Refusal> {
    match packing {
        Packing::Plain => Ok(packed),
        Packing::Gzip => match unpacked(&packed, gunzip, 0, most, hold)? {
            packed if packed.starts_with(GZIP) => unpacked(&packed, gunzip, 0, most, hold),
            plain => Ok(plain),
        },
        Packing::Zstd => unpacked(&packed, unzstd, 1 << zstd::WINDOW_LOG, most, hold),
    }
}

/// Unpacks by `unpack`, while `beside` bytes more are reserved for the decoder.
fn unpacked(
    packed: &[u8],
    unpack: fn(&[u8], usize) -> Result<Vec<u8>, Refusal>,
    beside: usize,
    most: usize,
    hold: &mut MemoryHold,
) -> Result<Bytes, Refusal> {
    hold.set(2 * packed.len() + most + beside)?;
    let plain = unpack(packed, most)?;
    hold.set(plain.capacity())?;
    Ok(plain.into())
}

fn room_for(packed: &[u8], most: usize) -> Vec<u8> {
    Vec::with_capacity((4 * packed.len()).clamp(1024, most))
}

fn gunzip(mut packed: &[u8], most: usize) -> Result<Vec<u8>, Refusal> {
    let mut plain = room_for(packed, most);
    for _ in 0..MAX_MEMBERS {
        read_up_to(most, &mut GzDecoder::new(&mut packed), &mut plain, || Refusal::BadGzip)?;
        if packed.is_empty() {
            return Ok(plain);
        }
    }
    Err(Refusal::TooManyMembers)
}

/// Unpacks all frames of a body.
fn unzstd(packed: &[u8], most: usize) -> Result<Vec<u8>, Refusal> {
    let mut reader = zstd::Decoder::new(packed).ok_or(Refusal::NoMemory)?;
    let mut plain = room_for(packed, most);
    read_up_to(most, &mut reader, &mut plain, || Refusal::BadZstd)?;
    Ok(plain)
}

/// Appends all that `reader` yields to `plain`, up to `most` bytes in all.
fn read_up_to(
    most: usize,
    reader: &mut impl Read,
    plain: &mut Vec<u8>,
    bad: fn() -> Refusal,
) -> Result<(), Refusal> {
    loop {
        let room = plain.capacity().min(most) - plain.len();
        let mut part = reader.take(room as u64);
        let read = part.read_to_end(plain).map_err(|_| bad())?;
        if read < room {
            return Ok(());
        }
        if plain.len() == most {
            break;
        }
        plain.reserve_exact(plain.capacity().min(most - plain.len()));
    }
    match reader.read(&mut [0]) {
        Ok(0) => Ok(()),
        Ok(_) => Err(Refusal::TooLong),
        Err(_) => Err(bad()),
    }
}

#[cfg(test)]
pub(super) mod tests {
    use super::super::weight::Budget;
    use super::super::wire::Body as Framing;
    use super::*;
    use flate2::{write::GzEncoder, Compression};
    use std::io::Write;
    use tokio::io::AsyncWriteExt;

    pub fn gzip(plain: &[u8]) -> Bytes {
        let mut packer = GzEncoder::new(Vec::new(), Compression::best());
        packer.write_all(plain).unwrap();
        packer.finish().unwrap().into()
    }

    pub fn zstd(plain: &[u8]) -> Bytes {
        zstd::tests::packed(plain).into()
    }

    fn read_packed(packing: Packing, packed: Bytes, most: usize) -> Result<Bytes, u16> {
        unpack(packed, packing, MOST, &mut Budget::new(most).hold())
            .map_err(|refusal| refusal.reason().status())
    }

    fn read(packed: Bytes, most: usize) -> Result<Bytes, u16> {
        read_packed(Packing::Gzip, packed, most)
    }

    fn read_zstd(packed: impl Into<Bytes>) -> Result<Bytes, u16> {
        read_packed(Packing::Zstd, packed.into(), 64 << 20)
    }

    #[test]
    fn a_packed_body_is_read_up_to_the_limit() {
        let longest = vec![b'a'; MOST];
        assert_eq!(read_zstd(zstd(&longest)), Ok(Bytes::from(longest.clone())));
        assert_eq!(read_zstd(zstd(&vec![0; MOST + 1])), Err(413));
        assert_eq!(read_zstd(zstd(b"")), Ok(Bytes::new()));
        assert_eq!(read(gzip(&longest), 64 << 20), Ok(Bytes::from(longest)));
        assert_eq!(read(gzip(&vec![0; MOST + 1]), 64 << 20), Err(413));
        assert_eq!(read(gzip(b""), 64 << 20), Ok(Bytes::new()));
    }

    /// RFC 8878, 3: consecutive frames are one body, and skippable frames add nothing to it.
    #[test]
    fn frames_of_zstd_are_one_body() {
        let skipped = [&b"\x50\x2a\x4d\x18\x03\0\0\0"[..], b"abc"].concat();
        let both = [&zstd(b"[1,")[..], &skipped, &zstd(b"2]")].concat();
        assert_eq!(read_zstd(both), Ok(Bytes::from_static(b"[1,2]")));
        let begun = std::time::Instant::now();
        assert_eq!(read_zstd(zstd(b"").repeat(300_000)), Ok(Bytes::new()));
        assert!(begun.elapsed() < Duration::from_millis(500), "{:?}", begun.elapsed());
    }

    #[test]
    fn what_is_no_zstd_is_refused() {
        let whole = zstd(b"some text that is longer than a head");
        for torn in 1..whole.len() {
            assert_eq!(read_zstd(whole.slice(..torn)), Err(400), "{torn}");
        }
        assert_eq!(read_zstd(&b"{}"[..]), Err(400));
        assert_eq!(read_zstd([&whole[..], b"more"].concat()), Err(400));
        assert_eq!(read_zstd(gzip(b"text")), Err(400));
    }

    /// A decoder allocates the window that a frame's header asks for.
    #[test]
    fn a_window_of_zstd_is_bounded() {
        let log = zstd::WINDOW_LOG as u8;
        let with_window = |log| read_zstd(zstd::tests::frame_with_window(log, b"text"));
        assert_eq!(with_window(log), Ok(Bytes::from_static(b"text")));
        assert_eq!(with_window(log + 1), Err(400));
        // A frame of zstd 0.7, for which libzstd does not bound the window.
        let old = b"\x27\xb5\x2f\xfd\x00\x88\x40\x00\x04text\xc0\x00\x00";
        assert_eq!(read_zstd(&old[..]), Err(400));
        let small = read_packed(Packing::Zstd, zstd(b"{}"), 1 << zstd::WINDOW_LOG);
        assert_eq!(small, Err(413), "there is never so much");
    }

    #[test]
    fn what_is_packed_twice_is_unpacked_twice() {
        assert_eq!(read(gzip(&gzip(b"text")), 64 << 20), Ok(Bytes::from_static(b"text")));
        assert_eq!(read(gzip(&gzip(&vec![0; MOST + 1])), 64 << 20), Err(413));
        assert_eq!(read(gzip(&gzip(b"text")[..9]), 64 << 20), Err(400));
        let three = gzip(&gzip(&gzip(b"text")));
        assert_eq!(read(three, 64 << 20), Ok(gzip(b"text")));
    }

    #[test]
    fn what_is_no_gzip_is_refused() {
        let whole = gzip(b"some text that is longer than a head");
        assert_eq!(read(whole.slice(..whole.len() - 1), 64 << 20), Err(400));
        assert_eq!(read(Bytes::from_static(b"{}"), 64 << 20), Err(400));
        let mut trailing = whole.to_vec();
        trailing.extend_from_slice(b"more");
        assert_eq!(read(trailing.into(), 64 << 20), Err(400));
    }

    #[test]
    fn two_packed_parts_are_one_body() {
        let both = [gzip(b"[1,"), gzip(b"2]")].concat();
        assert_eq!(read(both.into(), 64 << 20), Ok(Bytes::from_static(b"[1,2]")));
    }

    /// Otherwise two megabytes of empty members would occupy a reader for a second.
    #[test]
    fn too_many_gzip_members_are_refused_at_once() {
        let parts = |count: usize| read(gzip(b"ab").repeat(count).into(), 64 << 20);
        assert_eq!(parts(MAX_MEMBERS), Ok(b"ab".repeat(MAX_MEMBERS).into()));
        assert_eq!(parts(MAX_MEMBERS + 1), Err(400));
        let begun = std::time::Instant::now();
        assert_eq!(read(gzip(b"").repeat(100_000).into(), 64 << 20), Err(400));
        assert!(begun.elapsed() < Duration::from_millis(200), "{:?}", begun.elapsed());
    }

    #[test]
    fn a_bomb_takes_no_more_than_the_limit() {
        let plain = gunzip(&gzip(&vec![0; MOST]), MOST).unwrap();
        assert!(plain.capacity() <= MOST, "{}", plain.capacity());
        let budget = Budget::new(2 * MOST);
        let mut others = budget.hold();
        others.set(MOST).unwrap();
        let refused = unpack(gzip(b"{}"), Packing::Gzip, MOST, &mut budget.hold()).unwrap_err();
        assert_eq!(refused.reason().status(), 503, "others may give it back");
        assert_eq!(read(gzip(b"{}"), MOST), Err(413), "there is never so much");
    }

    /// Receives a body that is sent in `parts`; after them the connection breaks off.
    async fn received(framed: Framing, parts: &[&[u8]], most: usize) -> Result<Bytes, u16> {
        let budget = Budget::new(most);
        let (mut sender, stream) = tokio::io::duplex(16 << 10);
        let mut wire = Wire::new(stream);
        wire.body_begins(framed, false);
        let sending = async move {
            for part in parts {
                if sender.write_all(part).await.is_err() {
                    return;
                }
            }
        };
        let mut hold = budget.hold();
        let receiving = async {
            let received = receive(&mut wire, &mut hold).await;
            drop(wire);
            received
        };
        let (_, received) = tokio::join!(sending, receiving);
        drop(hold);
        assert_eq!(budget.used(), 0);
        received.map_err(|refusal| refusal.reason().status())
    }

    #[tokio::test]
    async fn a_body_is_received_whole_or_refused() {
        let most = 64 << 20;
        assert_eq!(received(Framing::Length(2), &[b"a", b"b"], most).await, Ok(Bytes::from_static(b"ab")));
        assert_eq!(received(Framing::Length(0), &[], most).await, Ok(Bytes::new()));
        assert_eq!(received(Framing::Length(2), &[b"a"], most).await, Err(503));
        assert_eq!(received(Framing::Length(MOST as u64 + 1), &[], most).await, Err(413));
        assert_eq!(received(Framing::Length(100), &[&[0; 100]], 100).await, Err(413));
        let long = vec![7; MOST];
        assert_eq!(
            received(Framing::Length(MOST as u64), &[&long], most).await,
            Ok(Bytes::from(long.clone()))
        );
    }

    #[tokio::test]
    async fn chunks_are_received_whole_or_refused() {
        let most = 64 << 20;
        let chunks = b"5;a=b\r\nhello\r\n0A\r\n, chunks..\r\n0\r\nA: b\r\n\r\n";
        let expected = Ok(Bytes::from_static(b"hello, chunks.."));
        assert_eq!(received(Framing::Line, &[chunks], most).await, expected);
        let bytes: Vec<&[u8]> = chunks.chunks(1).collect();
        assert_eq!(received(Framing::Line, &bytes, most).await, expected);
        for cut in 0..chunks.len() {
            assert_eq!(received(Framing::Line, &[&chunks[..cut]], most).await, Err(503), "{cut}");
        }
        for wrong in [
            &b"x\r\n"[..],
            b"1\r\nab\r\n",
            b"-1\r\n",
            b"ffffffffffffffffff\r\n",
            b"1\r\na\r\n\r\n\r\n",
            b"1\r\na\r\n;a\r\n\r\n",
            b"1;a\nb\r\na\r\n0\r\n\r\n",
        ] {
            assert_eq!(received(Framing::Line, &[wrong], most).await, Err(400), "{wrong:?}");
        }
        assert_eq!(received(Framing::Line, &[b"1;", &[b'a'; 8 << 10]], most).await, Err(400));
        let (long, end) = (vec![0; MOST], &b"\r\n1\r\na\r\n0\r\n\r\n"[..]);
        assert_eq!(received(Framing::Line, &[b"400000\r\n", &long, end], most).await, Err(413));
    }
}
