//! Single frames of a gRPC client, and connections that break off between frames.

use super::*;
use tokio::io::AsyncWriteExt;

const PREFACE: &[u8] = b"PRI * HTTP/2.0\r\n\r\nSM\r\n\r\n";

/// An HTTP/2 frame on stream 1, or on stream 0 for settings.
fn h2_frame(kind: u8, flags: u8, payload: &[u8]) -> Vec<u8> {
    let stream = u8::from(kind != 4);
    [&(payload.len() as u32).to_be_bytes()[1..], &[kind, flags, 0, 0, 0, stream], payload].concat()
}

/// The headers of a call, none of them compressed.
fn call_headers() -> Vec<u8> {
    let pairs = [
        (":method", "POST"),
        (":scheme", "http"),
        (":path", METHOD),
        (":authority", "h"),
        ("content-type", "application/grpc"),
    ];
    let one = |pair: (&str, &str)| {
        [&[0, pair.0.len() as u8][..], pair.0.as_bytes(), &[pair.1.len() as u8], pair.1.as_bytes()].concat()
    };
    pairs.map(one).concat()
}

#[tokio::test]
async fn a_call_that_is_broken_off_is_no_post() {
    let served = Served::start().await;
    let opened = [PREFACE, &h2_frame(4, 0, b""), &h2_frame(1, 4, &call_headers())].concat();
    let half = h2_frame(0, 0, &[&[0, 0, 1, 0, 0][..], &[0; 1000]].concat());
    let reset = h2_frame(3, 0, &[0, 0, 0, 8]);
    let beginnings = [
        b"GET / HTTP/1.1\r\n\r\n".to_vec(),
        [PREFACE, &[0xff; 200]].concat(),
        [&opened[..], &half, &reset].concat(),
        [&opened[..], &half].concat(),
        opened[..opened.len() - 20].to_vec(),
        [&opened[..], &half, &h2_frame(0, 9, &[200; 10])].concat(), // more padding than the frame has
    ];
    for beginning in beginnings {
        let mut stream = TcpStream::connect(served.address).await.unwrap();
        stream.write_all(&beginning).await.unwrap();
        stream.shutdown().await.unwrap();
        let mut answer = Vec::new();
        let _ = tokio::time::timeout(Duration::from_secs(5), stream.read_to_end(&mut answer)).await;
        drop(stream);
        served.nothing_is_held().await;
    }
    // A flood of resets ends its connection.
    let mut stream = TcpStream::connect(served.address).await.unwrap();
    let flood = [opened, reset.repeat(2000)].concat();
    let _ = stream.write_all(&flood).await;
    let mut answer = Vec::new();
    let read = tokio::time::timeout(Duration::from_secs(5), stream.read_to_end(&mut answer)).await;
    assert!(read.is_ok(), "the connection goes on");
    assert!(served.kept.posts.lock().unwrap().is_empty());
    assert_eq!(served.export(&[], frame(0, b"")).await.code(), 0);
}

/// h2 alone would cancel a call in flight, and panic at one that it has not begun.
#[tokio::test]
async fn calls_of_a_client_that_goes_away_are_answered() {
    let served = Served::start().await;
    let mut stream = TcpStream::connect(served.address).await.unwrap();
    let on = |id: u8, mut frame: Vec<u8>| {
        frame[8] = id;
        frame
    };
    let call = |id: u8| on(id, h2_frame(1, 4, &call_headers()));
    let opened = [PREFACE, &h2_frame(4, 0, b""), &call(1)].concat();
    stream.write_all(&opened).await.unwrap();
    tokio::time::sleep(Duration::from_millis(50)).await; // until the call has begun
    let going = on(0, h2_frame(7, 0, &[0, 0, 0, 1, 0, 0, 0, 0]));
    stream.write_all(&[call(3), going].concat()).await.unwrap();
    let message = |id: u8| on(id, h2_frame(0, 1, &frame(0, b"")));
    stream.write_all(&[message(1), message(3)].concat()).await.unwrap();
    for _ in 0..500 {
        if served.kept.posts.lock().unwrap().len() == 2 {
            return;
        }
        tokio::time::sleep(Duration::from_millis(10)).await;
    }
    panic!("{} calls were taken", served.kept.posts.lock().unwrap().len());
}
