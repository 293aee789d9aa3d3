//! Messages that arrive slowly while other calls need the memory.

use super::*;
use hyper::body::Sender;
use std::time::Instant;

const SENT: usize = 100 << 10;

/// Begins calls on one connection, each with the first bytes of a longer message.
async fn begin_calls(served: &Served, count: usize) -> Vec<Sender> {
    let stream = TcpStream::connect(served.address).await.unwrap();
    let (mut calls, connection) =
        hyper::client::conn::Builder::new().http2_only(true).handshake(stream).await.unwrap();
    tokio::spawn(connection);
    let mut begun = Vec::new();
    for _ in 0..count {
        let (mut sender, body) = Body::channel();
        let request = Request::post(format!("http://h{METHOD}")).header("content-type", "application/grpc");
        std::future::poll_fn(|context| calls.poll_ready(context)).await.unwrap();
        tokio::spawn(calls.send_request(request.body(body).unwrap()));
        sender.send_data(frame(0, &[0; 2 * SENT])[..SENT].to_vec().into()).await.unwrap();
        begun.push(sender);
    }
    begun
}

/// Otherwise a few slow calls could keep all others out, for as long as a call may take.
#[tokio::test]
async fn messages_that_come_slowly_leave_the_memory_to_others() {
    let (most, quarter) = (4 << 20, 1 << 20);
    let served = Served::with(Some(Outcome::taken(0)), most).await;
    let slow = begin_calls(&served, 48).await;
    let (begun, request) = (Instant::now(), a_request_of_test());
    let request = request.repeat((20 << 10) / request.len());
    tokio::time::sleep(Duration::from_millis(400)).await;
    while begun.elapsed() < Duration::from_secs(3) || served.budget.used() > quarter {
        assert_eq!(served.export(&[], frame(0, &request)).await.code(), 0);
        assert!(begun.elapsed() < Duration::from_secs(20));
    }
    drop(slow);
    served.nothing_is_held().await;
}
