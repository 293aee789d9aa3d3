//! Permits of the operators' connections while idle connections hold all of them.

use super::*;
use std::time::Instant;
use tokio::io::AsyncReadExt;

/// Answers each request with a body of so many bytes.
struct Long(usize);

impl Handler for Long {
    async fn answer(self: Arc<Self>, _: Request<Body>) -> Response<Body> {
        Response::new(vec![b'x'; self.0].into())
    }
}

struct Served {
    address: std::net::SocketAddr,
    stop: watch::Sender<bool>,
    serving: tokio::task::JoinHandle<()>,
}

/// Serves a listener with so many permits, which keeps idle connections for long.
async fn served(connections: usize, length: usize) -> Served {
    let listener = TcpListener::bind("127.0.0.1:0").await.unwrap();
    let address = listener.local_addr().unwrap();
    let limits = Limits { connections, head: Duration::from_secs(4), idle: Duration::from_secs(600) };
    let (stop, stopped) = watch::channel(false);
    let serving = tokio::spawn(serve(Arc::new(listener), limits, Arc::new(Long(length)), stopped));
    Served { address, stop, serving }
}

const REQUEST: &[u8] = b"GET /healthz HTTP/1.1\r\nHost: a\r\nConnection: close\r\n\r\n";

impl Served {
    async fn connected(&self) -> TcpStream {
        TcpStream::connect(self.address).await.unwrap()
    }

    /// How many bytes the response to one request has.
    async fn ask(&self) -> usize {
        let mut stream = self.connected().await;
        stream.write_all(REQUEST).await.unwrap();
        let mut answer = Vec::new();
        let reading = stream.read_to_end(&mut answer);
        tokio::time::timeout(Duration::from_secs(30), reading).await.expect("an answer in time").unwrap()
    }
}

#[tokio::test]
async fn idle_connections_are_closed_where_another_waits() {
    let served = served(3, 1).await;
    let new = served.connected().await;
    let mut used = served.connected().await;
    used.write_all(b"GET /healthz HTTP/1.1\r\nHost: a\r\n\r\n").await.unwrap();
    assert!(used.read(&mut [0; 1024]).await.unwrap() > 0);
    let third = served.connected().await;
    assert!(served.ask().await > 0);
    drop((new, used, third));
}

#[tokio::test]
async fn who_does_not_read_is_closed_where_another_waits() {
    let served = served(1, 64 << 20).await;
    let mut deaf = served.connected().await;
    deaf.write_all(REQUEST).await.unwrap();
    deaf.readable().await.unwrap();
    let waiting = async { served.ask().await };
    assert!(waiting.await > 64 << 20);
}

/// A long response is sent whole even while other clients wait for a permit.
#[tokio::test]
async fn who_reads_slowly_is_not_closed() {
    let served = served(1, 32 << 20).await;
    let mut slow = served.connected().await;
    slow.write_all(REQUEST).await.unwrap();
    let begun = Instant::now();
    let reading = async {
        let (mut all, mut part) = (0, vec![0; 4 << 20]);
        loop {
            match slow.read(&mut part).await.unwrap() {
                0 => return all,
                length => all += length,
            }
            tokio::time::sleep(Duration::from_millis(20)).await;
            if all < 8 << 20 && begun.elapsed() < Duration::from_secs(3) {
                tokio::time::sleep(Duration::from_millis(300)).await;
            }
        }
    };
    let (all, other) = tokio::join!(reading, served.ask());
    assert!(all > 32 << 20 && other > 32 << 20, "{all}");
}

/// The shutdown may close the files that the handler reads from only once no connection is open.
#[tokio::test]
async fn half_a_head_is_not_waited_for_at_the_end() {
    let served = served(1, 1).await;
    let mut half = served.connected().await;
    half.write_all(&REQUEST[..9]).await.unwrap();
    tokio::time::sleep(Duration::from_millis(100)).await; // until it was accepted
    let begun = Instant::now();
    served.stop.send_replace(true);
    served.serving.await.unwrap();
    assert!(begun.elapsed() < Duration::from_millis(3500), "a head may take four seconds");
}
