//! Sends a page to its reader. The totals are in memory until the reader has the page. Therefore one page is sent at a
//! time, its time is limited, and only a few parts of its text exist at once.

use super::page::{self, Times};
use crate::sink::sql::totals::SeriesTotal;
use bytes::Bytes;
use hyper::body::Sender;
use hyper::Body;
use std::io::{self, BufWriter, ErrorKind, Write};
use std::time::Duration;
use tokio::sync::{mpsc, OwnedSemaphorePermit};
use tokio::time::timeout;

/// How long a reader may take. After that the page is cut off.
const READ: Duration = match cfg!(test) {
    false => Duration::from_secs(30),
    true => Duration::from_secs(3),
};
/// The size of a part, in bytes.
const PART: usize = 64 << 10;

/// A page of these series, written while it is read. `turn` is released with it.
pub fn sent(series: Vec<SeriesTotal>, times: Times, turn: OwnedSemaphorePermit) -> Body {
    let (parts, made) = mpsc::channel(1);
    let (sender, body) = Body::channel();
    tokio::spawn(send(made, sender));
    tokio::task::spawn_blocking(move || {
        let mut to = BufWriter::with_capacity(PART, Parts(parts));
        // An error means that nobody reads on.
        let _ = page::write(&series, times, &mut to).and_then(|()| to.flush());
        drop((series, turn));
    });
    body
}

/// Sends the parts. If the page is not read to its end, the response is aborted, so that the reader notices.
async fn send(mut made: mpsc::Receiver<Bytes>, mut sender: Sender) {
    let sending = async {
        while let Some(part) = made.recv().await {
            sender.send_data(part).await?;
        }
        Ok::<(), hyper::Error>(())
    };
    if !matches!(timeout(READ, sending).await, Ok(Ok(()))) {
        sender.abort();
    }
}

struct Parts(mpsc::Sender<Bytes>);

impl Write for Parts {
    fn write(&mut self, part: &[u8]) -> io::Result<usize> {
        let sent = self.0.blocking_send(Bytes::copy_from_slice(part));
        sent.map(|()| part.len()).map_err(|_| ErrorKind::BrokenPipe.into())
    }

    fn flush(&mut self) -> io::Result<()> {
        Ok(())
    }
}

#[cfg(test)]
mod tests {
    use super::super::tests::series;
    use super::*;
    use crate::sink::sql::totals::Kind;
    use hyper::body::{to_bytes, HttpBody};
    use serde_json::json;
    use std::sync::Arc;
    use tokio::sync::Semaphore;

    /// A page of many parts, and the semaphore of its turn.
    async fn long() -> (Body, Arc<Semaphore>) {
        let turns = Arc::new(Semaphore::new(1));
        let made = |number: u32| {
            series("a", "", Kind::Monotonic, 1, json!({ "n": number, "text": "x".repeat(PART) }))
        };
        let turn = turns.clone().acquire_owned().await.unwrap();
        (sent((0..20).map(made).collect(), Times::None, turn), turns)
    }

    #[tokio::test]
    async fn a_page_is_there_until_it_is_read() {
        let (body, turns) = long().await;
        assert_eq!(turns.available_permits(), 0);
        let page = to_bytes(body).await.unwrap();
        let page = std::str::from_utf8(&page).unwrap();
        assert_eq!((page.lines().count(), page.ends_with(" 1\n")), (22, true));
        let _turn = timeout(READ, turns.acquire()).await.unwrap();
    }

    #[tokio::test]
    async fn a_page_that_is_not_read_is_cut_off() {
        let (mut body, turns) = long().await;
        assert!(body.data().await.unwrap().is_ok(), "its first part");
        let _turn = timeout(5 * READ, turns.acquire()).await.unwrap();
        let mut read = 1;
        let end = loop {
            match body.data().await {
                Some(Ok(_)) => read += 1,
                end => break end,
            }
        };
        assert!(matches!(end, Some(Err(_))) && read < 10, "{read} parts, {end:?}");
    }

    #[tokio::test]
    async fn a_page_of_a_reader_who_goes_away_is_gone() {
        let (body, turns) = long().await;
        drop(body);
        let _turn = timeout(READ / 2, turns.acquire()).await.unwrap();
    }
}
