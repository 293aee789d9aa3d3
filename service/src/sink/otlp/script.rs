//! A small HTTP server for tests, which answers by a script.

use std::sync::{Arc, Mutex};
use tokio::io::{AsyncReadExt, AsyncWriteExt};
use tokio::net::{TcpListener, TcpStream};

/// What the server does after it has read a request.
#[derive(Clone)]
pub enum Act {
    /// Writes this, and keeps the connection.
    Write(String),
    /// Writes this, and closes the connection.
    Last(String),
    /// Answers nothing, and keeps the connection open.
    Late,
}

/// A request that the server has read.
#[derive(Clone, Debug)]
pub struct Came {
    pub head: String,
    pub body: Vec<u8>,
    /// The number of its connection, from 0.
    pub connection: usize,
}

impl Came {
    pub fn header(&self, name: &str) -> Option<&str> {
        self.head.lines().find_map(|line| {
            let (key, value) = line.split_once(": ")?;
            key.eq_ignore_ascii_case(name).then_some(value)
        })
    }
}

pub struct Server {
    pub url: String,
    pub came: Arc<Mutex<Vec<Came>>>,
    task: tokio::task::JoinHandle<()>,
}

impl Drop for Server {
    fn drop(&mut self) {
        self.task.abort();
    }
}

pub fn answer(status: &str, headers: &str, body: &str) -> String {
    format!("HTTP/1.1 {status}\r\ncontent-length: {}\r\n{headers}\r\n{body}", body.len())
}

impl Server {
    /// Starts a server that does one act for each request, and then the last one again and again.
    pub async fn start(acts: Vec<Act>) -> Server {
        let listener = TcpListener::bind("127.0.0.1:0").await.expect("a port is free");
        let url = format!("http://{}/v1/metrics", listener.local_addr().expect("it is bound"));
        let came: Arc<Mutex<Vec<Came>>> = Arc::default();
        let seen = came.clone();
        let task = tokio::spawn(async move {
            let mut connections = tokio::task::JoinSet::new();
            for connection in 0.. {
                let (stream, _) = listener.accept().await.expect("it listens");
                connections.spawn(serve(stream, connection, acts.clone(), seen.clone()));
            }
        });
        Server { url, came, task }
    }

    pub fn came(&self) -> Vec<Came> {
        self.came.lock().expect("no test panics with it").clone()
    }
}

async fn serve(mut stream: TcpStream, connection: usize, acts: Vec<Act>, came: Arc<Mutex<Vec<Came>>>) {
    while let Some((head, body)) = read(&mut stream).await {
        let turn = {
            let mut came = came.lock().expect("no test panics with it");
            came.push(Came { head, body, connection });
            came.len() - 1
        };
        match &acts[turn.min(acts.len() - 1)] {
            Act::Write(text) => stream.write_all(text.as_bytes()).await.unwrap_or(()),
            Act::Last(text) => return stream.write_all(text.as_bytes()).await.unwrap_or(()),
            Act::Late => std::future::pending().await,
        }
    }
}

async fn read(stream: &mut TcpStream) -> Option<(String, Vec<u8>)> {
    let mut bytes = Vec::new();
    let end = loop {
        if let Some(end) = bytes.windows(4).position(|four| four == b"\r\n\r\n") {
            break end + 4;
        }
        if stream.read_buf(&mut bytes).await.ok()? == 0 {
            return None;
        }
    };
    let mut body = bytes.split_off(end);
    let head = String::from_utf8(bytes).expect("a head is text");
    let length = Came { head: head.clone(), body: Vec::new(), connection: 0 }
        .header("content-length")
        .map_or(0, |value| value.parse().expect("a number"));
    while body.len() < length {
        if stream.read_buf(&mut body).await.ok()? == 0 {
            return None;
        }
    }
    Some((head, body))
}
