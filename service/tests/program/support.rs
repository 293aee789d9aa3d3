//! The program on a folder, its senders, and what its SQLite file has.

use std::collections::BTreeMap;
use std::io::{Read, Write};
use std::net::{TcpListener, TcpStream};
use std::os::unix::net::UnixStream;
use std::path::PathBuf;
use std::process::{Child, Command, Stdio};
use std::time::{Duration, Instant};

pub const PROGRAM: &str = env!("CARGO_BIN_EXE_totxegun");
pub const PATIENCE: Duration = Duration::from_secs(120);
/// Nobody listens at this address.
pub const NO_SINK: &str = "http://127.0.0.1:9/v1/metrics";

/// A folder for everything that a test needs.
pub struct Place {
    pub folder: tempfile::TempDir,
}

impl Place {
    pub fn new() -> Place {
        let folder = tempfile::tempdir().unwrap();
        Place { folder }
    }

    pub fn data(&self) -> PathBuf {
        self.folder.path().join("data")
    }

    pub fn sink(&self) -> String {
        format!("sqlite:{}", self.folder.path().join("sink.db").display())
    }

    /// Starts a service, which may not be ready yet.
    pub fn begin(&self, words: &[&str]) -> Service {
        self.begin_by(Command::new(PROGRAM), words)
    }

    /// By a command that replaces itself by the program.
    pub fn begin_by(&self, mut command: Command, words: &[&str]) -> Service {
        let (listen, operate) = (free_address(), free_address());
        let log = std::fs::File::options()
            .create(true)
            .append(true)
            .open(self.folder.path().join("log.txt"))
            .unwrap();
        let every: &[&str] = match words.contains(&"--flush-interval") {
            true => &[],
            false => &["--flush-interval", "200ms"],
        };
        let grpc: &[&str] = match words.contains(&"--listen-grpc") {
            true => &[],
            false => &["--listen-grpc", "off"],
        };
        let child = command
            .arg("serve")
            .args(every)
            .args(["--durability", "process", "--data"])
            .arg(self.data())
            .args(["--listen", &listen, "--admin", &operate])
            .args(grpc)
            .args(words)
            .stderr(log)
            .stdout(Stdio::null())
            .spawn()
            .unwrap();
        Service { child, listen, operate, data: self.data() }
    }

    /// Starts a service with a SQLite file as its sink, and waits until it is ready.
    pub fn serve(&self) -> Service {
        self.serve_with(&["--sink", &self.sink()])
    }

    /// The same, on a folder that had another sink.
    pub fn serve_into_another(&self) -> Service {
        self.serve_with(&["--new-sink", "--sink", &self.sink()])
    }

    pub fn serve_with(&self, words: &[&str]) -> Service {
        let service = self.begin(words);
        until("it is ready", || service.is_ready());
        service
    }

    /// The totals. Empty before the sink's file is made.
    pub fn totals_if_any(&self) -> BTreeMap<String, i64> {
        match self.folder.path().join("sink.db").exists() {
            true => self.totals(),
            false => BTreeMap::new(),
        }
    }

    /// The total of each metric by name, as the program's own command shows it.
    pub fn totals(&self) -> BTreeMap<String, i64> {
        let output =
            Command::new(PROGRAM).args(["totals", "--json", "--sink", &self.sink()]).output().unwrap();
        assert!(output.status.success(), "{output:?}");
        let row = |row: &str| {
            let row: serde_json::Value = serde_json::from_str(row).unwrap();
            let [name, total] = ["name", "total"].map(|field| row[field].as_str().unwrap().to_string());
            (name, total.parse().unwrap_or_else(|_| panic!("{row}")))
        };
        String::from_utf8(output.stdout).unwrap().lines().map(row).collect()
    }

    pub fn log(&self) -> String {
        std::fs::read_to_string(self.folder.path().join("log.txt")).unwrap()
    }
}

pub fn until(what: &str, mut is_so: impl FnMut() -> bool) {
    let begun = Instant::now();
    while !is_so() {
        assert!(begun.elapsed() < PATIENCE, "{what}: it never was");
        std::thread::sleep(Duration::from_millis(10));
    }
}

fn free_address() -> String {
    let listener = TcpListener::bind("127.0.0.1:0").unwrap();
    listener.local_addr().unwrap().to_string()
}

pub struct Service {
    child: Child,
    pub listen: String,
    pub operate: String,
    data: PathBuf,
}

impl Drop for Service {
    fn drop(&mut self) {
        self.kill();
    }
}

impl Service {
    /// Like `kill -9`.
    pub fn kill(&mut self) {
        let _ = self.child.kill();
        let _ = self.child.wait();
    }

    /// Ends it by SIGTERM. Returns the status.
    pub fn end(mut self) -> Option<i32> {
        signal(self.child.id(), "TERM");
        self.child.wait().unwrap().code()
    }

    pub fn pid(&self) -> u32 {
        self.child.id()
    }

    pub fn status_of_end(&mut self) -> Option<i32> {
        self.child.wait().unwrap().code()
    }

    pub fn is_ready(&self) -> bool {
        matches!(self.asked_for("/readyz"), Some((200, _)))
    }

    pub fn asked_for(&self, path: &str) -> Option<(u16, String)> {
        asked(&self.operate, "GET", path, "-", "")
    }

    /// What a command of the program prints, on either stream.
    pub fn said(&self, words: &[&str]) -> String {
        self.ended_by(words).1
    }

    /// The same, with the exit status.
    pub fn ended_by(&self, words: &[&str]) -> (Option<i32>, String) {
        let output = Command::new(PROGRAM).args(words).arg("--data").arg(&self.data).output().unwrap();
        (output.status.code(), String::from_utf8([output.stdout, output.stderr].concat()).unwrap())
    }

    /// The root of the service's file system.
    pub fn root(&self) -> PathBuf {
        format!("/proc/{}/root", self.child.id()).into()
    }

    pub fn status(&self) -> serde_json::Value {
        let (status, body) = asked(&self.operate, "GET", "/status", "-", "").unwrap();
        assert_eq!(status, 200, "{body}");
        serde_json::from_str(&body).unwrap()
    }

    /// How many series the service knows.
    pub fn series(&self) -> u64 {
        self.status()["shards"][0]["series"].as_u64().unwrap()
    }

    pub fn order(&self, path: &str) -> (u16, String) {
        self.at_socket("POST", path).unwrap()
    }

    pub fn socket(&self) -> PathBuf {
        self.data.join("admin.sock")
    }

    /// The path of the socket from outside of the service's file system.
    pub fn reached(&self) -> PathBuf {
        let path = self.socket();
        self.root().join(path.strip_prefix("/").unwrap_or(&path))
    }

    pub fn at_socket(&self, method: &str, path: &str) -> Option<(u16, String)> {
        let stream = UnixStream::connect(self.reached()).ok()?;
        stream.set_read_timeout(Some(Duration::from_secs(60))).ok()?;
        answered(stream, method, path, "-", "")
    }

    pub fn metrics(&self) -> String {
        asked(&self.operate, "GET", "/metrics", "-", "").unwrap().1
    }

    pub fn post(&self, sender: &str, body: &str) -> Option<(u16, String)> {
        asked(&self.listen, "POST", "/v1/metrics", sender, body)
    }

    /// Posts a body of protobuf. Returns the status.
    pub fn post_protobuf(&self, sender: &str, body: &[u8]) -> u16 {
        let mut stream = TcpStream::connect(&self.listen).unwrap();
        let length = body.len();
        let head = format!(
            "POST /v1/metrics HTTP/1.1\r\nHost: 127.0.0.1\r\nx-sender: {sender}\r\nContent-Type: application/x-protobuf\r\n\
             Content-Length: {length}\r\nConnection: close\r\n\r\n"
        );
        stream.write_all(&[head.as_bytes(), body].concat()).unwrap();
        let mut answer = Vec::new();
        stream.read_to_end(&mut answer).unwrap();
        std::str::from_utf8(&answer[9..12]).unwrap().parse().unwrap()
    }

    /// Posts again as long as the answer is 503.
    pub fn post_until_answered(&self, sender: &str, body: &str) -> (u16, String) {
        let mut answer = (0, String::new());
        until("an answer", || {
            answer = self.post(sender, body).unwrap_or((0, String::new()));
            ![0, 503].contains(&answer.0)
        });
        answer
    }

    /// Flushes, and waits until the sink has all.
    pub fn drain(&self) {
        until("a flush", || self.order("/flush").0 == 200);
        until("an empty outbox", || {
            let status = self.status();
            let shards = status["shards"].as_array().unwrap();
            shards.iter().all(|shard| shard["waiting"] == 0)
        });
    }

    pub fn has_no_fault(&self) {
        let page = self.metrics();
        let faults = page.lines().filter(|line| line.starts_with("totxegun_faults_total"));
        let wrong: Vec<&str> = faults.filter(|line| !line.ends_with(" 0")).collect();
        assert!(wrong.is_empty(), "{wrong:?}");
    }
}

pub fn signal(pid: u32, name: &str) {
    let _ = Command::new("kill").args([format!("-{name}"), pid.to_string()]).stderr(Stdio::null()).status();
}

pub fn asked(address: &str, method: &str, path: &str, sender: &str, body: &str) -> Option<(u16, String)> {
    let stream = TcpStream::connect(address).ok()?;
    stream.set_read_timeout(Some(Duration::from_secs(20))).ok()?;
    answered(stream, method, path, sender, body)
}

fn answered(
    mut stream: impl Read + Write,
    method: &str,
    path: &str,
    sender: &str,
    body: &str,
) -> Option<(u16, String)> {
    let length = body.len();
    write!(
        stream,
        "{method} {path} HTTP/1.1\r\nHost: 127.0.0.1\r\nx-sender: {sender}\r\nContent-Type: application/json\r\n\
         Content-Length: {length}\r\nConnection: close\r\n\r\n{body}"
    )
    .ok()?;
    let mut answer = String::new();
    stream.read_to_string(&mut answer).ok()?;
    let (head, body) = answer.split_once("\r\n\r\n")?;
    Some((head.get(9..12)?.parse().ok()?, body.to_string()))
}

/// A field of protobuf with a length.
pub fn field(number: u8, inner: &[u8]) -> Vec<u8> {
    let mut out = vec![number << 3 | 2];
    let mut length = inner.len();
    while length > 127 {
        out.push(length as u8 | 128);
        length >>= 7;
    }
    out.push(length as u8);
    [&out, inner].concat()
}

/// A field of protobuf of eight bytes.
pub fn fixed(number: u8, bits: u64) -> Vec<u8> {
    [&[number << 3 | 1][..], &bits.to_le_bytes()].concat()
}

/// A body with a point of each of these series.
pub fn points(names: &[&str], end: u64, value: i64) -> String {
    let start = end - 10;
    let metric = |name: &&str| {
        format!(
            "{{\"name\":\"{name}\",\"sum\":{{\"aggregationTemporality\":1,\"dataPoints\":[{{\"asInt\":\"{value}\",\
             \"startTimeUnixNano\":\"{start}\",\"timeUnixNano\":\"{end}\"}}]}}}}"
        )
    };
    let metrics: Vec<String> = names.iter().map(metric).collect();
    format!("{{\"resourceMetrics\":[{{\"scopeMetrics\":[{{\"metrics\":[{}]}}]}}]}}", metrics.join(","))
}
