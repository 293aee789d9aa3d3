//! A server in a folder of its own, a proxy that cuts connections, and bodies of requests.

use std::io::Write;
use std::os::unix::fs::MetadataExt;
use std::os::unix::process::CommandExt;
use std::path::PathBuf;
use std::process::{Child, Command, Stdio};
use std::sync::atomic::{AtomicBool, Ordering};
use std::sync::Arc;
use tokio::io::{AsyncReadExt, AsyncWriteExt};
use tokio::net::{TcpListener, TcpStream};

#[path = "../data/folder.rs"]
mod folder;

pub struct Server {
    pub folder: tempfile::TempDir,
    programs: PathBuf,
    pub port: u16,
    child: Option<Child>,
}

/// The ticks of a second of processor time, on Linux on x86-64.
const TICKS: f64 = 100.0;

/// PostgreSQL does not run as root.
const USER: u32 = 65534;

fn is_root() -> bool {
    std::fs::metadata("/proc/self").unwrap().uid() == 0
}

fn programs() -> Option<PathBuf> {
    let folders = std::fs::read_dir("/usr/lib/postgresql").ok()?;
    let mut folders: Vec<PathBuf> = folders.flatten().map(|entry| entry.path().join("bin")).collect();
    folders.retain(|folder| folder.join("initdb").exists());
    folders.sort();
    folders.pop()
}

impl Server {
    pub fn start() -> Option<Server> {
        let Some(programs) = programs() else {
            println!("skipped: there is no initdb; `tools/needs test` installs postgresql");
            return None;
        };
        let folder = tempfile::tempdir().unwrap();
        if is_root() {
            std::os::unix::fs::chown(folder.path(), Some(USER), Some(USER)).unwrap();
        }
        let port = std::net::TcpListener::bind("127.0.0.1:0").unwrap();
        let mut server = Server { port: port.local_addr().unwrap().port(), folder, programs, child: None };
        drop(port);
        let mut initdb = server.command("initdb");
        initdb.args(["-U", "postgres", "-E", "UTF8", "--locale=C", "-N"]);
        initdb.args(["--auth-local=trust", "--auth-host=scram-sha-256", "-D"]);
        folder::make(&server.data(), initdb);
        server.run();
        Some(server)
    }

    fn data(&self) -> PathBuf {
        self.folder.path().join("data")
    }

    fn command(&self, program: &str) -> Command {
        self.as_user(Command::new(self.programs.join(program)))
    }

    fn as_user(&self, mut command: Command) -> Command {
        command.current_dir(self.folder.path()).stdin(Stdio::null());
        if is_root() {
            command.uid(USER).gid(USER);
        }
        command
    }

    pub fn run(&mut self) {
        let log = std::fs::File::create(self.folder.path().join("log")).unwrap();
        let child = self
            .command("postgres")
            .arg("-D")
            .arg(self.data())
            .args(["-c", "listen_addresses=127.0.0.1", "-p", &self.port.to_string(), "-k"])
            .arg(self.folder.path())
            .stdout(Stdio::null())
            .stderr(log)
            .spawn()
            .unwrap();
        self.child = Some(child);
        for _ in 0..200 {
            if self.psql("postgres", "select 1").output().unwrap().status.success() {
                return;
            }
            std::thread::sleep(std::time::Duration::from_millis(50));
        }
        panic!("the server has not started");
    }

    /// Starts again with a certificate for this name, signed by a root of its own. `other.pem` is another root.
    pub fn with_tls(&mut self, name: &str) {
        self.stop();
        let key = "-newkey ec -pkeyopt ec_paramgen_curve:prime256v1 -nodes";
        for root in ["root", "other"] {
            self.openssl(&format!(
                "req -x509 {key} -keyout {root}.key -out {root}.pem -subj /CN={root} -days 2"
            ));
        }
        let names = format!("subjectAltName=DNS:{name},IP:127.0.0.1\n");
        std::fs::write(self.folder.path().join("names"), names).unwrap();
        self.openssl(&format!("req {key} -keyout server.key -out request.pem -subj /CN={name}"));
        self.openssl("x509 -req -in request.pem -CA root.pem -CAkey root.key -CAcreateserial -days 2 -extfile names -out server.pem");
        let (conf, folder) = (self.data().join("postgresql.conf"), self.folder.path().display());
        let settings = format!(
            "ssl = on\nssl_cert_file = '{folder}/server.pem'\nssl_key_file = '{folder}/server.key'\n"
        );
        let mut conf = std::fs::OpenOptions::new().append(true).open(conf).unwrap();
        conf.write_all(settings.as_bytes()).unwrap();
        self.run();
    }

    fn openssl(&self, words: &str) {
        let mut openssl = self.as_user(Command::new("openssl"));
        let done = openssl.args(words.split_whitespace()).output().unwrap();
        assert!(done.status.success(), "{words}: {}", String::from_utf8_lossy(&done.stderr));
    }

    /// The processor time of the server's processes.
    pub fn processor_time(&self) -> f64 {
        let parent = self.child.as_ref().map_or(0, Child::id).to_string();
        let of = |entry: std::fs::DirEntry| {
            let stat = std::fs::read_to_string(entry.path().join("stat")).ok()?;
            let words: Vec<&str> = stat.rsplit_once(')')?.1.split_whitespace().collect();
            let is_ours = words[1] == parent || entry.file_name().to_str() == Some(&parent);
            is_ours.then(|| words[11..13].iter().filter_map(|word| word.parse::<f64>().ok()).sum::<f64>())
        };
        std::fs::read_dir("/proc").unwrap().flatten().filter_map(of).sum::<f64>() / TICKS
    }

    /// Stops it at once, as a crash does.
    pub fn stop(&mut self) {
        if let Some(mut child) = self.child.take() {
            let id = nix::unistd::Pid::from_raw(child.id() as i32);
            nix::sys::signal::kill(id, nix::sys::signal::Signal::SIGQUIT).unwrap();
            child.wait().unwrap();
        }
    }

    fn psql(&self, database: &str, query: &str) -> Command {
        let mut command = self.command("psql");
        command
            .args(["-U", "postgres", "-X", "-A", "-t", "-q", "-v", "ON_ERROR_STOP=1", "-h"])
            .arg(self.folder.path())
            .args(["-p", &self.port.to_string(), "-d", database])
            .env("PGCLIENTENCODING", "UTF8");
        for part in query.split("; ") {
            command.args(["-c", part]);
        }
        command
    }

    pub fn ask(&self, query: &str) -> String {
        self.ask_of("postgres", query)
    }

    pub fn ask_of(&self, database: &str, query: &str) -> String {
        let output = self.psql(database, query).output().unwrap();
        let error = String::from_utf8_lossy(&output.stderr);
        assert!(output.status.success(), "{query}: {error}");
        String::from_utf8(output.stdout).unwrap().trim().into()
    }

    /// Runs statements from a file.
    pub fn run_file(&self, database: &str, text: &str) {
        let file = self.folder.path().join("statements");
        std::fs::write(&file, text).unwrap();
        let output = self.psql(database, "select 1").arg("-f").arg(file).output().unwrap();
        let error = String::from_utf8_lossy(&output.stderr);
        assert!(output.status.success(), "{error}");
    }

    /// Runs a query beside the test until this is dropped.
    pub fn hold(&self, query: &str) -> Held {
        let mut psql = self.psql("postgres", query);
        Held(psql.stdout(Stdio::null()).spawn().unwrap())
    }

    pub fn by_socket(&self, database: &str) -> String {
        let (folder, port) = (self.folder.path().display(), self.port);
        format!("postgresql://postgres@/{database}?host={folder}&port={port}")
    }

    pub fn by_tcp(&self, user: &str, database: &str) -> String {
        format!("postgres://{user}@127.0.0.1:{}/{database}", self.port)
    }
}

/// The processor time of this process, in seconds.
pub fn own_processor_time() -> f64 {
    use nix::sys::resource::{getrusage, UsageWho};
    use nix::sys::time::TimeValLike;
    let usage = getrusage(UsageWho::RUSAGE_SELF).unwrap();
    (usage.user_time() + usage.system_time()).num_microseconds() as f64 / 1e6
}

impl Drop for Server {
    fn drop(&mut self) {
        self.stop();
        let _ = std::io::stdout().flush();
    }
}

pub struct Held(Child);

impl Drop for Held {
    fn drop(&mut self) {
        let _ = self.0.kill();
        let _ = self.0.wait();
    }
}

/// Passes bytes on. When it is told to, it lets the next COMMIT through, waits until the server has answered, and cuts
/// the connection.
pub struct Proxy {
    pub port: u16,
    cut: Arc<AtomicBool>,
}

impl Proxy {
    pub async fn start(to: u16) -> Proxy {
        let listener = TcpListener::bind("127.0.0.1:0").await.unwrap();
        let port = listener.local_addr().unwrap().port();
        let cut = Arc::new(AtomicBool::new(false));
        let told = cut.clone();
        tokio::spawn(async move {
            while let Ok((client, _)) = listener.accept().await {
                tokio::spawn(pass(client, to, told.clone()));
            }
        });
        Proxy { port, cut }
    }

    pub fn cut_the_next_commit(&self) {
        self.cut.store(true, Ordering::SeqCst);
    }
}

async fn pass(mut client: TcpStream, to: u16, cut: Arc<AtomicBool>) {
    let Ok(mut server) = TcpStream::connect(("127.0.0.1", to)).await else {
        return;
    };
    let (mut up, mut down) = (vec![0; 65536], vec![0; 65536]);
    loop {
        tokio::select! {
            read = client.read(&mut up) => {
                let Ok(count @ 1..) = read else { return };
                if server.write_all(&up[..count]).await.is_err() { return }
                if up[..count].windows(6).any(|six| six == b"COMMIT") && cut.swap(false, Ordering::SeqCst) {
                    let _ = server.read(&mut down).await;
                    return;
                }
            }
            read = server.read(&mut down) => {
                let Ok(count @ 1..) = read else { return };
                if client.write_all(&down[..count]).await.is_err() { return }
            }
        }
    }
}

fn metrics(metrics: &str) -> String {
    format!(
        r#"{{"resourceMetrics":[{{"resource":{{"attributes":[]}},"scopeMetrics":[{{"metrics":[{metrics}],"scope":{{"attributes":[],"name":"s","version":"1"}}}}]}}]}}"#
    )
}

fn sum_of(name: &str, points: &str) -> String {
    metrics(&sum_metric(name, points))
}

fn sum_metric(name: &str, points: &str) -> String {
    format!(
        r#"{{"name":"{name}","sum":{{"aggregationTemporality":1,"dataPoints":[{points}],"isMonotonic":false}},"unit":"1"}}"#
    )
}

fn point(value: &str, start: u64, end: u64, counted: i64) -> String {
    format!(
        r#"{{"asInt":"{counted}","attributes":[{{"key":"k","value":{{"stringValue":"{value}"}}}}],"startTimeUnixNano":"{start}","timeUnixNano":"{end}"}}"#
    )
}

pub fn sum(name: &str, start: u64, end: u64, counted: i64) -> String {
    sum_named(name, "v", start, end, counted)
}

/// A sum whose attribute `k` has this value. Both texts are as they stand in JSON.
pub fn sum_named(name: &str, value: &str, start: u64, end: u64, counted: i64) -> String {
    sum_of(name, &point(value, start, end, counted))
}

/// A request with a sum for each of these.
pub fn sums(all: &[(&str, u64, u64, i64)]) -> String {
    let of = |(name, start, end, counted): &(&str, u64, u64, i64)| {
        sum_metric(name, &point("v", *start, *end, *counted))
    };
    metrics(&all.iter().map(of).collect::<Vec<String>>().join(","))
}

pub fn histogram(name: &str, start: u64, end: u64, sum: Option<u64>, buckets: [u64; 3]) -> String {
    let counts = buckets.map(|bucket| format!("\"{bucket}\"")).join(",");
    let sum = sum.map_or(String::new(), |sum| format!("\"sum\":{sum},"));
    metrics(&format!(
        r#"{{"histogram":{{"aggregationTemporality":1,"dataPoints":[{{"attributes":[],"bucketCounts":[{counts}],"count":"{}","explicitBounds":[-5,10],"startTimeUnixNano":"{start}",{sum}"timeUnixNano":"{end}"}}]}},"name":"{name}","unit":"ms"}}"#,
        buckets[0]
    ))
}
