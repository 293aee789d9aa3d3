//! A server in a folder of its own, with a synchronous standby if a test wants one.

use nix::sys::signal::{kill, Signal};
use nix::unistd::Pid;
use std::os::unix::fs::MetadataExt;
use std::os::unix::process::CommandExt;
use std::path::PathBuf;
use std::process::{Child, Command, Stdio};
use std::time::{Duration, Instant};

#[path = "../data/folder.rs"]
mod folder;

/// PostgreSQL does not run as root.
const USER: u32 = 65534;
const SETTINGS: &str =
    "listen_addresses = '127.0.0.1'\nshared_buffers = 32MB\nmax_wal_size = 512MB\nwal_keep_size = 128MB\n\
    wal_sender_timeout = 5s\nhot_standby = on\nlog_min_messages = warning\nmax_connections = 80\n";

pub struct Server {
    folder: tempfile::TempDir,
    programs: PathBuf,
    pub port: u16,
    child: Option<Child>,
}

fn is_root() -> bool {
    std::fs::metadata("/proc/self").unwrap().uid() == 0
}

fn programs() -> Option<PathBuf> {
    let folders = std::fs::read_dir("/usr/lib/postgresql").ok()?;
    let mut folders: Vec<PathBuf> = folders.flatten().map(|entry| entry.path().join("bin")).collect();
    folders.retain(|folder| folder.join("initdb").exists());
    folders.sort();
    folders.pop()
}

fn free_port() -> u16 {
    let listener = std::net::TcpListener::bind("127.0.0.1:0").unwrap();
    listener.local_addr().unwrap().port()
}

pub fn wait_until(what: &str, mut is_so: impl FnMut() -> bool) {
    let begun = Instant::now();
    while !is_so() {
        assert!(begun.elapsed() < Duration::from_secs(60), "waited a minute: {what}");
        std::thread::sleep(Duration::from_millis(20));
    }
}

impl Server {
    fn new() -> Option<Server> {
        let Some(programs) = programs() else {
            println!("skipped: there is no initdb; `tools/needs test` installs postgresql");
            return None;
        };
        let folder = tempfile::tempdir().unwrap();
        if is_root() {
            std::os::unix::fs::chown(folder.path(), Some(USER), Some(USER)).unwrap();
        }
        Some(Server { folder, programs, port: free_port(), child: None })
    }

    /// Starts it with these settings in addition to its own.
    pub fn start(settings: &str) -> Option<Server> {
        let mut server = Server::new()?;
        let mut initdb = server.command("initdb");
        initdb.args(["-U", "postgres", "-E", "UTF8", "--locale=C", "-N", "-A", "trust", "-D"]);
        folder::make(&server.data(), initdb);
        server.set(&format!("{SETTINGS}{settings}\n"));
        server.run();
        Some(server)
    }

    /// Makes a standby of it. From now on its commits wait for the standby.
    pub fn standby(&self) -> Server {
        let mut standby = Server::new().unwrap();
        standby.copy_of(self);
        self.set("synchronous_standby_names = '*'\n");
        standby.set("synchronous_standby_names = '*'\n");
        standby.run();
        self.ask("select pg_reload_conf()");
        self.wait_for_standby();
        standby
    }

    fn copy_of(&mut self, primary: &Server) {
        let from = format!("host=127.0.0.1 port={} user=postgres application_name=standby", primary.port);
        let mut backup = self.command("pg_basebackup");
        backup.args(["-d", &from, "-R", "-X", "stream", "-c", "fast", "-D"]);
        done(backup.arg(self.data()));
    }

    /// Makes a killed server again, as the standby of another.
    pub fn be_standby_of(&mut self, primary: &Server) {
        std::fs::remove_dir_all(self.data()).unwrap();
        self.copy_of(primary);
        self.run();
        primary.wait_for_standby();
    }

    pub fn wait_for_standby(&self) {
        let query = "select count(*) from pg_stat_replication where sync_state in ('sync', 'quorum')";
        wait_until("a synchronous standby", || self.ask(query) == "1");
    }

    fn data(&self) -> PathBuf {
        self.folder.path().join("data")
    }

    fn command(&self, program: &str) -> Command {
        let mut command = Command::new(self.programs.join(program));
        command.current_dir(self.folder.path()).stdin(Stdio::null());
        if is_root() {
            command.uid(USER).gid(USER);
        }
        command
    }

    fn set(&self, lines: &str) {
        use std::io::Write;
        let conf = self.data().join("postgresql.conf");
        let mut conf = std::fs::OpenOptions::new().append(true).open(conf).unwrap();
        conf.write_all(lines.as_bytes()).unwrap();
    }

    pub fn run(&mut self) {
        // The killed server's file. Its process number may be another's now.
        let _ = std::fs::remove_file(self.data().join("postmaster.pid"));
        let mut log = std::fs::OpenOptions::new();
        let log = log.create(true).append(true).open(self.folder.path().join("log")).unwrap();
        let mut command = self.command("postgres");
        command.arg("-D").arg(self.data()).args(["-p", &self.port.to_string(), "-k"]);
        command.arg(self.folder.path()).stdout(Stdio::null()).stderr(log);
        self.child = Some(command.spawn().unwrap());
        wait_until("the server starts", || self.psql("select 1").output().unwrap().status.success());
    }

    /// Makes it the primary. Its commits wait for a standby.
    pub fn promote(&self) {
        done(self.command("pg_ctl").args(["promote", "-w", "-D"]).arg(self.data()));
    }

    fn id(&self) -> Pid {
        Pid::from_raw(self.child.as_ref().expect("it runs").id() as i32)
    }

    /// Kills all its processes at once, as when the machine fails.
    pub fn kill(&mut self) {
        let all = self.processes("");
        kill(self.id(), Signal::SIGKILL).unwrap();
        for process in all {
            let _ = kill(process, Signal::SIGKILL); // it may be gone already
        }
        self.child.take().unwrap().wait().unwrap();
        // Shared memory is free after all of them have ended.
        std::thread::sleep(Duration::from_millis(100));
    }

    /// The server's processes of this kind.
    fn processes(&self, kind: &str) -> Vec<Pid> {
        let parent = self.id().to_string();
        let is_ours = |entry: &std::fs::DirEntry| {
            let stat = std::fs::read_to_string(entry.path().join("stat")).ok()?;
            let of = stat.rsplit_once(')')?.1.split_whitespace().nth(1)?.to_string();
            let words = std::fs::read_to_string(entry.path().join("cmdline")).ok()?;
            (of == parent && words.contains(kind)).then_some(())
        };
        let entries = std::fs::read_dir("/proc").unwrap().flatten();
        let ours = entries.filter(|entry| is_ours(entry).is_some());
        let number = |entry: std::fs::DirEntry| entry.file_name().to_str()?.parse().ok();
        ours.filter_map(number).map(Pid::from_raw).collect()
    }

    /// Suspends or resumes a standby: while it is suspended, it takes nothing and confirms nothing.
    pub fn hold(&self, signal: Signal) {
        for process in self.processes("walreceiver") {
            kill(process, signal).unwrap();
        }
    }

    fn psql(&self, query: &str) -> Command {
        self.psql_in("postgres", query)
    }

    fn psql_in(&self, database: &str, query: &str) -> Command {
        let mut command = self.command("psql");
        command.args(["-U", "postgres", "-XAtq", "-v", "ON_ERROR_STOP=1", "-h", "127.0.0.1"]);
        command.args(["-p", &self.port.to_string(), "-d", database, "-c", query]);
        command
    }

    pub fn ask(&self, query: &str) -> String {
        done(&mut self.psql(query))
    }

    pub fn ask_in(&self, database: &str, query: &str) -> String {
        done(&mut self.psql_in(database, query))
    }

    pub fn address(&self) -> String {
        self.address_of("postgres")
    }

    pub fn address_of(&self, database: &str) -> String {
        format!("postgres://postgres@127.0.0.1:{}/{database}", self.port)
    }
}

fn done(command: &mut Command) -> String {
    let output = command.output().unwrap();
    let error = String::from_utf8_lossy(&output.stderr);
    assert!(output.status.success(), "{command:?}: {error}");
    String::from_utf8(output.stdout).unwrap().trim().into()
}

impl Drop for Server {
    fn drop(&mut self) {
        if self.child.is_some() {
            self.kill();
        }
    }
}
