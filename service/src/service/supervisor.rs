//! Reports the state of the service to a supervisor (systemd's `Type=notify`), by datagrams to `NOTIFY_SOCKET`.

use std::os::linux::net::SocketAddrExt;
use std::os::unix::net::{SocketAddr, UnixDatagram};
use std::time::Duration;

/// How often to report that a start is still going on, and how much more time that asks for.
const STARTING: Duration = Duration::from_secs(5);
const LONGER: &str = "EXTEND_TIMEOUT_USEC=30000000\nSTATUS=recovering";

/// Does nothing if there is no supervisor.
#[derive(Clone)]
pub struct Supervisor {
    to: Option<SocketAddr>,
    /// The interval of the watchdog, halved.
    every: Option<Duration>,
}

impl Supervisor {
    pub fn from_environment() -> Supervisor {
        let variable = |name: &str| std::env::var(name).ok();
        let pid = variable("WATCHDOG_PID");
        let is_meant = pid.is_none_or(|pid| pid == std::process::id().to_string());
        let microseconds = variable("WATCHDOG_USEC").and_then(|text| text.parse().ok()).filter(|_| is_meant);
        Supervisor {
            to: variable("NOTIFY_SOCKET").and_then(|path| address(&path)),
            every: microseconds.map(|microseconds: u64| Duration::from_micros(microseconds / 2)),
        }
    }

    /// Reports that the service is ready, and after that regularly that it is alive. This is a task of the runtime, so
    /// a runtime that hangs is noticed.
    pub async fn watch(self, is_ready: impl Fn() -> bool) {
        if self.to.is_none() {
            return;
        }
        let mut waited = STARTING;
        while !is_ready() {
            if waited >= STARTING {
                self.tell(LONGER);
                waited = Duration::ZERO;
            }
            let step = Duration::from_millis(50);
            tokio::time::sleep(step).await;
            waited += step;
        }
        self.tell("READY=1\nSTATUS=ready");
        let Some(every) = self.every else { return };
        loop {
            self.tell("WATCHDOG=1");
            tokio::time::sleep(every).await;
        }
    }

    /// Asks for this much time to end: otherwise a supervisor that waits less kills shards that are being handed over.
    pub fn stopping(&self, within: Duration) {
        self.tell(&format!("STOPPING=1\nEXTEND_TIMEOUT_USEC={}", within.as_micros()));
    }

    /// Sends a datagram. Blocks only if the supervisor has many unread ones.
    fn tell(&self, text: &str) {
        let Some(to) = &self.to else { return };
        let told = UnixDatagram::unbound().and_then(|socket| socket.send_to_addr(text.as_bytes(), to));
        if let Err(error) = told {
            let reason = error.to_string();
            tracing::warn!(reason, "the supervisor at NOTIFY_SOCKET can't be notified");
        }
    }
}

/// A path, or after an `@` an abstract socket name.
fn address(text: &str) -> Option<SocketAddr> {
    match text.strip_prefix('@') {
        Some(name) => SocketAddr::from_abstract_name(name.as_bytes()).ok(),
        None => SocketAddr::from_pathname(text).ok(),
    }
}

#[cfg(test)]
mod tests {
    use super::*;

    #[tokio::test]
    async fn it_is_told_when_the_service_is_ready_and_lives() {
        let folder = tempfile::tempdir().unwrap();
        let path = folder.path().join("notify");
        let socket = UnixDatagram::bind(&path).unwrap();
        socket.set_read_timeout(Some(Duration::from_secs(5))).unwrap();
        let to = address(path.to_str().unwrap());
        let supervisor = Supervisor { to, every: Some(Duration::from_millis(1)) };
        let asked = std::sync::atomic::AtomicU32::new(0);
        let is_ready = move || asked.fetch_add(1, std::sync::atomic::Ordering::Relaxed) > 1;
        let watching = tokio::spawn(supervisor.clone().watch(is_ready));
        let told = tokio::task::spawn_blocking(move || {
            let mut bytes = [0; 256];
            let mut next = || {
                let length = socket.recv(&mut bytes).unwrap();
                String::from_utf8(bytes[..length].to_vec()).unwrap()
            };
            [next(), next(), next(), next()]
        });
        assert_eq!(told.await.unwrap(), [LONGER, "READY=1\nSTATUS=ready", "WATCHDOG=1", "WATCHDOG=1"]);
        watching.abort();
    }

    /// With `TimeoutStopSec` alone an instance with many shards would be killed during its hand-overs.
    #[test]
    fn it_is_told_how_long_the_end_may_take() {
        let folder = tempfile::tempdir().unwrap();
        let path = folder.path().join("notify");
        let socket = UnixDatagram::bind(&path).unwrap();
        let supervisor = Supervisor { to: address(path.to_str().unwrap()), every: None };
        supervisor.stopping(Duration::from_secs(90));
        let mut bytes = [0; 256];
        let length = socket.recv(&mut bytes).unwrap();
        assert_eq!(&bytes[..length], b"STOPPING=1\nEXTEND_TIMEOUT_USEC=90000000");
    }

    #[test]
    fn a_name_without_a_file_is_an_address() {
        assert!(address("@totxegun/test").unwrap().as_abstract_name().is_some());
        assert!(address("/run/notify").unwrap().as_pathname().is_some());
    }
}
