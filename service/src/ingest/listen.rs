//! Opens the listeners of addresses: TCP ports, and Unix sockets of this machine.

use super::user::User;
use std::future::Future;
use std::io::{ErrorKind, Result};
use std::os::unix::fs::{FileTypeExt, PermissionsExt};
use std::path::Path;
use std::time::Duration;
use tokio::io::{AsyncRead, AsyncWrite};
use tokio::net::{TcpListener, TcpStream, UnixListener, UnixStream};
use tokio::time::Instant;

/// How long `listen` retries while the address is in use: a killed process holds it until the kernel has ended that
/// process.
const PATIENCE: Duration = Duration::from_secs(1);
const PAUSE: Duration = Duration::from_millis(20);

/// Listens on a TCP address. The standard library opens the socket with CLOEXEC, so no child process inherits it.
pub async fn listen(address: &str) -> Result<TcpListener> {
    let until = Instant::now() + PATIENCE;
    loop {
        match TcpListener::bind(address).await {
            Err(error) if error.kind() == ErrorKind::AddrInUse && Instant::now() < until => {
                tokio::time::sleep(PAUSE).await;
            }
            bound => return bound,
        }
    }
}

/// The mode of the socket: its owner and its group may connect.
const SOCKET_MODE: u32 = 0o660;

/// Listens on a Unix socket. A socket file that a killed process has left is removed first.
pub async fn listen_at_socket(path: &Path) -> Result<UnixListener> {
    let is_socket = std::fs::symlink_metadata(path).is_ok_and(|file| file.file_type().is_socket());
    let is_left = |error: std::io::Error| error.kind() == ErrorKind::ConnectionRefused;
    if is_socket && UnixStream::connect(path).await.is_err_and(is_left) {
        std::fs::remove_file(path)?;
    }
    let listener = UnixListener::bind(path)?;
    std::fs::set_permissions(path, PermissionsExt::from_mode(SOCKET_MODE))?;
    Ok(listener)
}

/// A source of connections.
pub trait Listener: Send + Sync + 'static {
    type Stream: AsyncRead + AsyncWrite + Unpin + Send + 'static;

    fn accepted(&self) -> impl Future<Output = Result<Self::Stream>> + Send;

    /// The user at the other end, if the system knows it.
    fn user(stream: &Self::Stream) -> Option<User>;

    /// The address as people write it, with the actual port if 0 was asked for.
    fn shown(&self) -> String;
}

impl Listener for TcpListener {
    type Stream = TcpStream;

    async fn accepted(&self) -> Result<TcpStream> {
        let (stream, _) = self.accept().await?;
        let _ = stream.set_nodelay(true); // an answer is one write anyway
        Ok(stream)
    }

    fn user(_: &TcpStream) -> Option<User> {
        None
    }

    fn shown(&self) -> String {
        self.local_addr().map_or_else(|error| error.to_string(), |address| address.to_string())
    }
}

impl Listener for UnixListener {
    type Stream = UnixStream;

    async fn accepted(&self) -> Result<UnixStream> {
        Ok(self.accept().await?.0)
    }

    fn user(stream: &UnixStream) -> Option<User> {
        User::of(stream)
    }

    fn shown(&self) -> String {
        let address = self.local_addr().ok();
        let path = address.as_ref().and_then(|address| address.as_pathname());
        path.map_or("unix:".into(), |path| format!("unix:{}", path.display()))
    }
}

#[cfg(test)]
mod tests {
    use super::*;
    use std::os::unix::fs::MetadataExt;

    /// A socket that a process listens on, and a file that is no socket, must stay.
    #[tokio::test]
    async fn a_socket_that_was_left_is_taken_away_and_no_other() {
        let at = tempfile::tempdir().unwrap();
        let path = at.path().join("admin.sock");
        let first = listen_at_socket(&path).await.unwrap();
        assert_eq!(std::fs::metadata(&path).unwrap().mode() & 0o777, 0o660);
        let taken = listen_at_socket(&path).await.unwrap_err();
        assert_eq!(taken.kind(), ErrorKind::AddrInUse);
        drop(first); // its file stays, as after a kill
        let second = listen_at_socket(&path).await.unwrap();
        assert_eq!(second.shown(), format!("unix:{}", path.display()));
        drop(second);
        std::fs::remove_file(&path).unwrap();
        std::fs::write(&path, "a file").unwrap();
        assert!(listen_at_socket(&path).await.is_err());
        assert_eq!(std::fs::read(&path).unwrap(), b"a file");
    }
    use nix::fcntl::{fcntl, FcntlArg, FdFlag};
    use std::os::fd::AsRawFd;

    #[tokio::test]
    async fn what_is_about_to_be_free_is_waited_for() {
        let before = std::net::TcpListener::bind("127.0.0.1:0").unwrap();
        let address = before.local_addr().unwrap().to_string();
        let ending = tokio::spawn(async move {
            tokio::time::sleep(Duration::from_millis(300)).await;
            drop(before);
        });
        let listener = listen(&address).await.unwrap();
        assert_eq!(listener.local_addr().unwrap().to_string(), address);
        ending.await.unwrap();
        let flags = fcntl(listener.as_raw_fd(), FcntlArg::F_GETFD).unwrap();
        assert!(FdFlag::from_bits_truncate(flags).contains(FdFlag::FD_CLOEXEC));
        assert_eq!(listen(&address).await.unwrap_err().kind(), ErrorKind::AddrInUse);
    }
}
