//! Identifies the process at the other end of an operator's connection.

use tokio::net::UnixStream;

/// The user id of the peer of a Unix socket, as the kernel reports it. It is an extension of each request.
#[derive(Clone, Copy, Debug)]
pub struct User(pub u32);

impl User {
    /// None if the connection is broken already.
    pub fn of(stream: &UnixStream) -> Option<User> {
        Some(User(stream.peer_cred().ok()?.uid()))
    }
}
