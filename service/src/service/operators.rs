//! The listeners for operators: TCP for reading, a Unix socket for commands.

use super::senders::{bind, is_local};
use super::{Ended, Settings};
use crate::admin::{AdminApi, TcpAdmin};
use crate::identity::Tokens;
use crate::ingest::connections::{serve, Handler, Limits};
use crate::ingest::{listen_at_socket, Listener};
use crate::reloaded::Reloaded;
use anyhow::anyhow;
use std::path::{Path, PathBuf};
use std::sync::Arc;
use tokio::net::{TcpListener, UnixListener};
use tokio::sync::watch;

/// The most connections to the TCP address.
const READERS: usize = 8;

/// The admin addresses, as they are configured.
#[derive(Clone)]
pub struct AdminAddresses {
    /// Where everybody may read.
    pub tcp: Option<String>,
    /// Where commands are accepted.
    pub socket: PathBuf,
    /// Whose commands are accepted over TCP too.
    pub tokens: Option<Arc<Reloaded<Tokens>>>,
}

/// The TCP listener, opened before the folder is locked.
pub(super) struct Readers(Option<Arc<TcpListener>>);

#[derive(Clone)]
pub(super) struct Operators {
    tcp: Option<Arc<TcpListener>>,
    socket: Arc<UnixListener>,
    tokens: Option<Arc<Reloaded<Tokens>>>,
}

impl Readers {
    pub async fn bind(settings: &Settings) -> Result<Readers, Ended> {
        let Some(address) = &settings.operate.tcp else {
            return Ok(Readers(None));
        };
        let listener = bind("--admin", address).await?;
        if settings.operate.tokens.is_some() && !settings.behind_proxy && !is_local(&listener) {
            return Err(Ended::Line(anyhow!(
                "--admin {address} is open to other machines, so anybody on the network could read tokens of \
                 --admin-tokens: leave --admin-tokens out, or give --behind-proxy if only a proxy with TLS reaches the \
                 address"
            )));
        }
        Ok(Readers(Some(Arc::new(listener))))
    }

    /// Adds the Unix socket. It may be in the folder, so the folder must be locked by now.
    pub async fn and_socket(self, operate: &AdminAddresses) -> Result<Operators, Ended> {
        Ok(Operators {
            tcp: self.0,
            socket: Arc::new(bind_socket(&operate.socket).await?),
            tokens: operate.tokens.clone(),
        })
    }
}

async fn bind_socket(path: &Path) -> Result<UnixListener, Ended> {
    Ok(listen_at_socket(path).await.map_err(|error| {
        anyhow!(
            "--admin unix:{} can't be listened on ({error}): stop what listens there, or give another path of at most 107 \
             bytes in an existing folder",
            path.display()
        )
    })?)
}

impl Operators {
    /// The addresses, for the log.
    pub fn shown(&self) -> String {
        let tcp = self.tcp.iter().map(|tcp| format!("read at {}, and ", tcp.shown()));
        format!("{}order at {}", tcp.collect::<String>(), self.socket.shown())
    }

    /// Whether no other machine can reach the addresses.
    pub fn is_local(&self) -> bool {
        self.tcp.as_ref().is_none_or(|tcp| is_local(tcp))
    }

    /// Runs until both listeners have ended.
    pub async fn serve(self, limits: Limits, admin: Arc<AdminApi>, stop: watch::Receiver<bool>) {
        let at_tcp =
            TcpAdmin { admin: admin.clone(), orders_at: self.socket.shown(), tokens: self.tokens.clone() };
        self.serve_by(limits, Arc::new(at_tcp), admin, stop).await;
    }

    /// The same with other handlers.
    pub async fn serve_by<T: Handler, H: Handler>(
        self,
        limits: Limits,
        at_tcp: Arc<T>,
        at_socket: Arc<H>,
        stop: watch::Receiver<bool>,
    ) {
        let tcp = async {
            if let Some(tcp) = self.tcp {
                let limits = Limits { connections: READERS, ..limits.clone() };
                serve(tcp, limits, at_tcp, stop.clone()).await;
            }
        };
        tokio::join!(tcp, serve(self.socket, limits.clone(), at_socket, stop.clone()));
    }
}
