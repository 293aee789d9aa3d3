//! The listeners for senders: HTTP, and gRPC if it is on.

use super::{Ended, Settings};
use crate::grpc::Grpc;
use crate::identity::Door;
use crate::ingest::connections::{spread, Limits, Shared};
use crate::ingest::front::Http;
use crate::ingest::{listen, Ingest, Listener, PostHandler, Threads};
use anyhow::anyhow;
use std::io::ErrorKind;
use std::sync::Arc;
use tokio::net::TcpListener;
use tokio::sync::watch;

/// That of gRPC, which may be off: its default may be another program's.
const GRPC: &str = "--listen-grpc";

pub(super) async fn bind(option: &str, address: &str) -> Result<TcpListener, Ended> {
    Ok(listen(address).await.map_err(|error| {
        let what = match error.kind() {
            ErrorKind::AddrInUse if option == GRPC => {
                format!("end what listens there, give another {option}, or {option} off")
            }
            ErrorKind::AddrInUse => format!("stop what listens there, or give another {option}"),
            ErrorKind::InvalidInput => "write HOST:PORT".to_string(),
            _ => format!("give another {option}"),
        };
        anyhow!("{option} {address} can't be listened on ({error}): {what}")
    })?)
}

/// Whether no other machine can reach it.
pub(super) fn is_local(listener: &TcpListener) -> bool {
    let place = listener.local_addr();
    place.is_ok_and(|place| place.ip().to_canonical().is_loopback())
}

/// Listens at an address that other machines can't reach, or at which no stranger can read or post.
async fn bind_closed(option: &str, address: &str, settings: &Settings) -> Result<TcpListener, Ended> {
    let listener = bind(option, address).await?;
    match is_local(&listener) || settings.behind_proxy || settings.door.is_closed() {
        true => Ok(listener),
        false => Err(Ended::Line(anyhow!(
            "{option} {address} is open to other machines, so anybody on the network could {}; or --behind-proxy if only a \
             proxy with TLS and senders' names reaches it",
            could(settings.door.has_tls(), settings.door.has_names())
        ))),
    }
}

/// What a stranger could do, and the options that prevent it.
fn could(has_tls: bool, has_names: bool) -> &'static str {
    match (has_tls, has_names) {
        (false, false) => {
            "read posts and post under any name: give --tls-cert and --tls-key, and --tokens or --client-ca"
        }
        (false, true) => "read posts: give --tls-cert and --tls-key",
        (true, _) => "post under any name: give --tokens or --client-ca",
    }
}

#[derive(Clone)]
pub(super) struct Senders {
    senders: Arc<TcpListener>,
    callers: Option<Arc<TcpListener>>,
    door: Door,
}

impl Senders {
    /// Opens the listeners; nothing accepts connections yet.
    pub async fn bind(settings: &Settings) -> Result<Senders, Ended> {
        let senders = Arc::new(bind_closed("--listen", &settings.listen, settings).await?);
        let callers = match &settings.listen_grpc {
            Some(address) => Some(Arc::new(bind_closed(GRPC, address, settings).await?)),
            None => None,
        };
        let door = settings.door.clone();
        Ok(Senders { senders, callers, door })
    }

    pub fn shown(&self) -> String {
        let callers = self.callers.iter().map(|callers| format!(", gRPC to {}", callers.shown()));
        self.senders.shown() + &callers.collect::<String>()
    }

    /// Runs until both have ended.
    pub async fn serve<T: PostHandler>(
        self,
        limits: Limits,
        ingest: Arc<Ingest<T>>,
        threads: Arc<Threads>,
        stop: watch::Receiver<bool>,
    ) {
        let shared = || Shared::new(limits.clone(), self.door.clone(), ingest.clone(), stop.clone());
        let callers = async {
            if let Some(callers) = self.callers {
                spread::<Grpc, _>(callers, shared(), threads.clone()).await;
            }
        };
        let senders = spread::<Http, _>(self.senders, shared(), threads.clone());
        tokio::join!(senders, callers);
    }
}

#[cfg(test)]
mod tests {
    use super::could;

    /// Otherwise somebody who has given the files would be asked for them again.
    #[test]
    fn what_is_missing_is_asked_for() {
        for (has_tls, has_names, has) in
            [(false, false, [true, true]), (false, true, [true, false]), (true, false, [false, true])]
        {
            let text = could(has_tls, has_names);
            assert_eq!(["--tls-cert", "--tokens"].map(|option| text.contains(option)), has, "{text}");
        }
    }
}
