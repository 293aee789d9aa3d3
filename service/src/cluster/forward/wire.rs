//! The HTTP clients for other instances.

use super::{peer, CONNECT, IDLE};
use crate::sink::roots::client_config;
use crate::tls::{Contexts, Tls};
use crate::work::locked;
use hyper::client::HttpConnector;
use hyper::{Body, Client};
use hyper_rustls::HttpsConnector;
use rustls::{ClientConfig, RootCertStore};
use std::sync::{Arc, Mutex, MutexGuard};

type Asks = Client<HttpsConnector<HttpConnector>, Body>;

/// The clients for other instances. After TLS files have changed, they open new connections.
pub(super) struct Connections {
    /// Set if both sides show a certificate.
    tls: Option<Arc<Tls>>,
    now: Mutex<Now>,
}

struct Now {
    by: Option<Arc<Contexts>>,
    asks: Asks,
    /// For checks of reachability alone, so that they wait for no post.
    looks: Asks,
}

impl Now {
    fn of(by: Option<Arc<Contexts>>) -> Now {
        let config = by.as_ref().and_then(|by| by.client());
        // Such a client trusts no root, so it can't connect by TLS.
        let config = config.unwrap_or_else(|| Arc::new(client_config(RootCertStore::empty())));
        Now { asks: client(config.clone(), peer::POSTS), looks: client(config, 1), by }
    }
}

impl Connections {
    pub fn new(tls: Option<Arc<Tls>>) -> Connections {
        let now = Now::of(tls.as_ref().map(|tls| tls.contexts()));
        Connections { tls, now: Mutex::new(now) }
    }

    pub fn scheme(&self) -> &'static str {
        match self.tls {
            None => "http",
            Some(_) => "https",
        }
    }

    pub fn asks(&self) -> Asks {
        self.now().asks.clone()
    }

    pub fn looks(&self) -> Asks {
        self.now().looks.clone()
    }

    fn now(&self) -> MutexGuard<'_, Now> {
        let mut now = locked(&self.now);
        if let Some(tls) = &self.tls {
            let latest = tls.contexts();
            if !now.by.as_ref().is_some_and(|by| Arc::ptr_eq(by, &latest)) {
                *now = Now::of(Some(latest));
            }
        }
        now
    }
}

fn client(config: Arc<ClientConfig>, kept: usize) -> Asks {
    let mut http = HttpConnector::new();
    http.enforce_http(false);
    http.set_nodelay(true);
    http.set_connect_timeout(Some(CONNECT));
    let mut client = Client::builder();
    client.pool_idle_timeout(IDLE).pool_max_idle_per_host(kept);
    client.build(HttpsConnector::from((http, config)))
}
