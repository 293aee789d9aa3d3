//! The HTTP client, which keeps connections.

use hyper::client::HttpConnector;
use hyper::Body;
use hyper_rustls::HttpsConnector;
use rustls::ClientConfig;
use std::time::Duration;

pub(crate) type Client = hyper::Client<HttpsConnector<HttpConnector>, Body>;

const CONNECT: Duration = Duration::from_secs(10);
/// Shorter than servers and proxies commonly keep idle connections, so that a connection is rarely closed under a
/// request.
const IDLE: Duration = Duration::from_secs(20);

pub(super) fn client_of(tls: ClientConfig) -> Client {
    let mut http = HttpConnector::new();
    http.enforce_http(false);
    http.set_nodelay(true);
    http.set_connect_timeout(Some(CONNECT));
    http.set_keepalive(Some(Duration::from_secs(60)));
    let connector = HttpsConnector::from((http, tls));
    hyper::Client::builder().pool_idle_timeout(IDLE).build(connector)
}
