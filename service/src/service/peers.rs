//! The listener for posts from other instances.

use super::senders::{bind, is_local};
use super::{Ended, StoreSettings};
use crate::metrics::Metrics;
use crate::tls::Tls;
use anyhow::{anyhow, Context};
use std::net::IpAddr;
use std::sync::Arc;
use tokio::net::TcpListener;

pub(super) struct Peers {
    pub listener: TcpListener,
    /// None if the instances use no TLS.
    pub tls: Option<Arc<Tls>>,
}

impl Peers {
    /// Listens at an address that other machines can't reach, or at which no stranger can read or post.
    pub async fn bind(of: &StoreSettings, metrics: &Arc<Metrics>) -> Result<Peers, Ended> {
        let listener = bind("--peer", &of.peer).await?;
        if !is_local(&listener) && of.peer_tls.is_none() && !of.peer_plain {
            return Err(Ended::Line(anyhow!(
                "--peer {} is open to other machines, so anybody on the network could read the instances' secret and then \
                 post under any name: give --peer-ca and a certificate, or --peer-plain if only the instances reach that \
                 network",
                of.peer
            )));
        }
        let at = listener.local_addr().context("--peer has no address")?.ip();
        look_at_name(&of.peer, at.to_canonical())?;
        let tls = of.peer_tls.as_ref();
        let tls = tls.map(|files| Tls::of_peers(files, host(&of.peer), metrics.clone()));
        Ok(Peers { listener, tls: tls.transpose()?.map(Arc::new) })
    }
}

/// Passes if other instances can reach this one by this name. Debian's `/etc/hosts` maps a machine's own name to
/// 127.0.1.1, and 0.0.0.0 leads each machine to itself.
fn look_at_name(peer: &str, at: IpAddr) -> Result<(), Ended> {
    let host = host(peer);
    let is_meant =
        host.eq_ignore_ascii_case("localhost") || host.trim_matches(['[', ']']).parse::<IpAddr>().is_ok();
    if !at.is_unspecified() && (is_meant || !at.is_loopback()) {
        return Ok(());
    }
    Err(Ended::Other(anyhow!(
        "--peer {peer} is {at} on this machine, where no other instance can reach this one: give the name or address by \
         which the others reach this machine (/etc/hosts must not map that name to {at}), or localhost if all instances \
         are on this machine"
    )))
}

fn host(address: &str) -> &str {
    address.rsplit_once(':').map_or(address, |(host, _)| host)
}

#[cfg(test)]
mod tests {
    use super::*;
    use crate::store::postgres::{address, Copies};
    use crate::tls::Files;
    use crate::tls::{peer_tests, tests};

    fn at(peer: &str, peer_plain: bool, peer_tls: Option<Files>) -> StoreSettings {
        StoreSettings {
            database: address("postgres://u@h/d").unwrap(),
            copies: Copies::Two,
            instance: "a".into(),
            peer: peer.into(),
            peer_tls,
            peer_plain,
            reading: String::new(),
        }
    }

    #[test]
    fn a_name_that_leads_each_machine_to_itself_is_refused() {
        let refusal =
            |peer: &str, at: &str| look_at_name(peer, at.parse().unwrap()).err().map(|why| why.to_string());
        for (peer, at) in [
            ("a.example:4320", "10.0.0.21"),
            ("10.0.0.21:4320", "10.0.0.21"),
            ("localhost:4320", "127.0.0.1"),
            ("127.0.1.1:4320", "127.0.1.1"),
            ("[::1]:4320", "::1"),
        ] {
            assert_eq!(refusal(peer, at), None);
        }
        for (peer, at) in [
            ("a.example:4320", "127.0.1.1"),
            ("a:4320", "::1"),
            ("0.0.0.0:4320", "0.0.0.0"),
            ("[::]:4320", "::"),
        ] {
            let why = refusal(peer, at).unwrap_or_default();
            assert!(why.starts_with(&format!("--peer {peer} is {at} on this machine")), "{why}");
            assert!(why.contains("/etc/hosts must not") && why.contains("localhost"), "{why}");
        }
    }

    #[tokio::test(flavor = "multi_thread", worker_threads = 2)]
    async fn beyond_loopback_there_is_tls_or_nobody_else() {
        let metrics = Arc::new(Metrics::new().unwrap());
        let bound = |of: StoreSettings| {
            let metrics = metrics.clone();
            async move { Peers::bind(&of, &metrics).await }
        };
        assert!(bound(at("127.0.0.1:0", false, None)).await.is_ok());
        let Err(Ended::Other(why)) = bound(at("0.0.0.0:0", true, None)).await else {
            panic!("each other instance would call itself");
        };
        assert!(why.to_string().contains("by which the others reach this machine"), "{why}");
        let Err(Ended::Line(why)) = bound(at("0.0.0.0:0", false, None)).await else {
            panic!("it is not refused");
        };
        let text = why.to_string();
        assert!(text.contains("--peer-ca") && text.contains("--peer-plain"), "{text}");
        let folder = tests::folder();
        tests::server(folder.path());
        let files = peer_tests::files(folder.path(), "server", "ca");
        let peers = bound(at("localhost:0", false, Some(files.clone()))).await.unwrap();
        assert!(peers.tls.is_some());
        assert!(bound(at("127.0.0.1:0", false, Some(files))).await.is_err(), "no name");
        tokio::task::block_in_place(|| drop(peers));
    }
}
