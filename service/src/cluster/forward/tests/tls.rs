//! Instances that talk to each other by TLS.

use super::peers::{internal, posted, secret, there, Shards};
use super::*;
use crate::ingest::connections::serve_over;
use crate::ingest::Limits;
use crate::tls::Tls;

/// An owner with this certificate and these roots, and its port.
async fn over_tls(tls: Arc<Tls>) -> (u16, Arc<Shards>, tokio::sync::watch::Sender<bool>) {
    let listener = TcpListener::bind("127.0.0.1:0").await.unwrap();
    let port = listener.local_addr().unwrap().port();
    let (_, shards, internal) = internal(Shards::default(), ShardOwner::Here { term: 5 });
    let limits = Limits { connections: 10, head: Duration::from_secs(5), idle: Duration::from_secs(60) };
    let (stop, stopped) = tokio::sync::watch::channel(false);
    tokio::spawn(serve_over(Arc::new(listener), Some(tls), limits, internal, stopped));
    (port, shards, stop)
}

fn asks_over(tls: Option<Arc<Tls>>, port: u16, of: &str) -> Forward<Shards> {
    let cluster = Cluster::new("receiver", None);
    cluster.knows(&[(3, there(&format!("localhost:{port}")))]);
    Forward::new(cluster, secret(of), tls)
}

/// `server` and `other` each have a root of their own; `both` trusts the two.
fn peers_folder() -> tempfile::TempDir {
    let at = crate::tls::tests::folder();
    crate::tls::tests::server(at.path());
    let made = |name, names, by| {
        let made = crate::tls::tests::Made { name, names, by, ..Default::default() };
        crate::tls::tests::certificate(at.path(), made);
    };
    made("root", None, None);
    made("other", Some("DNS:localhost"), Some("root"));
    let both = ["ca.pem", "root.pem"].map(|name| std::fs::read(at.path().join(name)).unwrap());
    std::fs::write(at.path().join("both.pem"), both.concat()).unwrap();
    at
}

#[tokio::test(flavor = "multi_thread", worker_threads = 2)]
async fn over_tls_both_sides_look_at_what_the_other_shows() {
    let at = peers_folder();
    let peer = |name: &str, ca: &str| {
        tokio::task::block_in_place(|| crate::tls::peer_tests::peer(at.path(), name, ca).unwrap())
    };
    let (port, shards, _stop) = over_tls(peer("server", "ca")).await;
    let ours = peer("server", "ca");
    let forward = asks_over(Some(ours.clone()), port, "of all");
    assert_eq!(posted(&forward, "{}").await, Outcome::taken(0));
    // A peer that trusts the owner and is not trusted by it; and the reverse.
    for (tls, why) in
        [(Some(peer("other", "both")), "another root has signed what it shows"), (None, "no TLS")]
    {
        let forward = asks_over(tls, port, "of all");
        assert_eq!(posted(&forward, "{}").await, Reason::OwnerSilent.into(), "{why}");
    }
    let (elsewhere, strange, _stop) = over_tls(peer("other", "both")).await;
    let forward = asks_over(Some(ours.clone()), elsewhere, "of all");
    assert_eq!(posted(&forward, "{}").await, Reason::OwnerSilent.into(), "it is not believed");
    // The secret is checked all the same.
    let forward = asks_over(Some(ours), port, "another");
    assert_eq!(posted(&forward, "{}").await, Reason::OwnerSilent.into());
    assert_eq!((shards.count(), strange.count()), (1, 0));
}

#[tokio::test(flavor = "multi_thread", worker_threads = 2)]
async fn files_that_change_count_for_connections_that_are_kept() {
    let at = peers_folder();
    let copy = |from: &str, to: &str| std::fs::copy(at.path().join(from), at.path().join(to)).unwrap();
    copy("both.pem", "owners.pem");
    for end in ["pem", "key"] {
        copy(&format!("other.{end}"), &format!("mine.{end}"));
    }
    let peer = |name: &str, ca: &str| {
        tokio::task::block_in_place(|| crate::tls::peer_tests::peer(at.path(), name, ca).unwrap())
    };
    let (port, _, _stop) = over_tls(peer("server", "owners")).await;
    let forward = asks_over(Some(peer("mine", "both")), port, "of all");
    assert_eq!(posted(&forward, "{}").await, Outcome::taken(0));
    let within = |wanted: Outcome| {
        let forward = &forward;
        async move {
            let began = Instant::now();
            while posted(forward, "{}").await != wanted {
                assert!(began.elapsed() < Duration::from_secs(20), "not {wanted:?}");
                sleep(Duration::from_millis(50)).await;
            }
        }
    };
    // First the root of the shown certificate is removed, and then another certificate is shown.
    copy("ca.pem", "owners.pem");
    within(Reason::OwnerSilent.into()).await;
    for end in ["pem", "key"] {
        copy(&format!("server.{end}"), &format!("mine.{end}"));
    }
    within(Outcome::taken(0)).await;
}

/// A connection that is in use is never made anew, so without this it would last as long as posts arrive.
#[tokio::test(flavor = "multi_thread", worker_threads = 2)]
async fn a_connection_that_is_kept_ends_with_its_certificate() {
    let at = peers_folder();
    let peer = |name: &str| {
        tokio::task::block_in_place(|| crate::tls::peer_tests::peer(at.path(), name, "ca").unwrap())
    };
    let (port, _, _stop) = over_tls(peer("server")).await;
    crate::tls::tests::certificate_for(at.path(), "short", 4);
    let made = Instant::now();
    let forward = asks_over(Some(peer("short")), port, "of all");
    while made.elapsed() < Duration::from_secs(3) {
        assert_eq!(posted(&forward, "{}").await, Outcome::taken(0));
        sleep(Duration::from_millis(50)).await;
    }
    while posted(&forward, "{}").await != Reason::OwnerSilent.into() {
        assert!(made.elapsed() < Duration::from_secs(8), "it goes on behind its end");
        sleep(Duration::from_millis(50)).await;
    }
}
