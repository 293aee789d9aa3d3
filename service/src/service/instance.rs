//! One of several instances that share a store. `cluster/heartbeats` has it open and close shards (`terms::ShardHost`).

use super::open_shard::{End, Files};
use super::open_shards::OpenShards;
use super::parts::limits;
use super::peers::Peers;
use super::{Ended, Settings};
use crate::admin::{AdminApi, Others, StoreHealth};
use crate::cluster::heartbeats::NameTaken;
use crate::cluster::terms::{self, Doing, OpenFailure};
use crate::cluster::{forward, Cluster, Forward, Heartbeats, Internal, Secret};
use crate::ingest::connections::{serve_over, Limits};
use crate::ingest::Ingest;
use crate::metrics::ClusterMetrics;
use crate::post_reports::Reported;
use crate::shard::{Phase, Shard, Shards};
use crate::storage::Fault;
use crate::store::postgres::{Copies, Member, PostgresShardStore, PostgresStore, Server};
use crate::tls;
use crate::work::{blocking, locked};
use anyhow::{anyhow, Context};
use std::collections::{BTreeMap, BTreeSet};
use std::net::IpAddr;
use std::sync::{Arc, Mutex};
use tokio::sync::watch;
use tokio::task::JoinHandle;

/// The most connections of other instances: for posts, and for operators' questions.
const PEERS: usize = forward::CONNECTIONS + 32;

/// The settings for a shared store.
pub struct StoreSettings {
    pub database: Server,
    pub copies: Copies,
    /// This instance's name, which no other one may use.
    pub instance: String,
    /// The address to which other instances send posts.
    pub peer: String,
    /// The certificates that instances show each other, if they use TLS.
    pub peer_tls: Option<tls::Files>,
    /// Only the instances can reach their network.
    pub peer_plain: bool,
    /// The settings that determine what posts mean; they must be the same on all instances.
    pub reading: String,
}

/// Takes the posts for shards that are open here.
type LocalIngest = Ingest<Reported<Shard>>;

/// The store, and what is known of the other instances.
pub(super) struct Joining {
    pub store: Arc<PostgresStore>,
    pub cluster: Arc<Cluster>,
    pub forward: Arc<Forward<LocalIngest>>,
    secret: Secret,
    peers: Peers,
    /// None after `others` was called.
    metrics: Option<Box<ClusterMetrics>>,
}

impl Joining {
    pub fn new(
        of: &StoreSettings,
        peers: Peers,
        store: PostgresStore,
        settings: &Settings,
    ) -> Result<Joining, Ended> {
        let secret = Secret::new(&store.cluster.secret).ok_or_else(|| {
            anyhow!(
                "the store's secret is not a valid header value: \
                restore the row of totxegun_store.cluster from a backup"
            )
        })?;
        let cluster = Cluster::new(&of.instance, settings.clock.most_off());
        let forward = Arc::new(Forward::new(cluster.clone(), secret.clone(), peers.tls.clone()));
        Ok(Joining {
            store: Arc::new(store),
            cluster,
            forward,
            secret,
            peers,
            metrics: Some(Box::new(
                ClusterMetrics::of(&settings.metrics.registry).context("the metrics can't be registered")?,
            )),
        })
    }

    /// How operators reach the other instances. Returns it only once.
    pub fn others(&mut self, of: &StoreSettings) -> Option<Others> {
        Some(Others {
            metrics: *self.metrics.take()?,
            cluster: self.cluster.clone(),
            asks: self.forward.clone(),
            database: StoreHealth::begin(&self.store, of.copies),
            instance: of.instance.clone(),
            address: of.peer.clone(),
        })
    }

    /// Starts to take over shards.
    pub fn join(
        self,
        settings: &Settings,
        of: &StoreSettings,
        open_shards: OpenShards,
        ingest: &Arc<LocalIngest>,
        admin: Arc<AdminApi>,
    ) -> Joined {
        self.forward.serve(ingest.clone());
        let (stop_peer, peer_stopped) = watch::channel(false);
        let (stop_beats, beats_stopped) = watch::channel(false);
        let internal = Internal::new(self.cluster.clone(), ingest.clone(), self.secret, admin.clone());
        let of_peers = Limits { connections: PEERS, ..limits(settings) };
        let Peers { listener, tls } = self.peers;
        let peer = tokio::spawn(serve_over(Arc::new(listener), tls, of_peers, internal, peer_stopped));
        let instance = Arc::new(Instance { open_shards, store: self.store.clone(), open: Mutex::default() });
        let operate = operate_for_others(&admin.operate, admin.is_local, &of.peer);
        let member = Member::new(&self.store, &of.instance, &of.peer, &operate);
        let beats = Heartbeats::new(self.cluster.clone(), Arc::new(member), instance.clone());
        Joined {
            cluster: self.cluster,
            instance,
            beats: tokio::spawn(beats.run(beats_stopped)),
            peer,
            looks: tokio::spawn(self.forward.look_at_others(of.peer.clone())),
            stop_beats,
            stop_peer,
        }
    }
}

/// The address at which operators on other machines reach this instance's admin listener; empty if they can't.
fn operate_for_others(operate: &str, is_local: bool, peer: &str) -> String {
    let host = |address: &str| address.rsplit_once(':').map(|(host, _)| host.to_string());
    let number = |host: &str| host.trim_matches(['[', ']']).parse::<IpAddr>().ok();
    let (Some(at), Some(of_peer)) = (host(operate), host(peer)) else { return String::new() };
    let all_are_here =
        of_peer == "localhost" || number(&of_peer).is_some_and(|address| address.is_loopback());
    match number(&at).is_some_and(|address| address.is_unspecified()) {
        // It listens at all addresses of this machine.
        true => format!("{of_peer}{}", &operate[at.len()..]),
        false if is_local && !all_are_here => String::new(),
        false => operate.into(),
    }
}

/// This instance among the others, running.
pub(super) struct Joined {
    cluster: Arc<Cluster>,
    instance: Arc<Instance>,
    pub beats: JoinHandle<Result<(), NameTaken>>,
    pub peer: JoinHandle<()>,
    looks: JoinHandle<()>,
    stop_beats: watch::Sender<bool>,
    stop_peer: watch::Sender<bool>,
}

impl Joined {
    /// A shard has ended alone: its writes found another owner, or it failed, and another instance may be able to open
    /// it. If we have taken it again in the meantime, it goes on.
    pub fn ended(&self, shard: u16, term: Option<u64>, end: &End) {
        let Some(shard_store) = self.instance.close_shard(shard, term) else { return };
        self.instance.open_shards.fence_off(shard);
        match end {
            End::Fenced => self.cluster.lost(shard, shard_store.term()),
            End::Failed(why) => self.cluster.failed(shard, shard_store.term(), &why.to_string()),
        }
    }

    /// Hands over all shards; posts for them go to their new owners meanwhile.
    pub async fn leave(&mut self) {
        self.stop_beats.send_replace(true);
        let _ = (&mut self.beats).await; // takes a minute at most
        self.stop_peer.send_replace(true);
    }
}

impl Drop for Joined {
    fn drop(&mut self) {
        self.beats.abort();
        self.peer.abort();
        self.looks.abort();
    }
}

/// The shards of this process, which the cluster opens and closes.
struct Instance {
    open_shards: OpenShards,
    store: Arc<PostgresStore>,
    open: Mutex<BTreeMap<u16, Arc<PostgresShardStore>>>,
}

impl Instance {
    /// Stops all writes to a shard that is open under this term.
    fn close_shard(&self, shard: u16, term: Option<u64>) -> Option<Arc<PostgresShardStore>> {
        let mut open = locked(&self.open);
        open.get(&shard).filter(|shard_store| Some(shard_store.term()) == term)?;
        let shard_store = open.remove(&shard)?;
        shard_store.fence_off();
        Some(shard_store)
    }

    async fn begin(&self, shard: u16, term: u64) -> Result<(), OpenFailure> {
        let store = self.store.clone();
        let epoch = store.cluster.epoch.clone();
        let read = blocking(move || {
            let shard_store = store.shard_store(shard, term).map_err(Fault::Fenced)?;
            let files = shard_store.open_files(&epoch)?;
            Ok::<_, Fault>((shard_store, files))
        });
        let (shard_store, files) = read.await.map_err(|fault| match fault {
            Fault::Fenced(_) => OpenFailure::Fenced,
            fault => OpenFailure::Fault(format!("{fault}. {}", to_do(shard))),
        })?;
        locked(&self.open).insert(shard, shard_store);
        let opened = self.open_shards.open(Files::of_shard_store(shard, files)).await;
        opened.map_err(|ended| {
            self.close_shard(shard, Some(term));
            OpenFailure::Fault(ended.to_string())
        })
    }
}

impl terms::ShardHost for Instance {
    fn open(&self, shard: u16, term: u64) -> Doing<'_, Result<(), OpenFailure>> {
        Box::pin(self.begin(shard, term))
    }

    fn hand_over(&self, shard: u16, term: u64) -> Doing<'_, ()> {
        Box::pin(async move {
            if let Err(ended) = self.open_shards.hand_over(shard).await {
                let reason = ended.to_string();
                tracing::warn!(
                    shard,
                    reason,
                    "the shard's last checkpoint failed: its next owner replays the journal"
                );
            }
            self.close_shard(shard, Some(term));
        })
    }

    fn drop_lost(&self, shard: u16, term: u64) -> Doing<'_, ()> {
        Box::pin(async move {
            self.close_shard(shard, Some(term));
            self.open_shards.fence_off(shard);
        })
    }

    fn filling(&self) -> BTreeSet<u16> {
        let open_shards = self.open_shards.shard_tasks.open_shards().all();
        let filling = open_shards.iter().filter(|open_shard| open_shard.shard.phase() == Phase::Recovering);
        filling.map(|open_shard| open_shard.shard.number()).collect()
    }
}

/// What an operator can do if the files of a shard can't be read.
fn to_do(shard: u16) -> String {
    format!(
        "If the store has lost rows of shard {shard}, restore them; or stop all instances and let the shard begin with \
         nothing: `totxegun store restored --anew {shard} ADDRESS`"
    )
}

/// Routes posts to the store's shards.
pub(super) fn shards(joining: &Joining, settings: &Settings) -> Arc<Shards<Reported<Shard>>> {
    let reading = Arc::new(settings.reading.clone());
    let resources = crate::otlp::Resources::new(joining.store.cluster.shards, reading);
    Shards::several(resources, Some(joining.forward.clone()))
}

#[cfg(test)]
mod tests {
    use super::*;

    #[test]
    fn operators_are_sent_where_they_reach_an_instance() {
        for (operate, is_local, peer, shown) in [
            ("a.example:4319", false, "a.example:4320", "a.example:4319"),
            ("0.0.0.0:4319", false, "a.example:4320", "a.example:4319"),
            ("[::]:4319", false, "a.example:4320", "a.example:4319"),
            ("127.0.0.1:4319", true, "a.example:4320", ""),
            ("127.0.0.1:4319", true, "127.0.0.1:4320", "127.0.0.1:4319"),
            ("", true, "a.example:4320", ""),
        ] {
            assert_eq!(operate_for_others(operate, is_local, peer), shown, "{operate} {peer}");
        }
    }
}
