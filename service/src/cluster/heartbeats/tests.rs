use super::*;
use crate::cluster::owners::ShardOwner;
use crate::cluster::terms::{self, Doing, Eligibility, Instance, Row, Seen};
use std::collections::{BTreeMap, BTreeSet};
use std::sync::atomic::{AtomicBool, AtomicU64, Ordering::SeqCst};
use std::sync::Mutex;
use tokio::time::timeout;

pub const SHARDS: u16 = 6;

/// A store in memory. While it is silent, its calls block.
pub struct Store {
    pub rows: Mutex<(BTreeMap<String, Instance>, Vec<Row>)>,
    is_silent: AtomicBool,
    /// Rows stay for as long as this is so; how often one was to go.
    keeps_rows: AtomicBool,
    forgets: AtomicU64,
}

impl Store {
    pub fn new() -> Arc<Store> {
        let row = |shard| Row { shard, term: 0, owner: String::new() };
        Arc::new(Store {
            rows: Mutex::new((BTreeMap::new(), (0..SHARDS).map(row).collect())),
            is_silent: AtomicBool::new(false),
            keeps_rows: AtomicBool::new(false),
            forgets: AtomicU64::new(0),
        })
    }

    async fn answers(&self) {
        while self.is_silent.load(SeqCst) {
            sleep(Duration::from_millis(5)).await;
        }
    }

    fn owners(&self) -> Vec<String> {
        self.rows.lock().unwrap().1.iter().map(|row| row.owner.clone()).collect()
    }

    async fn are_owners(&self, is_so: impl Fn(&str) -> bool, within: Duration) {
        let all = async {
            while !self.owners().iter().all(|owner| is_so(owner)) {
                sleep(Duration::from_millis(20)).await;
            }
        };
        let done = timeout(within, all).await;
        assert!(done.is_ok(), "{:?}", self.owners());
    }
}

/// The store as one instance, with this address, sees it. Its first heartbeat draws the number of its process.
pub struct Of(pub Arc<Store>, pub &'static str, pub String, pub AtomicU64);

impl Terms for Of {
    async fn heartbeat(&self, stay: Eligibility, told: terms::InstanceReport) -> Result<Seen, Unavailable> {
        self.0.answers().await;
        let mut rows = self.0.rows.lock().unwrap();
        let new = Instance {
            name: self.1.into(),
            operate: String::new(),
            address: String::new(),
            version: "1".into(),
            beat: 0,
            life: 0,
            lives: BTreeMap::new(),
            told: terms::InstanceReport::default(),
        };
        let own = rows.0.entry(self.1.into()).or_insert(new);
        own.beat += 1;
        let life = match self.3.load(SeqCst) {
            0 => {
                own.life += 1;
                self.3.store(own.life, SeqCst);
                own.life
            }
            life => life,
        };
        *own.lives.entry(life).or_default() += 1;
        own.told = told;
        own.address = match stay {
            Eligibility::Here => self.2.clone(),
            Eligibility::Leaves => String::new(),
        };
        Ok(Seen {
            instances: rows.0.values().cloned().collect(),
            shards: rows.1.clone(),
            clock: Some(0),
            life,
        })
    }

    async fn shards(&self) -> Result<Vec<Row>, Unavailable> {
        self.0.answers().await;
        Ok(self.0.rows.lock().unwrap().1.clone())
    }

    async fn take(&self, shard: u16, seen: u64) -> Result<Option<u64>, Unavailable> {
        self.0.answers().await;
        let mut rows = self.0.rows.lock().unwrap();
        let row = &mut rows.1[usize::from(shard)];
        if row.term != seen {
            return Ok(None);
        }
        (row.term, row.owner) = (seen + 1, self.1.into());
        Ok(Some(row.term))
    }

    async fn release(&self, shard: u16, term: u64) -> Result<(), Unavailable> {
        self.0.answers().await;
        let mut rows = self.0.rows.lock().unwrap();
        let row = &mut rows.1[usize::from(shard)];
        if row.term == term {
            row.owner.clear();
        }
        Ok(())
    }

    async fn leave(&self) -> Result<(), Unavailable> {
        self.0.rows.lock().unwrap().0.remove(self.1);
        Ok(())
    }

    async fn remove_row(&self, name: &str, beat: u64) -> Result<bool, Unavailable> {
        self.0.answers().await;
        self.0.forgets.fetch_add(1, SeqCst);
        while self.0.keeps_rows.load(SeqCst) {
            sleep(Duration::from_millis(20)).await;
        }
        let all = &mut self.0.rows.lock().unwrap().0;
        let is_it = all.get(name).is_some_and(|one| one.beat == beat);
        Ok(is_it && all.remove(name).is_some())
    }
}

/// The calls to the shards, in order, and the shards whose books are still recovering.
#[derive(Default)]
struct InstanceReport {
    asked: Mutex<Vec<(u16, String)>>,
    filling: Mutex<BTreeSet<u16>>,
}

impl InstanceReport {
    fn note(&self, shard: u16, what: String) {
        self.asked.lock().unwrap().push((shard, what));
    }

    fn of(&self, shard: u16) -> Vec<String> {
        let told = self.asked.lock().unwrap();
        told.iter().filter(|(of, _)| *of == shard).map(|(_, what)| what.clone()).collect()
    }
}

impl ShardHost for InstanceReport {
    fn open(&self, shard: u16, term: u64) -> Doing<'_, Result<(), OpenFailure>> {
        Box::pin(async move {
            self.note(shard, format!("open {term}"));
            sleep(Duration::from_millis(30)).await;
            self.note(shard, format!("opened {term}"));
            Ok(())
        })
    }

    fn hand_over(&self, shard: u16, term: u64) -> Doing<'_, ()> {
        Box::pin(async move {
            self.note(shard, format!("hand over {term}"));
            sleep(Duration::from_millis(30)).await;
            self.note(shard, format!("at rest {term}"));
        })
    }

    fn drop_lost(&self, shard: u16, term: u64) -> Doing<'_, ()> {
        Box::pin(async move { self.note(shard, format!("drop {term}")) })
    }

    fn filling(&self) -> BTreeSet<u16> {
        self.filling.lock().unwrap().clone()
    }
}

struct Node {
    cluster: Arc<Cluster>,
    told: Arc<InstanceReport>,
    stop: watch::Sender<bool>,
    runs: JoinHandle<Result<(), NameTaken>>,
}

fn start(store: &Arc<Store>, name: &'static str) -> Node {
    start_at(store, name, BEAT)
}

fn start_at(store: &Arc<Store>, name: &'static str, beat: Duration) -> Node {
    let (cluster, told) = (Cluster::new(name, None), Arc::new(InstanceReport::default()));
    let terms = Arc::new(Of(store.clone(), name, format!("{name}:1"), AtomicU64::new(0)));
    let beats = Heartbeats::new(cluster.clone(), terms, told.clone()).each(beat);
    let (stop, stopped) = watch::channel(false);
    Node { cluster, told, stop, runs: tokio::spawn(beats.run(stopped)) }
}

const SOON: Duration = Duration::from_secs(20);

async fn until(is_so: impl Fn() -> bool) {
    let waiting = async {
        while !is_so() {
            sleep(Duration::from_millis(20)).await;
        }
    };
    timeout(SOON, waiting).await.unwrap();
}

#[tokio::test(flavor = "multi_thread", worker_threads = 2)]
async fn who_is_gone_is_followed_by_another_and_who_stops_hands_all_over() {
    let store = Store::new();
    let a = start(&store, "a");
    store.are_owners(|owner| owner == "a", SOON).await;
    let b = start(&store, "b");
    until(|| b.cluster.status().instances() == 2 && b.cluster.whose(2) != ShardOwner::Nobody).await;
    assert!(matches!(b.cluster.whose(2), ShardOwner::There { address, term: 1, .. } if address == "a:1"));
    a.runs.abort();
    store.are_owners(|owner| owner == "b", SOON).await;
    let is_open = async {
        while b.cluster.places().borrow().values().any(|whose| *whose != (ShardOwner::Here { term: 2 })) {
            sleep(Duration::from_millis(20)).await;
        }
    };
    timeout(SOON, is_open).await.unwrap();
    let status = b.cluster.status();
    assert_eq!(
        (status.counted.takeovers, status.terms.len(), status.without_owner),
        (u64::from(SHARDS), 6, 0)
    );
    assert_eq!(b.told.of(2), ["open 2", "opened 2"]);
    b.stop.send_replace(true);
    timeout(SOON, b.runs).await.unwrap().unwrap().unwrap();
    assert!(store.owners().iter().all(String::is_empty));
    assert_eq!(store.rows.lock().unwrap().0.keys().collect::<Vec<_>>(), ["a"]);
    assert_eq!(b.told.of(2)[2..], ["hand over 2", "at rest 2"]);
    assert_eq!(b.cluster.status().counted.hand_overs, u64::from(SHARDS));
}

#[tokio::test(flavor = "multi_thread", worker_threads = 2)]
async fn a_store_that_is_silent_is_seen_at_the_door_and_moves_nothing() {
    let store = Store::new();
    let a = start(&store, "a");
    assert!(a.cluster.is_stalled(), "before the first beat");
    store.are_owners(|owner| owner == "a", SOON).await;
    assert!(!a.cluster.is_stalled());
    store.is_silent.store(true, SeqCst);
    sleep(STALL + BEAT + Duration::from_millis(200)).await;
    assert!(a.cluster.is_stalled() && a.cluster.status().beat_age > Some(STALL));
    let terms = a.cluster.status().terms;
    store.is_silent.store(false, SeqCst);
    let answers = async {
        while a.cluster.is_stalled() {
            sleep(Duration::from_millis(20)).await;
        }
    };
    timeout(SOON, answers).await.unwrap();
    assert_eq!((terms.len(), a.cluster.status().terms), (usize::from(SHARDS), terms));
    // It is told to stop while the store is silent: it ends after the store answers, or after a minute.
    a.stop.send_replace(true);
    timeout(SOON, a.runs).await.unwrap().unwrap().unwrap();
}

#[tokio::test(flavor = "multi_thread", worker_threads = 2)]
async fn a_shard_that_was_lost_is_dropped_before_it_is_opened_again() {
    let store = Store::new();
    let a = start(&store, "a");
    until(|| (0..SHARDS).all(|shard| a.cluster.whose(shard) == ShardOwner::Here { term: 1 })).await;
    {
        let row = &mut store.rows.lock().unwrap().1[3];
        (row.term, row.owner) = (7, String::new());
    }
    // Its own writer has found another owner.
    a.cluster.lost(4, 1);
    let again = async {
        while a.cluster.whose(3) != (ShardOwner::Here { term: 8 })
            || a.cluster.whose(4) != (ShardOwner::Here { term: 2 })
        {
            sleep(Duration::from_millis(20)).await;
        }
    };
    timeout(SOON, again).await.unwrap();
    let told = a.told.of(3);
    assert!(told.ends_with(&["drop 1", "open 8", "opened 8"].map(String::from)), "{told:?}");
    assert_eq!(a.cluster.status().counted.lost, 2);
}

/// Otherwise a shard that takes long to read would go unnoticed: it has an owner, and its posts get 503.
#[tokio::test(flavor = "multi_thread", worker_threads = 2)]
async fn a_shard_is_served_by_nobody_until_its_book_is_filled() {
    let store = Store::new();
    let a = start(&store, "a");
    a.told.filling.lock().unwrap().insert(3);
    until(|| (0..SHARDS).all(|shard| a.cluster.whose(shard) == ShardOwner::Here { term: 1 })).await;
    until(|| a.cluster.status().longest_without_owner > BEAT * 3).await;
    assert_eq!(a.cluster.status().without_owner, 1);
    a.told.filling.lock().unwrap().clear();
    until(|| a.cluster.status().without_owner == 0).await;
    assert_eq!(a.cluster.status().longest_without_owner, Duration::ZERO);
}

#[tokio::test(flavor = "multi_thread", worker_threads = 2)]
async fn who_has_not_come_back_for_long_is_forgotten_and_comes_back_all_the_same() {
    const FAST: Duration = Duration::from_millis(50);
    let store = Store::new();
    let (a, b) = (start_at(&store, "a", FAST), start_at(&store, "b", FAST));
    let has = |name: &str| store.owners().iter().any(|owner| owner == name);
    until(|| has("a") && has("b")).await;
    b.runs.abort();
    store.are_owners(|owner| owner == "a", SOON).await;
    let is_known = || store.rows.lock().unwrap().0.contains_key("b");
    assert!(is_known() && a.cluster.status().others.len() == 1);
    store.keeps_rows.store(true, SeqCst);
    let is_asked = async {
        while store.forgets.load(SeqCst) == 0 {
            sleep(FAST).await;
        }
    };
    timeout(FAST * 4 * crate::cluster::owners::FORGOTTEN, is_asked).await.unwrap();
    sleep(FAST * 20).await;
    assert_eq!(store.forgets.load(SeqCst), 1, "it is asked for one by one");
    store.keeps_rows.store(false, SeqCst);
    let forgotten = async {
        while is_known() || !a.cluster.status().others.is_empty() {
            sleep(FAST).await;
        }
    };
    timeout(FAST * 4 * crate::cluster::owners::FORGOTTEN, forgotten).await.unwrap();
    let b = start_at(&store, "b", FAST);
    until(|| {
        has("b") && b.cluster.places().borrow().values().any(|whose| matches!(whose, ShardOwner::Here { .. }))
    })
    .await;
    assert!(is_known());
}

/// Otherwise both would post and deliver under one name.
#[tokio::test(flavor = "multi_thread", worker_threads = 2)]
async fn of_two_processes_of_one_name_the_later_one_ends() {
    const FAST: Duration = Duration::from_millis(150);
    let store = Store::new();
    let a = start_at(&store, "a", FAST);
    until(|| store.rows.lock().unwrap().0.contains_key("a")).await;
    let later = start_at(&store, "a", FAST);
    let ended = timeout(SOON, later.runs).await.unwrap().unwrap().unwrap_err();
    assert!(ended.to_string().contains("already uses the name a"), "{ended}");
    until(|| !a.cluster.status().has_namesake).await;
    until(|| (0..SHARDS).all(|shard| a.cluster.whose(shard) == ShardOwner::Here { term: 1 })).await;
    assert!(!a.runs.is_finished());
    // A process that starts again after a kill is not the later one of two.
    a.runs.abort();
    let again = start_at(&store, "a", FAST);
    until(|| (0..SHARDS).all(|shard| matches!(again.cluster.whose(shard), ShardOwner::Here { .. }))).await;
    sleep(FAST * 10).await;
    assert!(!again.runs.is_finished() && !again.cluster.status().has_namesake);
}
