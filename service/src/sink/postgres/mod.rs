//! A sink that is a PostgreSQL database: a row for each series, a row for each interval, exact totals, and each key
//! once.
//!
//! It connects when it has to, and again after a fault. Whatever is wrong with the server is a reason to retry, so no
//! request is lost by it.

mod epochs;
mod fault;
mod fence;
mod periods;
mod point_rows;
pub(super) mod reading;
mod schema;
mod series;
mod series_rows;
mod session;
mod statements;
mod store;
mod upkeep;
mod values;

pub use crate::postgres::Server;

use super::left_out::LeftOut;
use super::periods::{PeriodAction, PeriodOutcome};
use super::sql::{Content, Sent};
use super::{AheadOfOutbox, Answer, DeliveryOutcome, Forwarded, Keys, Memory, Owners, Retention, Sink};
use crate::outbox::Epochs;
use crate::storage::Tenure;
use crate::work::blocking;
use fault::Fault;
use session::{within, Session};
use std::slice::from_ref;
use std::sync::atomic::{AtomicBool, Ordering::Relaxed};
use std::sync::Arc;
use std::time::Duration;
use store::NotTaken;
use tokio::sync::Mutex;
use upkeep::Upkeep;

/// How long a connection may take, and then a delivery. The server gives up a statement earlier.
const PATIENCE: Duration = Duration::from_secs(30);
/// How long a start waits for the server.
const AT_START: Duration = Duration::from_secs(6);

pub struct PostgresSink {
    server: Server,
    memory: Arc<dyn Memory>,
    /// One delivery at a time. A delivery takes the session out, so one that is left half-way is closed.
    session: Mutex<Option<Session>>,
    /// Whether this run has seen the schema. If it is gone later, somebody took it away.
    was_there: Arc<AtomicBool>,
    patience: Duration,
    keys: Keys,
    owners: Owners,
    _upkeep: Option<Upkeep>,
}

impl PostgresSink {
    /// Makes the schema if there is none. A server that does not answer now is asked again at each delivery. A schema
    /// that must not be written (of a later version, of another program, or another than is remembered) is an error.
    pub fn open(
        server: &Server,
        retention: Retention,
        memory: Arc<dyn Memory>,
    ) -> anyhow::Result<PostgresSink> {
        let tried = try_once(server, memory.clone())?;
        let was_there = Arc::new(AtomicBool::new(tried.is_ok()));
        if let Err(fault) = tried {
            if fault.is_lasting() {
                return Err(fault.at(server));
            }
            let reason = fault.at(server).to_string();
            tracing::warn!(reason, "the sink can't be used: each delivery tries again");
        }
        let upkeep = Upkeep::start(server.clone(), retention, memory.clone(), was_there.clone())?;
        Ok(PostgresSink {
            server: server.clone(),
            memory,
            session: Mutex::new(None),
            was_there,
            patience: PATIENCE,
            keys: Keys::default(),
            owners: Owners::default(),
            _upkeep: Some(upkeep),
        })
    }

    /// Takes requests by the open session, or by a new one, which may have to make the schema first.
    async fn take(
        &self,
        all: &[Forwarded],
        sent: Sent,
        tenure: Option<&Tenure>,
    ) -> Result<LeftOut, NotTaken> {
        let bodies: Vec<Vec<u8>> = all.iter().map(|one| one.body.clone()).collect();
        // Milliseconds of work, which would hold up the runtime.
        let read = move || bodies.iter().map(|body| Content::read(body)).collect::<Result<_, _>>();
        let contents = blocking(read).await?;
        // The time limit begins after this wait: the server is not late if requests of other shards go first.
        let mut place = self.session.lock().await;
        let mut session = self.session(&mut place).await?;
        session.owners = all.first().and_then(|first| self.owners.of(first));
        let taken = within(self.patience, store::take(&mut session, all, sent, tenure, contents)).await;
        PostgresSink::put_back(session, &mut place, &taken);
        taken
    }

    /// Keeps a session if its answer shows in which state it is.
    fn put_back<T>(mut session: Session, place: &mut Option<Session>, taken: &Result<T, NotTaken>) {
        session.owners = None;
        if matches!(taken, Ok(_) | Err(NotTaken::Refused(_))) {
            *place = Some(session);
        }
    }

    /// The open session, or a new one.
    async fn session(&self, place: &mut Option<Session>) -> Result<Session, Fault> {
        let session = match place.take() {
            Some(session) if !session.client.is_closed() => session,
            _ => {
                let was_there = self.was_there.load(Relaxed);
                Session::open(&self.server, &*self.memory, was_there, self.patience).await?
            }
        };
        self.was_there.store(true, Relaxed);
        Ok(session)
    }

    async fn send(&self, all: &[Forwarded], sent: Sent, tenure: Option<&Tenure>) -> DeliveryOutcome {
        match (self.take(all, sent, tenure).await, all.first()) {
            (Ok(left), Some(first)) => left.fate(&first.body),
            (Ok(_), None) => DeliveryOutcome::Taken,
            (Err(why), _) => self.fate(why),
        }
    }

    fn fate(&self, why: NotTaken) -> DeliveryOutcome {
        let reason = |fault: Fault| fault.at(&self.server).to_string();
        match why {
            NotTaken::Refused(reason) => DeliveryOutcome::refused(reason),
            NotTaken::Failed(fault) => DeliveryOutcome::Failed { reason: reason(fault), after: None },
            NotTaken::Fault(fault @ Fault::Away(_)) => DeliveryOutcome::away(reason(fault)),
            NotTaken::Fault(fault) => DeliveryOutcome::again(reason(fault)),
        }
    }

    async fn learn(&self, shard: u16, epochs: &Epochs) -> Result<AheadOfOutbox, NotTaken> {
        let mut place = self.session.lock().await;
        let mut session = self.session(&mut place).await?;
        let learned = within(self.patience, epochs::goes_on(&mut session, shard, epochs)).await;
        PostgresSink::put_back(session, &mut place, &learned);
        learned
    }
}

/// Connects on a thread with a runtime of its own, since a start is not asynchronous.
fn try_once(server: &Server, memory: Arc<dyn Memory>) -> anyhow::Result<Result<(), Fault>> {
    let runtime = tokio::runtime::Builder::new_current_thread().enable_all().build()?;
    let server = server.clone();
    let open = async move { Session::open(&server, &*memory, false, AT_START).await.map(drop) };
    let thread = std::thread::Builder::new().name("postgres".into());
    let thread = thread.spawn(move || runtime.block_on(open))?;
    thread.join().map_err(|_| anyhow::anyhow!("the thread that asks PostgreSQL has failed"))
}

impl Sink for PostgresSink {
    fn deliver<'a>(&'a self, request: &'a Forwarded) -> Answer<'a, DeliveryOutcome> {
        Box::pin(self.send(from_ref(request), Sent::ByHand, None))
    }

    fn deliver_of<'a>(
        &'a self,
        request: &'a Forwarded,
        tenure: Option<&'a Tenure>,
    ) -> Answer<'a, DeliveryOutcome> {
        Box::pin(self.send(from_ref(request), Sent::InOrder, tenure))
    }

    fn goes_on<'a>(
        &'a self,
        shard: u16,
        epochs: &'a Epochs,
    ) -> Answer<'a, Result<AheadOfOutbox, DeliveryOutcome>> {
        Box::pin(async move { self.learn(shard, epochs).await.map_err(|why| self.fate(why)) })
    }

    fn most_together(&self) -> usize {
        super::TOGETHER
    }

    fn deliver_together<'a>(&'a self, all: &'a [Forwarded], tenure: Option<&'a Tenure>) -> Answer<'a, bool> {
        Box::pin(async move { self.send(all, Sent::InOrder, tenure).await == DeliveryOutcome::Taken })
    }

    fn apply<'a>(&'a self, who: &'a str, deed: &'a PeriodAction) -> Answer<'a, PeriodOutcome> {
        Box::pin(periods::apply(&self.server, &*self.memory, who, deed))
    }

    fn name(&self) -> String {
        format!("postgres {}", self.server)
    }

    fn keys(&self) -> &Keys {
        &self.keys
    }

    fn owners(&self) -> Option<&Owners> {
        Some(&self.owners)
    }
}

#[cfg(test)]
mod tests {
    use super::*;
    use std::sync::atomic::{AtomicUsize, Ordering::SeqCst};

    /// Otherwise requests of many shards would be late at a server that was never asked, and wait all the longer.
    #[tokio::test]
    async fn who_waits_for_another_delivery_is_not_late() {
        let listener = tokio::net::TcpListener::bind("127.0.0.1:0").await.expect("a port");
        let address = format!("//u@{}/d", listener.local_addr().expect("its address"));
        let asked = Arc::new(AtomicUsize::new(0));
        let count = asked.clone();
        tokio::spawn(async move {
            let mut silent = Vec::new();
            while let Ok((stream, _)) = listener.accept().await {
                count.fetch_add(1, SeqCst);
                silent.push(stream);
            }
        });
        let server = Server::read(&address).expect("an address");
        let sink = PostgresSink {
            server,
            memory: Arc::new(()),
            session: Mutex::new(None),
            was_there: Arc::default(),
            patience: Duration::from_millis(300),
            keys: Keys::default(),
            owners: Owners::default(),
            _upkeep: None,
        };
        let request = |shard| Forwarded {
            shard,
            epoch: "e".into(),
            number: 1,
            body: br#"{"resourceMetrics":[]}"#.to_vec(),
        };
        let (one, other) = (request(0), request(1));
        let fates = tokio::join!(sink.deliver_of(&one, None), sink.deliver_of(&other, None));
        for fate in [fates.0, fates.1] {
            let DeliveryOutcome::Away { reason } = fate else { panic!("{fate:?}") };
            assert!(reason.ends_with("no answer within 0.3 s"), "{reason}");
        }
        assert_eq!(asked.load(SeqCst), 2);
    }
}
