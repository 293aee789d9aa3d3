//! The tables of a store (`schema.sql`), and the facts in its single row of `cluster`.

use super::connection::connect;
use super::fault::StoreFault;
use super::session::{within, SILENT};
use super::unknown_outcome::UnknownOutcome;
use crate::postgres::Server;
use std::fs::File;
use std::io::{self, Read};
use tokio_postgres::{Client, Error};

/// The version of the tables that this program reads.
pub(super) const KNOWN: i32 = 1;
const TABLES: &str = include_str!("schema.sql");
/// For PostgreSQL itself; other engines that speak its protocol keep their defaults.
const TUNING: &str = include_str!("tuning.sql");
pub const MOST_SHARDS: u16 = 1024;

/// The facts about a store that never change.
#[derive(Clone, PartialEq, Eq)]
pub struct Cluster {
    pub id: String,
    pub shards: u16,
    /// The epoch that the first epoch of each shard continues; drawn when the store was made.
    pub epoch: String,
    /// The secret by which the instances recognise each other.
    pub secret: String,
}

impl Cluster {
    fn draw(shards: u16) -> io::Result<Cluster> {
        Ok(Cluster { id: random(8)?, shards, epoch: random(8)?, secret: random(32)? })
    }
}

/// An epoch that was never drawn before.
pub(super) fn draw_epoch() -> Result<String, UnknownOutcome> {
    random(8).map_err(|error| UnknownOutcome::NotConnected(format!("/dev/urandom: {error}")))
}

/// Random bytes, as hexadecimal digits.
fn random(bytes: usize) -> io::Result<String> {
    let mut drawn = vec![0; bytes];
    File::open("/dev/urandom")?.read_exact(&mut drawn)?;
    Ok(drawn.iter().map(|byte| format!("{byte:02x}")).collect())
}

const IS_THERE: &str = "select count(*) from information_schema.tables
    where table_schema = 'totxegun_store' and table_name = 'cluster'";
const VERSION: &str = "select version from totxegun_store.cluster";
const FIND: &str = "select id, shards, epoch, secret from totxegun_store.cluster";

/// The version of the store, if there is one.
async fn version(client: &Client) -> Result<Option<i32>, Error> {
    if client.query_one(IS_THERE, &[]).await?.get::<_, i64>(0) == 0 {
        return Ok(None);
    }
    Ok(client.query_opt(VERSION, &[]).await?.map(|row| row.get(0)))
}

/// Makes a store in this database.
pub(super) async fn make(server: &Server, shards: u16) -> Result<Cluster, StoreFault> {
    if shards == 0 || shards > MOST_SHARDS {
        return Err(StoreFault::Shards { given: shards, most: MOST_SHARDS });
    }
    let cluster = Cluster::draw(shards)?;
    let (mut client, _driver) = connect(server).await?;
    let of_server = |doubt| StoreFault::of(server, doubt);
    if within(SILENT, version(&client)).await.map_err(of_server)?.is_some() {
        return Err(StoreFault::IsThere(server.to_string()));
    }
    within(SILENT, make_in(&mut client, &cluster)).await.map_err(of_server)?;
    Ok(cluster)
}

async fn make_in(client: &mut Client, cluster: &Cluster) -> Result<(), Error> {
    let transaction = client.transaction().await?;
    let version: String = transaction.query_one("select version()", &[]).await?.get(0);
    transaction.batch_execute(TABLES).await?;
    if version.starts_with("PostgreSQL ") && !version.contains("-YB-") {
        transaction.batch_execute(TUNING).await?;
    }
    let shards = i32::from(cluster.shards);
    let row = "insert into totxegun_store.cluster (id, version, shards, epoch, reading, secret)
        values ($1, $2, $3, $4, '', $5)";
    transaction.execute(row, &[&cluster.id, &KNOWN, &shards, &cluster.epoch, &cluster.secret]).await?;
    let rows = "insert into totxegun_store.shard (shard, term, connection_epoch, owner)
        select shard, 0, 0, '' from generate_series(0, $1::int - 1) as shard";
    transaction.execute(rows, &[&shards]).await?;
    transaction.commit().await
}

/// Reads the facts about the store; fails unless there is one of the version that this program reads.
pub(super) async fn check(client: &Client, server: &Server) -> Result<Cluster, StoreFault> {
    let of_server = |doubt| StoreFault::of(server, doubt);
    match within(SILENT, version(client)).await.map_err(of_server)? {
        None => Err(StoreFault::None(server.to_string())),
        Some(found) if found != KNOWN => {
            Err(StoreFault::Version { server: server.to_string(), found, known: KNOWN })
        }
        Some(_) => {
            let row = within(SILENT, client.query_one(FIND, &[])).await.map_err(of_server)?;
            Ok(Cluster {
                id: row.get(0),
                shards: row.get::<_, i32>(1) as u16,
                epoch: row.get(2),
                secret: row.get(3),
            })
        }
    }
}

/// The rules for reading posts, as the first instance set them. Like the next two statements this is a write even if
/// nothing changes, so that its answer is durable: after a restart, a server shows rows that its standby does not have.
pub(super) const AGREE: &str =
    "update totxegun_store.cluster set reading = case reading when '' then $1 else reading end
    returning reading";
/// The sink of all instances; empty before the first instance has started.
pub(super) const SINK: &str = "update totxegun_store.cluster set sink = sink returning sink";
/// Sets the sink if it is still `$1`, and returns the sink as it is then.
pub(super) const SET_SINK: &str =
    "update totxegun_store.cluster set sink = case sink when $1 then $2 else sink end
    returning sink";
