//! A connection with its prepared statements. Its writes succeed only under the owner's fence, and count only if no
//! warning came with the answer.

mod put;

use super::connection::{connect_to_one, Connections, Stored, CONNECT};
use super::copies::{self, Copies};
use super::shard_store::Write;
use super::unknown_outcome::{Next, UnknownOutcome};
use crate::postgres::{connect, Driver, Server};
use std::collections::{BTreeMap, BTreeSet};
use std::future::Future;
use std::sync::Arc;
use std::time::{Duration, Instant};
use tokio::sync::Mutex;
use tokio::time::{sleep, timeout};
use tokio_postgres::types::ToSql;
use tokio_postgres::{Client, Config, Error, Row, Statement};

/// How long a connection may be silent before we drop it; we never cancel a call. The server ends calls that wait for a
/// lock earlier, so at most one backend for each shard is left over: the one that has the lock and waits for its
/// standby.
pub(super) const SILENT: Duration = Duration::from_secs(30);

/// After so long a silence it is asked whether the server lets anybody in.
const KNOCK: Duration = Duration::from_secs(5);

/// So long a connection is kept on which the shard's row is locked. Who has the lock may wait for ever, if this server is no primary
/// any more.
const LOCKED: Duration = Duration::from_secs(5);

/// The fence of each write: selects the rows with these terms, connection epochs (`connection_epoch`) and owner epochs, except rows
/// that are locked, for example by a write that waits for its standby. A missing row means that another instance owns
/// the shard, or that its owner has raised the connection epoch.
macro_rules! mine {
    () => {
        "with mine as (
        select shard.shard from totxegun_store.shard,
            unnest($1::int[], $2::bigint[], $3::bigint[], $4::text[]) as owned (shard, term, connection_epoch, epoch)
        where shard.shard = owned.shard and shard.term = owned.term and shard.connection_epoch = owned.connection_epoch and shard.epoch = owned.epoch
        order by shard.shard for update of shard skip locked
    )"
    };
}

macro_rules! pieces {
    () => {
        "insert into totxegun_store.piece (shard, file, number, place, length, bytes)
        select mine.shard, new.file, new.number, new.place, new.length, new.bytes
        from mine join unnest($5::int[], $6::bigint[], $7::bigint[], $8::bigint[], $9::int[], $10::bytea[])
            as new (shard, file, number, place, length, bytes) on new.shard = mine.shard
        "
    };
}

/// The usual write: pieces of files, with no new names and no deleted files. Only for pieces that were never sent
/// before: a server that does not look for them first writes a tenth less.
const APPEND: &str = concat!(mine!(), ", put as (", pieces!(), ") select shard from mine");

/// Any write. It can be repeated. A file's pieces have higher numbers than the file, so a deletion need not look at
/// earlier pieces.
const PUT: &str = concat!(
    mine!(),
    ", old as (
        select shard, min(file) as least, array_agg(file) as files
        from unnest($11::int[], $12::bigint[]) as old (shard, file) group by shard
    ), gone as (
        delete from totxegun_store.piece using mine, old where old.shard = mine.shard
        and piece.shard = mine.shard and piece.file = any(old.files) and piece.number > old.least
    ), gone_files as (
        delete from totxegun_store.file using mine, old where old.shard = mine.shard
        and file.shard = mine.shard and file.file = any(old.files)
    ), named as (
        insert into totxegun_store.file (shard, file, name)
        select mine.shard, new.file, new.name
        from mine join unnest($13::int[], $14::bigint[], $15::text[]) as new (shard, file, name) on new.shard = mine.shard
        on conflict (shard, file) do update set name = excluded.name
    ), begun as (
        update totxegun_store.shard set begun = true from mine
        where shard.shard = mine.shard and shard.shard = any($13::int[]) and not shard.begun
    ), put as (",
    pieces!(),
    "on conflict do nothing) select shard from mine"
);

/// Returns no row if another instance owns the shard, or its row is locked.
const RAISE: &str = "with mine as (
        select shard from totxegun_store.shard where shard = $1 and term = $2 and epoch = $3
        for update skip locked
    ) update totxegun_store.shard set connection_epoch = connection_epoch + 1 from mine where shard.shard = mine.shard
    returning shard.connection_epoch, shard.begun";
const IS_OURS: &str =
    "select count(*) from totxegun_store.shard where shard = $1 and term = $2 and epoch = $3";

/// Finds the shards whose last piece is in the store, and those that another instance owns by now: its checkpoints
/// delete pieces.
const ARE_THERE: &str =
    "select last.shard from unnest($1::int[], $2::bigint[], $3::bigint[]) as last (shard, number, term)
    where exists (select from totxegun_store.piece where piece.shard = last.shard and piece.number = last.number)
    or not exists (select from totxegun_store.shard where shard.shard = last.shard and shard.term = last.term)";

const PIECES: &str = "select number, length, bytes from totxegun_store.piece
    where shard = $1 and file = $2 and number = any($3::bigint[])";

/// The owner of a shard.
pub(super) struct Owned<'a> {
    pub shard: i32,
    pub term: i64,
    /// After a store lost commits, another owner may have the same term.
    pub epoch: &'a str,
}

/// The fields of a shard's row that its owner needs.
pub(super) struct ShardRow {
    pub connection_epoch: i64,
    /// The shard has had files.
    pub begun: bool,
}

pub(super) struct Session {
    pub client: Client,
    /// Of which it is to this host.
    server: Server,
    host: Config,
    /// Of those of this process.
    pub number: u64,
    copies: Copies,
    append: Statement,
    put: Statement,
    pieces: Statement,
    settings: Statement,
    driver: Driver,
    made: Instant,
    /// Held for a whole write, so that a warning can only belong to this one.
    writing: Mutex<()>,
}

impl Session {
    pub async fn open(all: &Arc<Connections>) -> Result<Arc<Session>, UnknownOutcome> {
        let of = all.clone();
        let opened = all.threads.spawn(async move { Session::made(&of).await.map(Arc::new) });
        opened.await.unwrap_or_else(|error| Err(UnknownOutcome::NotConnected(error.to_string())))
    }

    async fn made(all: &Connections) -> Result<Session, UnknownOutcome> {
        let number = all.draw();
        let (client, driver, host) = connect_to_one(&all.server).await?;
        let of = |text| client.prepare(text);
        let preparing = async {
            Ok::<_, Error>([
                of(APPEND).await?,
                of(PUT).await?,
                of(PIECES).await?,
                of(copies::SETTINGS).await?,
            ])
        };
        let [append, put, pieces, settings] = within(CONNECT, preparing).await?;
        let session = Session {
            client,
            server: all.server.clone(),
            host,
            number,
            copies: all.copies,
            append,
            put,
            pieces,
            settings,
            driver,
            made: Instant::now(),
            writing: Mutex::new(()),
        };
        enough(within(CONNECT, session.settings()).await?)?;
        Ok(session)
    }

    /// The settings after everything that was asked for before; none if they don't matter.
    async fn settings(&self) -> Result<Option<copies::Settings>, Error> {
        match self.copies {
            Copies::One => Ok(None),
            Copies::Two => Ok(Some(self.client.query_one(&self.settings, &[]).await?.into())),
        }
    }

    /// What is answered while the server is there. One that waits for its standby may be silent for longer than others wait for one
    /// that is gone, and it lets anybody in meanwhile.
    pub async fn while_there<T>(
        &self,
        asking: impl Future<Output = Result<T, UnknownOutcome>>,
    ) -> Result<T, UnknownOutcome> {
        tokio::select! {
            biased;
            answer = asking => answer,
            doubt = self.gone() => Err(doubt),
        }
    }

    /// Returns once the server lets nobody in.
    async fn gone(&self) -> UnknownOutcome {
        loop {
            sleep(KNOCK).await;
            match connect(&self.server, &self.host, "", CONNECT).await.map_err(UnknownOutcome::from) {
                Ok(_) => {}
                Err(UnknownOutcome::Said(error)) if error.code().is_some() => {}
                Err(doubt) => return doubt,
            }
        }
    }

    /// Whether another connection is made after this.
    pub fn is_left_after(&self, doubt: &UnknownOutcome) -> bool {
        match doubt {
            UnknownOutcome::Locked => self.made.elapsed() > LOCKED,
            doubt => doubt.next() == Next::Another,
        }
    }

    /// The pieces among these that the store has.
    pub async fn pieces(
        &self,
        shard: i32,
        file: u64,
        numbers: &[u64],
    ) -> Result<Vec<Stored>, UnknownOutcome> {
        let numbers: Vec<i64> = numbers.iter().map(|number| *number as i64).collect();
        let wanted: [&(dyn ToSql + Sync); 3] = [&shard, &(file as i64), &numbers];
        let rows = within(SILENT, self.client.query(&self.pieces, &wanted)).await?;
        let stored = |row: Row| Stored {
            number: row.get::<_, i64>(0) as u64,
            length: row.get::<_, i32>(1) as usize,
            bytes: row.get(2),
        };
        Ok(rows.into_iter().map(stored).collect())
    }

    /// The answer of a write that came without a warning, from a server with enough copies.
    pub async fn written<T>(
        &self,
        write: impl Future<Output = Result<T, Error>>,
    ) -> Result<T, UnknownOutcome> {
        self.sure(SILENT, async { Ok((write.await?, self.settings().await?)) }).await
    }

    /// The same for a write that reads the settings right after itself. No other write may come between: it could wait
    /// for a lock.
    async fn sure<T>(
        &self,
        limit: Duration,
        write: impl Future<Output = Result<(T, Option<copies::Settings>), Error>>,
    ) -> Result<T, UnknownOutcome> {
        let _one = self.writing.lock().await;
        self.driver.warnings.take(); // warnings of earlier calls
        let (answer, settings) = within(limit, write).await?;
        if let Some(warning) = self.driver.warnings.take() {
            return Err(UnknownOutcome::Warned(warning));
        }
        enough(settings)?;
        Ok(answer)
    }

    /// Raises the shard's connection epoch (`connection_epoch`) and returns its row. Everything read on this session from then on
    /// is after a committed write under the term. None if another instance owns the shard.
    pub async fn raise_link(&self, of: &Owned<'_>) -> Result<Option<ShardRow>, UnknownOutcome> {
        let key: [&(dyn ToSql + Sync); 3] = [&of.shard, &of.term, &of.epoch];
        if let Some(row) = self.written(self.client.query_opt(RAISE, &key)).await? {
            return Ok(Some(ShardRow { connection_epoch: row.get(0), begun: row.get(1) }));
        }
        let found = within(SILENT, self.client.query_one(IS_OURS, &key)).await?;
        match found.get::<_, i64>(0) {
            0 => Ok(None),
            _ => Err(UnknownOutcome::Locked),
        }
    }

    /// The shards of these writes whose last durable piece the server still has, or that another instance owns by now,
    /// which the write itself will find. Each new connection is checked in this way before its answers count: a server
    /// that took over from another one may lack commits.
    pub async fn whole(&self, writes: &[&Write]) -> Result<BTreeSet<i32>, UnknownOutcome> {
        let last = |write: &&Write| {
            let last = write.owner.fence().last.filter(|(file, _)| !write.packed.gone.contains(file));
            last.map(|(_, number)| (write.owner.shard, (number, write.owner.term)))
        };
        let asked: BTreeMap<i32, (i64, i64)> = writes.iter().filter_map(last).collect();
        let shards = writes.iter().map(|write| write.owner.shard);
        let mut whole: BTreeSet<i32> = shards.filter(|shard| !asked.contains_key(shard)).collect();
        if !asked.is_empty() {
            let shards: Vec<i32> = asked.keys().copied().collect();
            let (numbers, terms): (Vec<i64>, Vec<i64>) = asked.into_values().unzip();
            let found = within(SILENT, self.client.query(ARE_THERE, &[&shards, &numbers, &terms])).await?;
            whole.extend(found.iter().map(|row| row.get::<_, i32>(0)));
        }
        Ok(whole)
    }
}

fn enough(settings: Option<copies::Settings>) -> Result<(), UnknownOutcome> {
    match settings.and_then(|settings| settings.fence_off()) {
        Some(why) => Err(UnknownOutcome::FewCopies(why)),
        None => Ok(()),
    }
}

pub(super) async fn within<T>(
    limit: Duration,
    work: impl Future<Output = Result<T, Error>>,
) -> Result<T, UnknownOutcome> {
    match timeout(limit, work).await {
        Ok(done) => Ok(done?),
        Err(_) => Err(UnknownOutcome::Silent(limit)),
    }
}
