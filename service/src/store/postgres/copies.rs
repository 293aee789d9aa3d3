//! Checks whether a server can lose commits that it reports as durable.
//!
//! With two copies, no commit counts before the server has said, after it, that commits wait for a standby (`session`).

use super::fault::StoreFault;
use crate::postgres::Server;
use tokio_postgres::{Client, Error, Row};

/// How many copies of each answered post there must be.
#[derive(Clone, Copy, Debug, PartialEq, Eq)]
pub enum Copies {
    /// One copy is enough, and the server need not even write it to its disk (`--store-copies 1`).
    One,
    /// Each commit waits for a standby.
    Two,
}

/// The columns are null if the server lacks such a setting: then it is not PostgreSQL, and only its operator knows.
pub(super) const SETTINGS: &str =
    "select current_setting('fsync', true), current_setting('synchronous_commit', true),
    current_setting('synchronous_standby_names', true)";
/// Without the right to look, the states are null. A running base backup is not counted: nobody can promote it.
const STANDBYS: &str = "select count(*) filter (where sync_state in ('sync', 'quorum')),
    count(*) filter (where sync_state is null) from pg_stat_replication where application_name <> 'pg_basebackup'";

pub(super) struct Settings {
    fsync: Option<String>,
    synchronous_commit: Option<String>,
    standbys: Option<String>,
}

impl From<Row> for Settings {
    fn from(row: Row) -> Settings {
        Settings { fsync: row.get(0), synchronous_commit: row.get(1), standbys: row.get(2) }
    }
}

impl Settings {
    /// Why the server can lose a commit; none if it can't. If standbys are named, each commit waits for one, so it need
    /// not be checked whether one is connected.
    pub fn fence_off(&self) -> Option<String> {
        let is = |setting: &Option<String>, good: &[&str]| {
            setting.as_ref().is_some_and(|found| good.contains(&found.as_str()))
        };
        if self.fsync.is_none() || self.standbys.is_none() {
            return Some("it does not report fsync and synchronous_standby_names".into());
        }
        if !is(&self.fsync, &["on"]) {
            return Some("fsync is off".into());
        }
        if !is(&self.synchronous_commit, &["on", "remote_apply"]) {
            return Some("synchronous_commit is neither `on` nor `remote_apply`, although it was set".into());
        }
        let is_alone = self.standbys.as_deref().is_none_or(|names| names.trim().is_empty());
        is_alone.then(|| "it has no synchronous standby (synchronous_standby_names is empty)".into())
    }
}

/// The check at a start; each session repeats it with each write. `client` has the settings of our sessions.
pub(super) async fn check(client: &Client, server: &Server, copies: Copies) -> Result<(), StoreFault> {
    let row = client.query_one(SETTINGS, &[]).await;
    let row = row.map_err(|error| StoreFault::of(server, error))?;
    match (Settings::from(row).fence_off(), copies) {
        (None, _) => Ok(()),
        (Some(why), Copies::One) => {
            tracing::warn!(%server, reason = why, "the store can lose data that it reports as durable");
            Ok(())
        }
        (Some(why), Copies::Two) => Err(StoreFault::Copies { server: server.to_string(), why }),
    }
}

/// How many servers have the current commits; none if this role may not see that (`pg_monitor` may).
pub(super) async fn count(client: &Client) -> Result<Option<u64>, Error> {
    let row = client.query_one(STANDBYS, &[]).await?;
    let (synchronous, unknown): (i64, i64) = (row.get(0), row.get(1));
    Ok((unknown == 0).then_some(1 + synchronous as u64))
}

#[cfg(test)]
mod tests {
    use super::*;

    #[test]
    fn each_setting_that_loses_is_named() {
        let on = || Some("on".to_string());
        for (fsync, commit, standbys, part) in [
            (on(), on(), Some("*".into()), None),
            (on(), Some("remote_apply".into()), Some("ANY 1 (a, b)".into()), None),
            (Some("off".into()), on(), Some("*".into()), Some("fsync is off")),
            (on(), Some("local".into()), Some("*".into()), Some("synchronous_commit")),
            (on(), Some("remote_write".into()), Some("*".into()), Some("synchronous_commit")),
            (on(), on(), Some(" ".into()), Some("synchronous_standby_names")),
            (on(), on(), None, Some("does not report")),
            (None, on(), Some("*".into()), Some("does not report")),
        ] {
            let settings = Settings { fsync, synchronous_commit: commit, standbys };
            let why = settings.fence_off();
            let is_named = why.as_ref().is_some_and(|why| part.is_some_and(|part| why.contains(part)));
            assert!(is_named || why.is_none() && part.is_none(), "{why:?} for {part:?}");
        }
    }
}
