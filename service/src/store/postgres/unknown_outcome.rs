//! Why the outcome of a call is unknown, and how the call is repeated.

use crate::postgres::{shown, NotConnected};
use std::time::Duration;
use tokio_postgres::Error;

/// After each of these, a write is repeated unchanged until its outcome is known. It locks the shard's row under the
/// owner's term, so once a repeat is known to be committed, we owned the shard and all of the write is durable.
#[derive(Debug, thiserror::Error)]
pub enum UnknownOutcome {
    #[error("no answer within {} s", .0.as_secs_f64())]
    Silent(Duration),
    /// For example after `pg_cancel_backend` during the wait for a standby: the server reports success, but only this
    /// server has the commit.
    #[error("the server warns: {0}")]
    Warned(String),
    /// It is committed, but can be lost with the server, although `--store-copies` asks for more.
    #[error("the server can lose data that it reports as durable: {0}")]
    FewCopies(String),
    #[error("{}", shown(.0))]
    Said(Error),
    #[error("the shard's row is locked, for example by a write that waits for its standby")]
    Locked,
    #[error("{0}")]
    NotConnected(String),
    /// As `NotConnected`, and waiting will not help.
    #[error("{0}")]
    Refused(String),
}

/// The connection on which to repeat a call.
#[derive(Clone, Copy, Debug, PartialEq, Eq)]
pub enum Next {
    Same,
    Another,
}

use Next::{Another, Same};

/// A server's answer (a SQLSTATE, or its beginning), and why the call is repeated in this way. The first match counts.
const SAID: [(&str, Next, &str); 9] = [
    ("40003", Another, "the server does not know whether it was done"),
    ("40", Same, "it conflicted with another transaction, so nothing was done"),
    ("55P03", Same, "the shard's row is locked, for example by a write that waits for its standby"),
    ("57014", Same, "it was cancelled or took too long, so nothing was done"),
    ("53", Same, "the server is short of disk, memory or connections, which may pass"),
    ("57", Another, "the server is shutting down or starting"),
    ("25", Another, "the server is read-only: another is the primary now"),
    ("08", Another, "the connection is broken"),
    ("", Another, "anything else may be the fault of this session or this server"),
];

impl UnknownOutcome {
    pub fn next(&self) -> Next {
        match self {
            UnknownOutcome::Warned(_) | UnknownOutcome::FewCopies(_) | UnknownOutcome::Locked => Same,
            UnknownOutcome::Silent(_) | UnknownOutcome::NotConnected(_) | UnknownOutcome::Refused(_) => {
                Another
            }
            UnknownOutcome::Said(error) if error.is_closed() => Another,
            UnknownOutcome::Said(error) => after(error.code().map_or("", |state| state.code())),
        }
    }
}

/// Errors that waiting does not fix: access rights, and missing or wrong tables.
const FOR_GOOD: [&str; 7] = ["0A", "22", "23", "28", "3D", "3F", "42"];

impl UnknownOutcome {
    /// Whether the server's other connections are probably useless too.
    pub fn is_of_server(&self) -> bool {
        let begins = |state: &str| ["57P", "25", "08"].iter().any(|begin| state.starts_with(begin));
        match self {
            UnknownOutcome::Silent(_) | UnknownOutcome::NotConnected(_) | UnknownOutcome::Refused(_) => true,
            UnknownOutcome::Warned(_) | UnknownOutcome::FewCopies(_) | UnknownOutcome::Locked => false,
            UnknownOutcome::Said(error) => {
                error.is_closed() || error.code().is_some_and(|state| begins(state.code()))
            }
        }
    }

    /// Whether the cause may go away without anyone's help.
    pub fn may_pass(&self) -> bool {
        match self {
            UnknownOutcome::Silent(_)
            | UnknownOutcome::Warned(_)
            | UnknownOutcome::FewCopies(_)
            | UnknownOutcome::Locked
            | UnknownOutcome::NotConnected(_) => true,
            UnknownOutcome::Refused(_) => false,
            UnknownOutcome::Said(error) => passes(error.code().map_or("", |state| state.code())),
        }
    }
}

fn passes(code: &str) -> bool {
    !FOR_GOOD.iter().any(|class| code.starts_with(class))
}

fn after(code: &str) -> Next {
    let fits = SAID.iter().find(|(begin, _, _)| code.starts_with(begin));
    fits.map_or(Another, |(_, next, _)| *next)
}

impl From<Error> for UnknownOutcome {
    fn from(error: Error) -> UnknownOutcome {
        UnknownOutcome::Said(error)
    }
}

impl From<NotConnected> for UnknownOutcome {
    fn from(error: NotConnected) -> UnknownOutcome {
        match error {
            NotConnected::Server(error) => UnknownOutcome::Said(error),
            NotConnected::Silent(limit) => UnknownOutcome::Silent(limit),
            NotConnected::Roots(_) => UnknownOutcome::Refused(error.to_string()),
        }
    }
}

/// The first repeats normally come at once, and later ones once a second.
#[derive(Default)]
pub struct Backoff(u32);

impl Backoff {
    pub async fn wait(&mut self) {
        let pause = Duration::from_millis(10 << self.0.min(7)).min(Duration::from_secs(1));
        self.0 += 1;
        tokio::time::sleep(pause).await;
    }
}

#[cfg(test)]
mod tests {
    use super::*;

    #[test]
    fn what_waiting_does_not_mend_is_told_from_the_rest() {
        for code in ["28P01", "28000", "3D000", "3F000", "42501", "42703"] {
            assert!(!passes(code), "{code}");
        }
        for code in ["", "57P03", "53300", "08006", "25006", "40001", "XX000"] {
            assert!(passes(code), "{code}");
        }
    }

    #[test]
    fn each_line_of_the_table_is_come_to() {
        for (code, next) in [
            ("40003", Another),
            ("40001", Same),
            ("40P01", Same),
            ("55P03", Same),
            ("57014", Same),
            ("53100", Same),
            ("57P01", Another),
            ("25006", Another),
            ("08006", Another),
            ("26000", Another),
            ("42P01", Another),
            ("", Another),
        ] {
            assert_eq!(after(code), next, "{code}");
        }
    }
}
