//! `totxegun dead-letters`: lists, shows, resends and drops the requests that the sink refused for good.

use super::ask::{Address, Shown};
use super::{client, line, table::Table, values, with_end};
use crate::admin::ResendOutcome;
use crate::dead_letters::DeadLetter;
use crate::log::seconds;
use anyhow::{bail, Result};
use clap::{Args, Subcommand};
use hyper::Method;

#[derive(Subcommand)]
pub enum Command {
    /// Lists them with their reasons; with several instances, those of the one that is asked
    List(Shown),
    /// Prints the body of one, in JSON
    Show(OfKey),
    /// Sends one again under its own key, or all; what the sink does not take is kept
    Resend {
        /// The key, as `totxegun dead-letters list` shows it
        #[arg(required_unless_present = "all")]
        key: Option<String>,
        /// Sends all, one after another, until the sink stops answering; names those that it does not take or that can't be read
        #[arg(long, conflicts_with = "key")]
        all: bool,
        #[command(flatten)]
        at: Address,
    },
    /// Drops one: its points are lost
    Drop(OfKey),
}

#[derive(Args)]
pub struct OfKey {
    /// The key, as `totxegun dead-letters list` shows it
    key: String,
    #[command(flatten)]
    at: Address,
}

const NONE: &str = "the sink has refused nothing for good";

impl Command {
    pub fn run(self) -> Result<Vec<u8>> {
        match self {
            Command::List(of) => {
                let letters: Vec<DeadLetter> = client::read(&of.at, Method::GET, "/dead-letters")?;
                tell_of_others(&of.at, letters.len());
                match of.form.json {
                    true => Ok(with_end(serde_json::to_vec(&letters)?)),
                    false => Ok(list(letters).into()),
                }
            }
            Command::Show(OfKey { key, at }) => {
                let body = client::ask(&at, Method::GET, &format!("/dead-letters/{}", checked(&key)?))?;
                Ok(with_end(body))
            }
            Command::Resend { key: Some(key), at, .. } => resend(&key, &at),
            Command::Resend { key: None, at, .. } => resend_all(&at),
            Command::Drop(OfKey { key, at }) => {
                client::ask(&at, Method::POST, &format!("/dead-letters/{}/drop", checked(&key)?))?;
                Ok(line(format_args!("done: {key} is thrown away")))
            }
        }
    }
}

/// An instance lists the dead letters of its own shards. Says which other instances have more.
fn tell_of_others(at: &Address, listed: usize) {
    let Ok(status) = client::status(at) else { return };
    let (more, cluster) =
        (status.dead_letters.saturating_sub(listed as u64), status.cluster.unwrap_or_default());
    let others = cluster.instances.iter().filter(|one| one.name != cluster.instance && one.shards > 0);
    let others: Vec<&str> = others.map(|one| one.name.as_str()).collect();
    if more > 0 && !others.is_empty() {
        let (count, others) = (values::counted(more, "request"), others.join(" or "));
        crate::complain(format_args!("{count} more at other instances: ask {others}, by --admin"));
    }
}

fn list(letters: Vec<DeadLetter>) -> String {
    if letters.is_empty() {
        return format!("{NONE}\n");
    }
    let mut table = Table::new(&["key", "age", "size", "reason"]);
    for DeadLetter { key, since, bytes, reason } in letters {
        let age = values::seconds_shown(seconds().saturating_sub(since));
        table.row(&[key, age, values::bytes_shown(bytes), reason]);
    }
    table.to_string()
}

fn sent(key: &str, at: &Address) -> Result<ResendOutcome> {
    client::read(at, Method::POST, &format!("/dead-letters/{}/resend", checked(key)?))
}

/// The outcome of resending all dead letters.
#[derive(Default)]
struct All {
    taken: u64,
    /// Those that the sink did not take, or took only in part, with the reasons.
    left: Vec<String>,
    /// The letter at which it stopped before all were sent, and why.
    end: Option<String>,
}

/// Resends all but those that are the rest of a request which the sink has: no sink takes them. A letter that can't be
/// read keeps no later one from the sink. But if the sink or the service does not answer, this stops, since each letter
/// would wait.
fn resend_all(at: &Address) -> Result<Vec<u8>> {
    let letters: Vec<DeadLetter> = client::read(at, Method::GET, "/dead-letters")?;
    tell_of_others(at, letters.len());
    if letters.is_empty() {
        return Ok(line(NONE));
    }
    let mut all = All::default();
    for DeadLetter { key, .. } in letters.iter().filter(|letter| !is_part(&letter.key)) {
        all.note(key, sent(key, at));
        if all.end.is_some() {
            break;
        }
    }
    all.told()
}

impl All {
    fn note(&mut self, key: &str, resent: Result<ResendOutcome>) {
        let (reason, is_end) = match resent {
            Ok(ResendOutcome { reason: None, .. }) => {
                self.taken += 1;
                return;
            }
            Ok(ResendOutcome { reason: Some(reason), later, .. }) => (reason, later),
            Err(why) => match why.downcast_ref::<client::Refused>() {
                Some(refused) => (refused.said.clone(), refused.status == 503),
                None => (format!("{why:#}"), true),
            },
        };
        match is_end {
            true => self.end = Some(format!("{key}: {reason}")),
            false => self.left.push(format!("{key}: {reason}")),
        }
    }

    fn told(self) -> Result<Vec<u8>> {
        let All { taken, left, end } = self;
        if left.is_empty() && end.is_none() {
            return Ok(line(format_args!("done: {}", so_far(taken))));
        }
        let mut told = so_far(taken);
        if let Some(end) = end {
            told += &format!("; it was given up at {end}");
        }
        if !left.is_empty() {
            let count = values::counted(left.len() as u64, "request");
            told += &format!("; refused, taken in part or not readable: {count}\n{}", left.join("\n"));
        }
        bail!(told)
    }
}

fn so_far(taken: u64) -> String {
    format!("the sink has taken {}", values::counted(taken, "request"))
}

/// Whether it is the rest of a request of which the sink has the other points.
fn is_part(key: &str) -> bool {
    key.contains("-partial")
}

fn resend(key: &str, at: &Address) -> Result<Vec<u8>> {
    let resent = sent(key, at)?;
    match resent.reason {
        None => Ok(line(format_args!("done: the sink has {key}"))),
        Some(reason) if resent.taken => {
            bail!("the sink has a part of {key}, it is kept as {key}-partial: {reason}")
        }
        Some(reason) => bail!("the sink did not take {key}, it is kept: {reason}"),
    }
}

/// Checks a key, since it becomes a part of a path.
fn checked(key: &str) -> Result<&str> {
    if key.is_empty() || !key.bytes().all(|byte| byte.is_ascii_alphanumeric() || b"._-".contains(&byte)) {
        bail!("{key:?} is no key: `totxegun dead-letters list` shows them");
    }
    Ok(key)
}
