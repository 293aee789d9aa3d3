//! Orders to all shards, and the state of all shards together: whether posts are taken, how far a start is, and the
//! report of the books.

use super::reach::{Answer, Command};
use super::{reply, AdminApi, LocalShard, TEXT};
use crate::command::values::{bytes_shown, counted};
use crate::otlp::Reason;
use crate::outbox::SenderRename;
use crate::shard::is_sender;
use crate::work::blocking;
use hyper::{Body, Response};
use serde_json::json;
use std::sync::Arc;

impl AdminApi {
    /// Why all posts are answered 503; none if some are taken. If other instances are there, a shard that is being read
    /// does not count: posts for the other shards are taken, here or at their instances.
    pub(super) fn unavailable(&self) -> Option<Reason> {
        let Some(others) = &self.others else {
            return self.open_shards.unavailable();
        };
        let cluster = &others.cluster;
        if let Some(why) = cluster.unavailable() {
            return Some(why);
        }
        if cluster.leaves() {
            return Some(Reason::Stopping);
        }
        if cluster.is_off_clock() {
            return Some(Reason::ClockOff);
        }
        if cluster.misses_owner() {
            return Some(Reason::OwnerSilent);
        }
        if cluster.has_others() {
            return None;
        }
        match self.open_shards.is_empty() {
            true => Some(Reason::NoOwner),
            false => self.open_shards.unavailable(),
        }
    }

    /// Whether posts of any shard are taken.
    pub fn is_available(&self) -> bool {
        self.unavailable().is_none()
    }

    /// How far a start is. None once each book here has had all of its journal, whatever happens later.
    pub(super) fn starting(&self) -> Option<String> {
        let begun = &self.open_shards.starting()?.shard;
        let (posts, bytes) = (counted(begun.ungrouped(), "post"), bytes_shown(begun.journal.size().0));
        Some(format!("recovering: {posts} of the journal so far, which has {bytes}"))
    }

    /// Has all shards carry out a command, wherever they are, and returns one answer.
    pub(super) async fn carry_out(self: &Arc<Self>, who: &str, command: &Command) -> Answer {
        match self.in_all_shards(who, command).await {
            Ok(answers) => match command {
                Command::Quarantine(sender) | Command::Release(sender) => of_sender(sender, command, answers),
                Command::RenameSender(rename) => renamed(rename, &answers),
                Command::Flush | Command::Find(_) => together(&answers),
            },
            Err(not_all) => not_all,
        }
    }

    /// The reports of the books that are here.
    pub(super) async fn report(&self) -> Response<Body> {
        let mut reports = String::new();
        for open_shard in self.open_shards.all() {
            match report_of(open_shard).await {
                Ok(report) => reports += &report,
                Err(refused) => return refused.into(),
            }
        }
        reply(200, TEXT, reports)
    }
}

/// A book that is recovering is not waited for.
async fn report_of(open_shard: Arc<LocalShard>) -> Result<String, Answer> {
    if !open_shard.shard.is_ready() {
        let why = open_shard.shard.unavailable().unwrap_or(Reason::Recovering);
        return Err(Answer::told(503, why.text()));
    }
    match blocking(move || open_shard.shard.shared_book().lock().report()).await {
        Ok(report) => Ok(String::from_utf8_lossy(&report).into_owned()),
        Err(refused) => Err(Answer::told(refused.status(), &refused.to_string())),
    }
}

/// The answer to an order about a sender. If no shard knows the sender, the answer says so. Otherwise the answer to a
/// release leaves out the shards that don't know it.
fn of_sender(sender: &str, command: &Command, mut all: Vec<(u16, Answer)>) -> Answer {
    let has_failed = |(_, answer): &(u16, Answer)| answer.status >= 500;
    if all.iter().any(has_failed) || !is_sender(sender) {
        return together(&all);
    }
    if all.iter().any(|(_, answer)| !answer.knows_nothing()) {
        all.retain(|(_, answer)| !answer.knows_nothing() || matches!(command, Command::Quarantine(_)));
        let told = together(&all);
        return if told.knows_nothing() { Answer::new(told.status, "{}") } else { told };
    }
    let what = match command {
        Command::Release(_) => "it is not quarantined",
        _ => "its posts will be refused",
    };
    Answer::told(200, &format!("nothing of {sender} is known yet: {what}"))
}

/// Of a new name for a sender: how many series have it, in all shards.
fn renamed(rename: &SenderRename, all: &[(u16, Answer)]) -> Answer {
    if let Some((_, refused)) = all.iter().find(|(_, answer)| answer.status != 200) {
        return refused.clone();
    }
    let SenderRename { from, to } = rename;
    let series: u64 = all.iter().filter_map(|(_, answer)| answer.says()["series"].as_u64()).sum();
    let told = match series {
        0 => format!("no series is {from}'s: nothing of it was taken yet, or it is renamed already"),
        1 => format!("1 series of {from} is {to}'s now"),
        more => format!("{more} series of {from} are {to}'s now"),
    };
    Answer::told(200, &told)
}

/// One answer: what one shard could not do is not done, and what another had done before is.
fn together(all: &[(u16, Answer)]) -> Answer {
    if let [(_, only)] = all {
        return only.clone();
    }
    let first =
        |is_so: fn(&Answer) -> bool| all.iter().map(|(_, answer)| answer).find(|answer| is_so(answer));
    let failed = first(|answer| answer.status >= 500);
    let chosen = failed.or_else(|| first(|answer| answer.status == 200));
    let Some(chosen) = chosen.or_else(|| first(|_| true)) else {
        return Answer::new(200, "{}");
    };
    let flushed = all.iter().filter_map(|(_, answer)| requests(answer));
    match requests(chosen) {
        Some(_) => Answer::new(200, json!({ "requests": flushed.sum::<u64>() }).to_string()),
        None => chosen.clone(),
    }
}

/// How many requests a flush has put into the outbox.
fn requests(answer: &Answer) -> Option<u64> {
    answer.says()["requests"].as_u64()
}

#[cfg(test)]
mod tests {
    use super::*;

    #[test]
    fn a_new_name_says_how_many_series_have_it_and_which_shard_refuses() {
        let rename = SenderRename { from: "A".into(), to: "B".into() };
        let of = |answers: &[(u16, &str)]| {
            let all = (0..).zip(answers);
            let all: Vec<_> =
                all.map(|(shard, (status, body))| (shard, Answer::new(*status, *body))).collect();
            let told = renamed(&rename, &all);
            (told.status, told.message())
        };
        let (none, two) = ((200, r#"{"series":0}"#), (200, r#"{"series":2}"#));
        assert_eq!(of(&[two, none, two]), (200, "4 series of A are B's now".into()));
        assert_eq!(of(&[none]).1, "no series is A's: nothing of it was taken yet, or it is renamed already");
        assert_eq!(of(&[two, (409, r#"{"message":"B is quarantined"}"#)]), (409, "B is quarantined".into()));
    }

    #[test]
    fn what_shards_say_is_one_answer() {
        let of = |answers: &[(u16, &str)]| {
            let answers = (0..).zip(answers);
            let all: Vec<_> =
                answers.map(|(shard, (status, body))| (shard, Answer::new(*status, *body))).collect();
            let told = together(&all);
            (told.status, told.body)
        };
        let (taken, flushed) = ((200, "{}"), |requests| (200, requests));
        let (three, four) = (flushed(r#"{"requests":3}"#), flushed(r#"{"requests":4}"#));
        assert_eq!(of(&[three, four]), (200, r#"{"requests":7}"#.to_string()));
        let no_memory = (503, r#"{"message":"no memory"}"#);
        assert_eq!(of(&[three, no_memory]).0, 503);
        let not = (400, r#"{"message":"not quarantined"}"#);
        assert_eq!(of(&[not, taken]).0, 200);
        assert_eq!(of(&[not, not]), (400, not.1.to_string()));
    }

    /// Otherwise an operator who mistypes the name would think that it is done, or one who is early that it can't be
    /// done.
    #[test]
    fn an_order_about_a_sender_of_whom_nothing_is_known_is_done_and_said_so() {
        let of = |command: fn(String) -> Command, answers: &[(u16, &str)]| {
            let all = (0..).zip(answers);
            let all = all.map(|(shard, (status, body))| (shard, Answer::new(*status, *body))).collect();
            let told = of_sender("A", &command("A".into()), all);
            (told.status, told.message())
        };
        let (done, not) = ((200, "{}"), (400, r#"{"message":"not quarantined"}"#));
        let (new, none) =
            ((200, r#"{"known":false}"#), (400, r#"{"known":false,"message":"not quarantined"}"#));
        let nothing = |what: &str| (200, format!("nothing of A is known yet: {what}"));
        assert_eq!(of(Command::Quarantine, &[new, new]), nothing("its posts will be refused"));
        assert_eq!(of(Command::Release, &[none, none]), nothing("it is not quarantined"));
        // One shard knows the sender.
        assert_eq!(of(Command::Quarantine, &[new, done]), (200, "{}".into()));
        assert_eq!(of(Command::Release, &[none, not]), (400, "not quarantined".into()));
        assert_eq!(of(Command::Release, &[none, done]), (200, "{}".into()));
        let no_memory = (503, r#"{"known":false,"message":"no memory"}"#);
        assert_eq!(of(Command::Quarantine, &[new, no_memory]).0, 503);
    }
}
