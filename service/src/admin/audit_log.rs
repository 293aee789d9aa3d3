//! The audit log of operators' actions, `acts.jsonl` in the folder: who did what and when, and the outcome. `AdminApi`
//! records each action here, except a flush.
//!
//! A line is durable before an action is carried out, and a second line has its outcome. The file is in the folder and
//! not in the sink, since a sink may be another receiver, or down when somebody acts. If the file can't be written, the
//! log says so and the action goes on: it may be the one that makes room.

use super::user;
use crate::ingest::user::User;
use crate::log::{all_shown, cut};
use crate::work::{blocking, locked};
use hyper::{Body, Request};
use serde::Serialize;
use std::fs::{File, OpenOptions};
use std::future::Future;
use std::io::{Read, Seek, SeekFrom, Write};
use std::os::unix::fs::OpenOptionsExt;
use std::path::{Path, PathBuf};
use std::sync::{Arc, Mutex};

const NAME: &str = "acts.jsonl";
/// The file with the earlier lines: `NAME` is renamed to it when it is full.
const EARLIER: &str = "acts.1.jsonl";

/// The size at which a file is full. Both files together hold some 50,000 lines.
const MOST: u64 = 4 << 20;

/// How much of an action's object and outcome is written, in characters.
const SHOWN: usize = 500;

/// The name of an operator whom the system does not know.
const NOBODY: &str = "operator";

/// The header by which root says for whom it acts.
pub const OPERATOR: &str = "x-operator";
const ROOT: u32 = 0;
/// How much of that name is kept, in characters.
const NAME_SHOWN: usize = 64;

/// Who asks for an action.
#[derive(Clone, Debug)]
pub enum Actor {
    /// The user of the connection, if the system knows it.
    User(Option<User>),
    /// A name that a token, root or another instance gives.
    Named(String),
}

impl Actor {
    /// Who sends a request to the socket. Root is believed if it says for whom it acts (as after `sudo`): it could
    /// write the file itself.
    pub(super) fn of(request: &Request<Body>) -> Actor {
        let user = request.extensions().get::<User>().copied();
        let told = request.headers().get(OPERATOR).and_then(|name| name.to_str().ok());
        match (user, told.map(str::trim).filter(|name| !name.is_empty())) {
            (Some(User(ROOT)), Some(name)) => Actor::Named(format!("{} (as root)", cut(name, NAME_SHOWN))),
            _ => Actor::User(user),
        }
    }

    fn name(self) -> String {
        match self {
            Actor::User(user) => user.and_then(user::name).unwrap_or_else(|| NOBODY.to_string()),
            Actor::Named(name) => name,
        }
    }
}

pub struct AuditLog {
    folder: PathBuf,
    file: Mutex<()>,
}

/// An action, as it is recorded.
#[derive(Clone, Debug, PartialEq, Eq)]
pub struct Asked {
    /// `quarantine`, `release`, `dead-letters drop`, `dead-letters resend`, `close`, `reopen`, `adjust`, `rewind`, `forget`, `senders rename`, `new sink`.
    pub what: &'static str,
    /// Its object: a sender, a key, a period, an adjustment, a series or a sink.
    pub of: String,
    /// Which of these options were given: `--all`, `--force`, `--flush`.
    pub given: Vec<&'static str>,
}

/// An action, and who asked for it.
#[derive(Clone, Debug)]
pub struct Act {
    who: String,
    asked: Asked,
}

#[derive(Serialize)]
struct Written<'a> {
    ts: String,
    who: &'a str,
    action: &'static str,
    target: &'a str,
    #[serde(skip_serializing_if = "<[_]>::is_empty")]
    args: &'a [&'static str],
    /// None in the line from before the action.
    #[serde(skip_serializing_if = "Option::is_none")]
    outcome: Option<&'a str>,
}

impl Asked {
    pub fn new(what: &'static str, of: impl Into<String>) -> Asked {
        Asked { what, of: of.into(), given: Vec::new() }
    }

    /// Adds an option if it was given.
    pub fn with(mut self, option: &'static str, is_given: bool) -> Asked {
        self.given.extend(is_given.then_some(option));
        self
    }
}

impl Act {
    pub fn new(actor: Actor, mut asked: Asked) -> Act {
        asked.of = all_shown(cut(&asked.of, SHOWN));
        Act { who: actor.name(), asked }
    }
}

impl AuditLog {
    pub fn in_folder(folder: &Path) -> AuditLog {
        AuditLog { folder: folder.into(), file: Mutex::new(()) }
    }

    /// Runs `doing`. If it is an action (`asked`), one line is written before it and one with its outcome after it.
    pub(super) async fn recorded<Done, Doing: Future<Output = Done>>(
        self: &Arc<AuditLog>,
        actor: Actor,
        asked: Option<Asked>,
        doing: impl FnOnce(String) -> Doing,
        outcome: impl FnOnce(&Done) -> String,
    ) -> Done {
        let Some(asked) = asked else { return doing(String::new()).await };
        let acts = self.clone();
        let begin = move || {
            let act = Act::new(actor, asked);
            acts.begins(&act);
            act
        };
        let act = blocking(begin).await;
        let done = doing(act.who.clone()).await;
        let (acts, outcome) = (self.clone(), outcome(&done));
        blocking(move || acts.ended(&act, &outcome)).await;
        done
    }

    /// Records that the action is about to be carried out.
    pub fn begins(&self, act: &Act) {
        self.put(act, None);
    }

    /// Records the outcome, in the file and in the log.
    pub fn ended(&self, act: &Act, outcome: &str) {
        let Act { who, asked: Asked { what, of, given } } = act;
        let outcome = all_shown(cut(outcome, SHOWN));
        let args = (!given.is_empty()).then(|| given.join(" "));
        tracing::info!(who, action = what, target = of, args, outcome, "an operator's order has ended");
        self.put(act, Some(&outcome));
    }

    fn put(&self, act: &Act, outcome: Option<&str>) {
        let Act { who, asked: Asked { what, of, given } } = act;
        let line = Written { ts: crate::log::now(), who, action: what, target: of, args: given, outcome };
        let _one = locked(&self.file);
        if let Err(error) = self.append(&line, outcome.is_none()) {
            let (file, reason) = (self.folder.join(NAME).display().to_string(), error.to_string());
            tracing::warn!(file, reason, "what operators do can't be written down");
        }
    }

    /// The first line of an action is durable when this returns.
    fn append(&self, line: &Written, is_first: bool) -> std::io::Result<()> {
        let path = self.folder.join(NAME);
        let mut options = OpenOptions::new();
        options.read(true).append(true).create(true).mode(0o600);
        let mut file = options.open(&path)?;
        if file.metadata()?.len() >= MOST {
            std::fs::rename(&path, self.folder.join(EARLIER))?;
            file = options.open(&path)?;
        }
        let mut bytes = Vec::new();
        if is_cut(&mut file)? {
            bytes.push(b'\n');
        }
        serde_json::to_writer(&mut bytes, line)?;
        bytes.push(b'\n');
        file.write_all(&bytes)?;
        if is_first {
            // The folder is not synced: the sync could report a fault that has to end the process, and here it would
            // only be logged.
            file.sync_all()?;
        }
        Ok(())
    }
}

/// Whether the last line was not written whole, as on a full disk.
fn is_cut(file: &mut File) -> std::io::Result<bool> {
    let mut last = [b'\n'];
    if file.seek(SeekFrom::End(0))? > 0 {
        file.seek(SeekFrom::End(-1))?;
        file.read_exact(&mut last)?;
    }
    Ok(last != [b'\n'])
}

#[cfg(test)]
mod tests {
    use super::*;
    use std::os::unix::fs::PermissionsExt;

    fn lines(folder: &Path, name: &str) -> Vec<serde_json::Value> {
        let text = std::fs::read_to_string(folder.join(name)).unwrap();
        text.lines().map(|line| serde_json::from_str(line).unwrap()).collect()
    }

    #[test]
    fn an_act_is_there_before_it_is_carried_out_and_then_how_it_ended() {
        let folder = tempfile::tempdir().unwrap();
        let acts = AuditLog::in_folder(folder.path());
        let act = Act::new(Actor::User(None), Asked::new("dead-letters drop", "0-a-1\n{\"who\":\"root\"}"));
        acts.begins(&act);
        let first = lines(folder.path(), NAME);
        assert_eq!(
            (&first[0]["who"], &first[0]["action"]),
            (&"operator".into(), &"dead-letters drop".into())
        );
        assert!(first[0].get("outcome").is_none() && first.len() == 1, "{first:?}");
        let mode = std::fs::metadata(folder.path().join(NAME)).unwrap().permissions().mode();
        assert_eq!(mode & 0o077, 0, "{mode:o}: others may read it");
        acts.ended(&act, "no such\u{1b}request");
        let both = lines(folder.path(), NAME);
        assert_eq!((both.len(), &both[1]["outcome"]), (2, &"no such request".into()));
        assert_eq!(both[1]["target"], "0-a-1 {\"who\":\"root\"}");
    }

    /// Nobody but root is believed.
    #[test]
    fn root_says_for_whom_it_acts() {
        let name = |user: Option<u32>, told: &str| {
            let request = Request::builder().header(OPERATOR, told).body(Body::empty());
            let mut request = request.unwrap();
            user.map(|user| request.extensions_mut().insert(User(user)));
            Actor::of(&request).name()
        };
        assert_eq!(name(Some(0), "ann"), "ann (as root)");
        assert_eq!(name(Some(0), " "), "root");
        assert_eq!(name(Some(4_000_000), "ann"), "uid 4000000");
        assert_eq!(name(None, "ann"), NOBODY);
        assert_eq!(name(Some(0), &"a".repeat(200)).len(), NAME_SHOWN + " (as root)".len());
    }

    #[test]
    fn what_was_given_beside_it_is_written_down() {
        let folder = tempfile::tempdir().unwrap();
        let acts = AuditLog::in_folder(folder.path());
        for (all, force) in [(false, false), (true, false), (true, true)] {
            let asked = Asked::new("forget", "a".repeat(2 * SHOWN)).with("--all", all).with("--force", force);
            acts.begins(&Act::new(Actor::User(None), asked));
        }
        let given = |line: &serde_json::Value| line.get("args").map(ToString::to_string);
        let found: Vec<_> = lines(folder.path(), NAME).iter().map(given).collect();
        assert_eq!(found, [None, Some(r#"["--all"]"#.into()), Some(r#"["--all","--force"]"#.into())]);
    }

    #[test]
    fn the_file_does_not_grow_for_ever() {
        let folder = tempfile::tempdir().unwrap();
        let acts = AuditLog::in_folder(folder.path());
        let act = Act::new(Actor::User(None), Asked::new("release", "A"));
        for fill in [MOST, MOST] {
            acts.begins(&act);
            let file = OpenOptions::new().write(true).open(folder.path().join(NAME)).unwrap();
            file.set_len(fill).unwrap();
            acts.begins(&act);
            assert_eq!(lines(folder.path(), NAME).len(), 1);
        }
        let length = |name: &str| std::fs::metadata(folder.path().join(name)).unwrap().len();
        assert!(length(NAME) < 1000 && length(EARLIER) == MOST);
    }

    /// A full disk or a power cut leaves such a line.
    #[test]
    fn an_act_behind_a_line_that_was_cut_has_its_own() {
        let folder = tempfile::tempdir().unwrap();
        let cut = "{\"ts\":\"2026-11-27T1";
        std::fs::write(folder.path().join(NAME), cut).unwrap();
        let acts = AuditLog::in_folder(folder.path());
        let act = Act::new(Actor::User(None), Asked::new("release", "A"));
        acts.begins(&act);
        acts.ended(&act, "done");
        let text = std::fs::read_to_string(folder.path().join(NAME)).unwrap();
        let whole = text.strip_prefix(cut).unwrap().strip_prefix('\n').unwrap();
        let outcomes: Vec<_> = whole
            .lines()
            .map(|line| serde_json::from_str::<serde_json::Value>(line).unwrap()["outcome"].clone())
            .collect();
        assert_eq!(outcomes, [serde_json::Value::Null, "done".into()]);
    }

    /// As on a full disk: the action may be what makes room.
    #[test]
    fn an_act_goes_on_where_it_can_t_be_written() {
        let acts = AuditLog::in_folder(Path::new("/nowhere/at/all"));
        acts.begins(&Act::new(Actor::User(None), Asked::new("release", "A")));
    }
}
