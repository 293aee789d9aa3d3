//! Puts the answers of all shards together: if one is missing, the error says where the command was carried out and
//! where not.

use super::{Answer, Command, ENDING};
use std::collections::BTreeMap;

/// The answer of a shard, or why there is none.
pub type Done = Result<Answer, String>;

/// All answers in the order of the shards, or the error that some shards failed. If there is a single shard, its own
/// answer has the failure.
pub fn of_all(command: &Command, done: BTreeMap<u16, Done>) -> Result<Vec<(u16, Answer)>, Answer> {
    let of = done.len();
    let mut left: BTreeMap<String, Vec<u16>> = BTreeMap::new();
    for (shard, done) in &done {
        let why = match done {
            Ok(answer) if answer.status >= 500 && of > 1 => answer.message(),
            Ok(_) => continue,
            Err(why) => why.clone(),
        };
        left.entry(why).or_default().push(*shard);
    }
    match left.is_empty() {
        true => Ok(done.into_iter().filter_map(|(shard, done)| Some((shard, done.ok()?))).collect()),
        false => Err(Answer::told(503, &told(command.changes(), of, &left))),
    }
}

/// Says how many of the shards did it and which did not; `left` has these by reason.
fn told(is_act: bool, of: usize, left: &BTreeMap<String, Vec<u16>>) -> String {
    if of == 1 && left.contains_key(ENDING) {
        return ENDING.into();
    }
    let each = left.iter().map(|(why, shards)| format!("{}: {why}", shards_shown(shards)));
    let each = each.collect::<Vec<String>>().join("; ");
    let done = of - left.values().map(Vec::len).sum::<usize>();
    let (did, again) = match is_act {
        true => ("did it", "give the order again: where it is done it does no harm"),
        false => ("answered", "ask again"),
    };
    format!(
        "{done} of {of} shards {did}, and not {each}; `totxegun status` shows who has which shard; {again}"
    )
}

/// For example `shard 3`, or `shards 3, 4 and 7`.
pub fn shards_shown(shards: &[u16]) -> String {
    let numbers: Vec<String> = shards.iter().map(u16::to_string).collect();
    match &numbers[..] {
        [] => "no shard".into(),
        [one] => format!("shard {one}"),
        [first @ .., last] => format!("shards {} and {last}", first.join(", ")),
    }
}
