//! Refuses variables `TOTXEGUN_..` that no option reads. Otherwise a misspelled one would be ignored in silence.

use super::nearest;
use clap::Command;
use std::collections::BTreeSet;

const PREFIX: &str = "TOTXEGUN_";
/// Variables that the build and the tests read.
const OTHERS: [&str; 2] = ["TOTXEGUN_BOOK", "TOTXEGUN_TESTS"];
/// The prefixes of the variables that Kubernetes sets for a service named `totxegun`.
const OF_KUBERNETES: [&str; 2] = ["TOTXEGUN_SERVICE_", "TOTXEGUN_PORT"];

/// An error about the first of these variables that no option reads, with the nearest known one.
pub fn unknown_setting(line: &Command, set: impl Iterator<Item = String>) -> Option<String> {
    let known = known(line);
    let set: BTreeSet<String> = set.filter(|name| name.starts_with(PREFIX)).collect();
    let is_read = |name: &str| {
        known.contains(name)
            || OTHERS.contains(&name)
            || OF_KUBERNETES.iter().any(|prefix| name.starts_with(prefix))
    };
    set.iter().find(|name| !is_read(name)).map(|name| said(name, &known))
}

/// The variables of all commands, since one file of variables may serve several.
fn known(line: &Command) -> BTreeSet<String> {
    let options = line.get_subcommands().flat_map(Command::get_arguments);
    options.filter_map(|option| option.get_env()).map(|name| name.to_string_lossy().into_owned()).collect()
}

fn said(name: &str, known: &BTreeSet<String>) -> String {
    let nearest = nearest(name, known.iter());
    format!("{name} is set, and is no setting: take it out, or write {nearest} if that is meant")
}

#[cfg(test)]
mod tests {
    use super::*;
    use clap::CommandFactory;

    fn unknown(set: &[&str]) -> Option<String> {
        unknown_setting(&super::super::super::Line::command(), set.iter().map(|name| name.to_string()))
    }

    #[test]
    fn a_misspelled_setting_is_named_with_the_nearest() {
        let wanted = "TOTXEGUN_FLUSH_EVRY is set, and is no setting: take it out, or write TOTXEGUN_FLUSH_INTERVAL if that is meant";
        assert_eq!(unknown(&["HOME", "TOTXEGUN_SINK", "TOTXEGUN_FLUSH_EVRY"]).as_deref(), Some(wanted));
    }

    #[test]
    fn settings_of_others_are_no_fault() {
        assert_eq!(
            unknown(&["TOTXEGUN_SERVICE_HOST", "TOTXEGUN_PORT_4318_TCP", "TOTXEGUN_BOOK", "HOME"]),
            None
        );
    }
}
