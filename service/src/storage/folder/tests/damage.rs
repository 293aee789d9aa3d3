//! A missing shard, and a journal and an outbox of which one is older than the other.

use super::*;

#[test]
fn a_shard_that_was_made_and_is_gone_is_refused_by_name_until_it_is_back() {
    let place = tempfile::tempdir().unwrap();
    let folder = open(place.path()).unwrap();
    drop(folder.shard().unwrap());
    let (shard, moved) = (place.path().join("shard-0"), place.path().join("moved"));
    for name in ["", "outbox"] {
        std::fs::rename(shard.join(name), &moved).unwrap();
        let fault = folder.shard().err().unwrap().to_string();
        assert!(fault.contains("shard-0/outbox") && fault.contains("restore"), "{fault}");
        assert!(!folder.is_empty());
        std::fs::rename(&moved, shard.join(name)).unwrap();
        drop(folder.shard().unwrap());
    }
    let journal = shard.join("journal");
    std::fs::rename(&journal, &moved).unwrap();
    let fault = folder.shard().err().unwrap().to_string();
    assert!(fault.contains("shard-0/journal/0000000000") && fault.contains("missing"), "{fault}");
    std::fs::remove_dir_all(&journal).unwrap();
    std::fs::rename(&moved, &journal).unwrap();
    folder.shard().unwrap();
}

fn post(text: &str) -> Post {
    Post { sender: "s".into(), foreign: 0, body: Body::Text(text.to_string().into()) }
}

fn copied(from: &Path, to: &Path) {
    let done = std::process::Command::new("cp").arg("-a").args([from, to]).status();
    assert!(done.unwrap().success());
}

/// Makes three checkpoints, with a post after each; copies the folder's shard before each.
fn with_three_commits(place: &Path) {
    let folder = open(place).unwrap();
    let (journal, outbox) = folder.shard().unwrap();
    for number in 1..4 {
        copied(&place.join("shard-0"), &place.join(format!("copy-{number}")));
        journal.write(journal.append(&post("a"), &NoNames)).unwrap();
        let (next, _) = journal.roll();
        outbox.commit(&[], next).unwrap();
        journal.truncate_before(next).unwrap();
        journal.write(journal.append(&post("b"), &NoNames)).unwrap();
    }
    drop((journal, outbox));
}

#[test]
fn an_older_journal_or_outbox_is_refused_by_the_name_of_what_is_older() {
    let place = tempfile::tempdir().unwrap();
    with_three_commits(place.path());
    let at = |name: &str| place.path().join(name);
    for number in 1..4 {
        for (part, named) in
            [("journal", "journal/000000000004.seg"), ("outbox", "shard-0/outbox/0000000000")]
        {
            std::fs::rename(at("shard-0"), at("kept")).unwrap();
            copied(&at("kept"), &at("shard-0"));
            std::fs::remove_dir_all(at("shard-0").join(part)).unwrap();
            copied(&at(&format!("copy-{number}")).join(part), &at("shard-0").join(part));
            let fault = open(place.path()).unwrap().shard().err().unwrap().to_string();
            assert!(fault.contains(named), "{number} {part}: {fault}");
            std::fs::remove_dir_all(at("shard-0")).unwrap();
            std::fs::rename(at("kept"), at("shard-0")).unwrap();
        }
    }
    open(place.path()).unwrap().shard().unwrap();
}

/// Otherwise the start would ask for a segment of the journal that was rightly deleted.
#[test]
fn an_outbox_that_was_cut_is_named_wherever_it_was_cut() {
    let place = crate::storage::power::place();
    with_three_commits(place.path());
    let at = |name: &str| place.path().join(name);
    let last = at("shard-0/outbox/000000000001.seg");
    let whole = std::fs::read(&last).unwrap();
    std::fs::rename(at("shard-0"), at("kept")).unwrap();
    let version = std::fs::read(at("version")).unwrap();
    let mut refused = 0;
    for length in 0..whole.len() {
        std::fs::write(at("version"), &version).unwrap();
        copied(&at("kept"), &at("shard-0"));
        std::fs::write(&last, &whole[..length]).unwrap();
        if let Err(fault) = open(place.path()).unwrap().shard() {
            refused += 1;
            assert!(fault.to_string().contains("shard-0/outbox/"), "{length}: {fault}");
        }
        std::fs::remove_dir_all(at("shard-0")).unwrap();
    }
    assert!(refused > whole.len() / 2, "{refused} of {}", whole.len());
}
