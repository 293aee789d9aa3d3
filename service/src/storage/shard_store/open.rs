//! Opens a shard whose files a shard store keeps; `storage/folder` does the same for a folder.
//!
//! `store/postgres/shard_store` calls it after each takeover. A shard that has had files never starts empty.

use super::ShardStore;
use crate::dead_letters::DeadLetters;
use crate::journal::Expected;
use crate::journal::{Journal, Left};
use crate::outbox::Outbox;
use crate::storage::disk::Disk;
use crate::storage::free_space::FreeSpace;
use crate::storage::{segment, Durability, Fault};
use std::path::Path;
use std::sync::Arc;

const PUT_BACK: &str =
    "restore all of the shard's files, or end all instances and call `totxegun store restored`";

/// Opens the files of a shard that was just taken. The keys of new requests have this owner's epoch. It continues the
/// previous owner's epoch, and the first one continues the store's, `root`. If the store draws no epochs, the keys have
/// `root`.
pub fn open(shard_store: Arc<dyn ShardStore>, root: &str) -> Result<(Journal, Outbox, DeadLetters), Fault> {
    let (delivered, had_files, epoch) =
        (shard_store.delivered(), shard_store.had_files(), shard_store.epoch());
    let disk = Disk::of_shard_store(shard_store);
    let (journal, outbox) = (Path::new("journal"), Path::new("outbox"));
    let is_new = segment::numbers(&disk, outbox)?.is_empty();
    if is_new {
        check_new(&disk, outbox, journal, delivered, had_files)?;
    }
    let free_space = Arc::new(FreeSpace::endless());
    let outbox = Outbox::read(&disk, outbox, root, free_space.clone())?;
    if let Some(epoch) = epoch {
        outbox.begin_epoch(root, &epoch);
    }
    let outbox = outbox.begun()?;
    outbox.is_delivered_to(delivered)?;
    let reach = outbox.journal();
    let expected = Expected {
        reach,
        // The first commit of a shard has both files, and each later commit has the segment that it names.
        begun: (!is_new).then_some(reach),
        by: outbox.ended(),
    };
    let left = Left::read(&disk, journal)?;
    let journal = Journal::go_on(&disk, journal, Durability::Disk, free_space.clone(), &expected, left)?;
    let dead = DeadLetters::open(&disk, Path::new("dead-letters"), free_space)?;
    Ok((journal, outbox, dead))
}

/// Refuses to start a shard empty if anything shows that it had an outbox: its posts would be lost silently.
fn check_new(
    disk: &Disk,
    outbox: &Path,
    journal: &Path,
    delivered: u64,
    had_files: bool,
) -> Result<(), Fault> {
    let proof = if !segment::numbers(disk, journal)?.is_empty() {
        "the journal beside it has some".to_string()
    } else if delivered > 0 {
        format!("the sink has its requests up to number {delivered}")
    } else if had_files {
        "the shard had files".to_string()
    } else {
        return Ok(());
    };
    let what = format!("has no segments, although {proof}: {PUT_BACK}");
    Err(Fault::Damaged { path: outbox.into(), at: 0, what })
}
