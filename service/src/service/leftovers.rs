//! Finds what a service without `--store` has left in the data folder. An instance would never deliver it, so it
//! refuses to start until an operator has decided what to do with it.

use super::Ended;
use crate::storage::{Folder, FolderFault};
use anyhow::anyhow;
use std::ffi::OsStr;
use std::path::Path;

/// Passes if there is nothing, or a store has it. `store` is the address of this instance's store.
pub(super) fn look_at(data: &Path, store: &str) -> Result<(), Ended> {
    if !is_made(data) {
        return Ok(());
    }
    match Folder::check_usable(data) {
        Err(FolderFault::Moved { .. }) => return Ok(()),
        usable => usable?,
    }
    if has(data, |name| name != "version") {
        let data = data.display();
        return Err(Ended::Other(anyhow!(
            "{data} has data of a service without --store, which an instance would not deliver: move it into an unused \
             store by `totxegun store move --from {data} {store}`, or give another --data"
        )));
    }
    Ok(())
}

/// Whether the folder has anything of a service; other files there belong to the instance itself.
pub(crate) fn is_made(data: &Path) -> bool {
    has(data, |_| true)
}

fn has(data: &Path, wanted: impl Fn(&OsStr) -> bool) -> bool {
    let entries = std::fs::read_dir(data).into_iter().flatten().flatten();
    entries.map(|entry| entry.file_name()).any(|name| is_kept(&name) && wanted(&name))
}

/// Whether a start reads a file of this name.
pub(crate) fn is_kept(name: &OsStr) -> bool {
    name == "version" || name == "dead-letters" || name.as_encoded_bytes().starts_with(b"shard-")
}

#[cfg(test)]
mod tests {
    use super::*;
    use crate::storage::Durability;

    const STORE: &str = "postgres://u@h:1/d";

    fn open(data: &Path) -> Folder {
        Folder::open(data, Durability::Process).unwrap()
    }

    /// The error of a start there, if any.
    fn refusal(data: &Path) -> String {
        look_at(data, STORE).err().map(|ended| ended.to_string()).unwrap_or_default()
    }

    #[test]
    fn a_folder_in_which_nothing_was_kept_is_an_instance_s_too() {
        let place = tempfile::tempdir().unwrap();
        let data = place.path().join("data");
        assert_eq!(refusal(&data), "", "there is none");
        assert!(!data.exists());
        std::fs::create_dir(&data).unwrap();
        std::fs::write(data.join("acts.jsonl"), "").unwrap();
        assert_eq!(refusal(&data), "", "it has nothing of a service");
        drop(open(&data));
        assert_eq!(refusal(&data), "", "it was only made");
        std::fs::write(data.join("version"), "totxegun 999\n").unwrap();
        assert!(!refusal(&data).is_empty(), "of another version");
    }

    /// Otherwise the files stay there, and no operator learns of them.
    #[test]
    fn what_a_service_has_kept_in_a_folder_is_named_until_a_store_has_it() {
        let place = tempfile::tempdir().unwrap();
        for (name, keep) in [
            ("shard", (|folder| drop(folder.shard().unwrap())) as fn(&Folder)),
            ("letter", |folder| folder.dead().unwrap().keep("e-1", "why", b"{}").unwrap()),
        ] {
            let data = place.path().join(name);
            keep(&open(&data));
            let why = refusal(&data);
            assert!(
                why.contains(&format!("`totxegun store move --from {} {STORE}`", data.display())),
                "{why}"
            );
            open(&data).set_moved(STORE).unwrap();
            assert_eq!(refusal(&data), "");
        }
    }
}
