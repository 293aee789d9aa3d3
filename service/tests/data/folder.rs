//! New data folders of PostgreSQL. `initdb` makes one, and the server of each test gets a copy, which takes a tenth of
//! the time. So all have the same system identifier.

use std::path::Path;
use std::process::Command;
use std::sync::{Mutex, PoisonError};

/// Folders are kept here for later runs, by the command that made them.
const KEPT: &str = env!("CARGO_TARGET_TMPDIR");

static MAKING: Mutex<()> = Mutex::new(());

/// Makes a data folder as this `initdb` does; the folder is its last argument.
pub fn make(data: &Path, mut initdb: Command) {
    let words = std::iter::once(initdb.get_program()).chain(initdb.get_args());
    let name = words.map(|word| word.to_string_lossy().replace('/', "_"));
    let made = Path::new(KEPT).join(name.collect::<String>());
    let _one = MAKING.lock().unwrap_or_else(PoisonError::into_inner);
    if made.exists() {
        return copy(&made, data);
    }
    let done = initdb.arg(data).output().unwrap();
    assert!(done.status.success(), "{}", String::from_utf8_lossy(&done.stderr));
    // It has a name of its own until it is whole. If another process was first, that one's folder stays.
    let own = Path::new(KEPT).join(format!("initdb-{}", std::process::id()));
    copy(data, &own);
    if std::fs::rename(&own, &made).is_err() {
        std::fs::remove_dir_all(own).unwrap();
    }
}

fn copy(from: &Path, to: &Path) {
    let done = Command::new("cp").arg("-a").args([from, to]).output().unwrap();
    assert!(done.status.success(), "{}", String::from_utf8_lossy(&done.stderr));
}
