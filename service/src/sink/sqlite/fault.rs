//! Faults of the file, and what to do about them.

use super::schema::KNOWN;
use crate::sink::sql::NotTaken;
use anyhow::anyhow;
use nix::sys::statvfs::FsFlags;
use rusqlite::ErrorCode;
use std::path::Path;

#[derive(Debug)]
pub(crate) enum Fault {
    Version {
        found: i64,
    },
    Foreign,
    /// The text says all.
    Another(String),
    /// The fault may pass, as the next.
    PeriodOutcome(String),
    File(rusqlite::Error),
}

impl Fault {
    pub(super) fn told(what: impl Into<String>) -> Fault {
        Fault::PeriodOutcome(what.into())
    }

    /// Whether the fault stays until somebody names another file or starts another version.
    pub(super) fn is_lasting(&self) -> bool {
        !matches!(self, Fault::PeriodOutcome(_) | Fault::File(_))
    }

    /// Whether the connection, and what it has cached of the file, may still be used.
    pub(super) fn leaves_the_file_whole(&self) -> bool {
        matches!(self, Fault::File(error) if matches!(
            error.sqlite_error_code(),
            Some(ErrorCode::DatabaseBusy | ErrorCode::DatabaseLocked)
        ))
    }

    /// The error, with the file's name.
    pub(crate) fn at(self, path: &Path) -> anyhow::Error {
        let file = path.display();
        match self {
            Fault::Version { found } => anyhow!("{file} was written by another version of totxegun (schema {found}; this one knows {KNOWN}): use that version, or another file"),
            Fault::Foreign => anyhow!("{file} is a database of another program: name another file"),
            Fault::Another(what) => anyhow!(what),
            Fault::PeriodOutcome(what) => anyhow!("{file}: {what}"),
            Fault::File(error) => {
                let what = error.sqlite_error_code().and_then(|code| what(code, path));
                let what = what.map_or_else(|| error.to_string(), |what| format!("{what} ({error})"));
                anyhow::Error::new(error).context(format!("{file}: {what}"))
            }
        }
    }
}

impl From<rusqlite::Error> for Fault {
    fn from(error: rusqlite::Error) -> Fault {
        Fault::File(error)
    }
}

fn what(code: ErrorCode, path: &Path) -> Option<String> {
    let folder = path.parent().filter(|folder| !folder.as_os_str().is_empty()).unwrap_or(Path::new("."));
    let is_of_rights =
        matches!(code, ErrorCode::ReadOnly | ErrorCode::PermissionDenied | ErrorCode::CannotOpen);
    if is_of_rights && is_read_only(folder) {
        return Some(sealed(folder));
    }
    let what = match code {
        ErrorCode::DatabaseBusy | ErrorCode::DatabaseLocked => {
            "another process has it locked: end what writes to it"
        }
        ErrorCode::DiskFull => "the disk is full: make room",
        ErrorCode::ReadOnly | ErrorCode::PermissionDenied => {
            "it can't be written: let the service's user write the file and its folder"
        }
        ErrorCode::CannotOpen if !folder.is_dir() => {
            "its folder is missing (or hidden from a unit, as /home is): make it"
        }
        ErrorCode::CannotOpen => "it can't be opened: let the service's user write the file and its folder",
        ErrorCode::DatabaseCorrupt => {
            "it is damaged: put a copy back, or move it and its -wal away and start with --new-sink"
        }
        ErrorCode::NotADatabase => "it is no SQLite database: name another file, or move it away",
        ErrorCode::SystemIoFailure => "reading or writing failed: look at the disk",
        _ => return None,
    };
    Some(what.to_string())
}

/// A unit with `ProtectSystem=strict`, such as the shipped one, may write only to its own folder.
fn is_read_only(folder: &Path) -> bool {
    let found = nix::sys::statvfs::statvfs(folder);
    found.is_ok_and(|found| found.flags().contains(FsFlags::ST_RDONLY))
}

fn sealed(folder: &Path) -> String {
    let folder = folder.display();
    format!(
        "{folder} is read-only for this process: under systemd, add `ReadWritePaths={folder}` and `User=` with its owner to \
         the unit (`systemctl edit totxegun`); else mount it writable"
    )
}

impl From<anyhow::Error> for Fault {
    fn from(odd: anyhow::Error) -> Fault {
        Fault::PeriodOutcome(odd.to_string())
    }
}

impl From<Fault> for NotTaken<Fault> {
    fn from(fault: Fault) -> NotTaken<Fault> {
        NotTaken::Fault(fault)
    }
}

impl From<rusqlite::Error> for NotTaken<Fault> {
    /// Content that no SQLite takes is refused for good. All else may pass.
    fn from(error: rusqlite::Error) -> NotTaken<Fault> {
        match error.sqlite_error_code() {
            Some(ErrorCode::TooBig) => NotTaken::Refused(format!("too long for SQLite: {error}")),
            _ => NotTaken::Fault(error.into()),
        }
    }
}

#[cfg(test)]
mod tests {
    use super::*;

    /// Only if this folder is read-only, as in most containers.
    #[test]
    fn a_sealed_folder_is_told_with_what_opens_it() {
        let sealed = Path::new("/sys/fs/cgroup");
        if !is_read_only(sealed) {
            return;
        }
        for code in [ErrorCode::CannotOpen, ErrorCode::ReadOnly] {
            let what = what(code, &sealed.join("metrics.db")).unwrap();
            assert!(what.contains("`ReadWritePaths=/sys/fs/cgroup`"), "{what}");
        }
    }

    #[test]
    fn what_opens_a_folder_is_named() {
        let what = sealed(Path::new("/srv/totals"));
        assert!(what.starts_with("/srv/totals is read-only"), "{what}");
        assert!(!is_read_only(&std::env::temp_dir()));
    }
}
