//! Checks whether this user can use a folder, so that an operator's mistake is not reported as a disk fault. Changes
//! nothing.

use super::{io_fault, Disk, Fault, FolderFault};
use nix::errno::Errno;
use nix::unistd::{access, AccessFlags};
use std::io::ErrorKind;
use std::os::unix::fs::MetadataExt;
use std::path::Path;

/// Passes if a start could use what is there, judged by this user's rights and by which names are files and which are
/// folders. Passes too if there is nothing yet. Does not read the files.
pub fn look_at(folder: &Path) -> Result<(), FolderFault> {
    match std::fs::metadata(folder) {
        Ok(about) if about.is_dir() => {}
        Ok(_) => return Err(unusable(folder, "is a file, but --data needs a folder: give another")),
        Err(error) if error.kind() == ErrorKind::NotFound => return Ok(()),
        Err(error) => return Err(named(io_fault(folder)(error), folder)),
    }
    has_rights(folder)?;
    for name in ["lock", "version"] {
        let path = folder.join(name);
        if path.is_dir() {
            return Err(unusable(&path, "is a folder, but has to be a file: remove it"));
        }
    }
    for name in Disk::default().names(folder)? {
        let is_ours =
            |name: &str| ["lock", "version", "dead-letters"].contains(&name) || name.starts_with("shard-");
        if name.to_str().is_some_and(is_ours) {
            all_have_rights(&folder.join(name))?;
        }
    }
    Ok(())
}

/// Checks a file, or a folder with everything in it.
fn all_have_rights(path: &Path) -> Result<(), FolderFault> {
    has_rights(path)?;
    if path.is_dir() {
        for name in Disk::default().names(path)? {
            all_have_rights(&path.join(name))?;
        }
    }
    Ok(())
}

fn has_rights(path: &Path) -> Result<(), FolderFault> {
    let mut wanted = AccessFlags::R_OK | AccessFlags::W_OK;
    if path.is_dir() {
        wanted |= AccessFlags::X_OK;
    }
    match access(path, wanted) {
        // It may have been removed since it was listed.
        Ok(()) | Err(Errno::ENOENT) => Ok(()),
        Err(error) => Err(named(io_fault(path)(error.into()), path)),
    }
}

fn unusable(path: &Path, what: &str) -> FolderFault {
    FolderFault::Unusable { path: path.into(), what: what.into() }
}

/// Gives a named error for what an operator can fix; anything else stays a disk fault.
pub fn named(fault: Fault, folder: &Path) -> FolderFault {
    let Fault::Io { path, source } = fault else {
        return fault.into();
    };
    match source.kind() {
        ErrorKind::PermissionDenied => unusable(
            &path,
            &format!(
                "can't be read and written by this process's user (id {user}): change its owner, for example by `chown -R \
                 {user} {}`, or give another --data",
                folder.display(),
                user = std::fs::metadata("/proc/self").map_or(0, |about| about.uid())
            ),
        ),
        ErrorKind::NotADirectory => unusable(&path, "can't be a folder, since a part of its path is a file: give another \
            --data"),
        ErrorKind::ReadOnlyFilesystem => unusable(
            &path,
            "is on a read-only file system: mount it for writing, or give another --data",
        ),
        _ => Fault::Io { path, source }.into(),
    }
}
