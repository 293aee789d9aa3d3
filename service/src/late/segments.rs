//! The files of late data: lines of JSON in segments. If all of them are too long, the oldest segment is deleted. A
//! segment may end within a line, after a kill or on a full disk; then an end of line is written before the next one.

use super::LatePoint;
use std::collections::VecDeque;
use std::fs::{File, OpenOptions};
use std::io::{BufRead, BufReader, ErrorKind, Read, Result, Seek, SeekFrom, Write};
use std::os::unix::fs::{DirBuilderExt, OpenOptionsExt};
use std::path::{Path, PathBuf};

/// How many segments hold everything that is kept; deleting the oldest one deletes that fraction.
const SEGMENTS: u64 = 8;
const SUFFIX: &str = ".jsonl";
/// About how many bytes of lines are made before they are written, since each line has the whole text of its series.
const MAX_WRITE: u64 = 1 << 20;

/// The number of a segment, and its length.
type Segment = (u64, u64);

/// The segments of a folder. It is listed before each write, so files that somebody deletes don't matter.
pub(super) struct Segments {
    folder: PathBuf,
    max_bytes: u64,
}

impl Segments {
    pub fn new(folder: PathBuf, max_bytes: u64) -> Segments {
        Segments { folder, max_bytes }
    }

    pub fn folder(&self) -> &Path {
        &self.folder
    }

    /// The total length, as far as the folder can be listed.
    pub fn bytes(&self) -> u64 {
        bytes(&listed(&self.folder).unwrap_or_default())
    }

    /// Appends these lines, which end with an end of line. Returns how many were written, and an error if that stopped
    /// it. Lines longer than a segment are skipped, and the rest is dropped once a post has written as much as a
    /// segment: no post may displace all others.
    pub fn append(&self, lines: impl Iterator<Item = Vec<u8>>) -> (u64, Result<()>) {
        let of_one = self.max_bytes / SEGMENTS;
        let (mut written, mut bytes) = (0, 0);
        let (mut part, mut count) = (Vec::new(), 0);
        let short = lines.filter(|line| line.len() as u64 <= of_one);
        let fits = |line: &Vec<u8>| {
            bytes += line.len() as u64;
            bytes <= of_one
        };
        for line in short.take_while(fits) {
            if !part.is_empty() && (part.len() + line.len()) as u64 > MAX_WRITE.min(of_one) {
                if let Err(error) = self.put(&part) {
                    return (written, Err(error));
                }
                (written, count) = (written + count, 0);
                part.clear();
            }
            part.extend(line);
            count += 1;
        }
        match self.put(&part) {
            Ok(()) => (written + count, Ok(())),
            error => (written, error),
        }
    }

    fn put(&self, part: &[u8]) -> Result<()> {
        if part.is_empty() {
            return Ok(());
        }
        std::fs::DirBuilder::new().recursive(true).mode(0o700).create(&self.folder)?;
        open(&self.folder, self.with_room(part.len() as u64)?)?.write_all(part)
    }

    /// The last segment, or a new one if it has no room for so many bytes.
    fn with_room(&self, part: u64) -> Result<u64> {
        let of_one = self.max_bytes / SEGMENTS;
        let mut all = listed(&self.folder)?;
        let next = match all.back() {
            Some((number, length)) if length + part <= of_one => return Ok(*number),
            last => last.map_or(1, |(number, _)| number + 1),
        };
        while bytes(&all) + of_one > self.max_bytes {
            let Some((oldest, _)) = all.pop_front() else { break };
            match std::fs::remove_file(path(&self.folder, oldest)) {
                Err(error) if error.kind() != ErrorKind::NotFound => return Err(error),
                _ => {}
            }
        }
        Ok(next)
    }
}

fn bytes(all: &VecDeque<Segment>) -> u64 {
    all.iter().map(|(_, bytes)| bytes).sum()
}

/// Opens a segment, and ends its last line if that is torn.
fn open(folder: &Path, number: u64) -> Result<File> {
    let mut options = OpenOptions::new();
    let mut file = options.read(true).append(true).create(true).mode(0o600).open(path(folder, number))?;
    if file.metadata()?.len() > 0 {
        let mut last = [0];
        file.seek(SeekFrom::End(-1))?;
        file.read_exact(&mut last)?;
        if last != *b"\n" {
            file.write_all(b"\n")?;
        }
    }
    Ok(file)
}

fn path(folder: &Path, number: u64) -> PathBuf {
    folder.join(format!("{number:010}{SUFFIX}"))
}

/// The segments of a folder, the oldest first.
fn listed(folder: &Path) -> Result<VecDeque<Segment>> {
    let mut all = Vec::new();
    for entry in std::fs::read_dir(folder)? {
        let entry = entry?;
        let name = entry.file_name();
        let number = name.to_str().and_then(|name| name.strip_suffix(SUFFIX)?.parse().ok());
        if let Some(number) = number {
            all.push((number, entry.metadata()?.len()));
        }
    }
    all.sort_unstable();
    Ok(all.into())
}

/// Calls `each` with all points, the oldest first. Skips lines that can't be parsed, and segments that were deleted
/// meanwhile.
pub(super) fn read(
    folder: &Path,
    may_be: impl Fn(&[u8]) -> bool,
    mut each: impl FnMut(LatePoint),
) -> Result<()> {
    let all = match listed(folder) {
        Err(error) if error.kind() == ErrorKind::NotFound => return Ok(()),
        all => all?,
    };
    for (number, _) in all {
        let file = match File::open(path(folder, number)) {
            Err(error) if error.kind() == ErrorKind::NotFound => continue,
            file => file?,
        };
        let (mut file, mut line) = (BufReader::new(file), Vec::new());
        while file.read_until(b'\n', &mut line)? > 0 {
            if may_be(&line) {
                serde_json::from_slice(&line).into_iter().for_each(&mut each);
            }
            line.clear();
        }
    }
    Ok(())
}
