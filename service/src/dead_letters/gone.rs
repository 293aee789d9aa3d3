//! Remembers what became of the last dead letters, in the file `gone` beside them, one JSON object a line. An instance
//! may be fenced before it answers an operator; the next owner then tells whoever repeats the command that it was
//! carried out. Only a store needs it: a folder's service answers for itself, and dropping a letter on a full disk must
//! not need room.

use super::{io_fault, DeadLetters, Fault};
use serde::{Deserialize, Serialize};
use std::io;
use std::path::PathBuf;

/// Not the name of a letter.
const NAME: &str = "gone";
/// How many are remembered.
pub(super) const MOST: usize = 256;

/// What became of a dead letter.
#[derive(Clone, Debug, PartialEq, Eq, Serialize, Deserialize)]
pub enum Became {
    /// An operator dropped it.
    Dropped,
    /// The sink has it.
    Taken,
    /// The sink has a part of it, for this reason.
    TakenPartly(String),
}

#[derive(Serialize, Deserialize)]
struct Gone {
    key: String,
    became: Became,
}

impl DeadLetters {
    fn gone_path(&self) -> PathBuf {
        self.folder.join(NAME)
    }

    /// Called with the lock held, before the letter is removed: so none is gone without a record.
    pub(super) fn note_gone(&self, key: &str, became: Became) -> Result<(), Fault> {
        if !self.disk.keeps_order() {
            return Ok(());
        }
        let mut all = self.all_gone()?;
        all.retain(|gone| gone.key != key);
        all.push(Gone { key: key.into(), became });
        let (path, mut bytes) = (self.gone_path(), Vec::new());
        for gone in &all[all.len().saturating_sub(MOST)..] {
            serde_json::to_writer(&mut bytes, gone).map_err(io::Error::from).map_err(io_fault(&path))?;
            bytes.push(b'\n');
        }
        self.disk.put_file(&path, &bytes)
    }

    /// What became of the letter with this key, if that is remembered.
    pub fn became(&self, key: &str) -> Result<Option<Became>, Fault> {
        let found = self.all_gone()?.into_iter().find(|gone| gone.key == key);
        Ok(found.map(|gone| gone.became))
    }

    /// Lines that can't be parsed, such as a later version's, are skipped.
    fn all_gone(&self) -> Result<Vec<Gone>, Fault> {
        let path = self.gone_path();
        let Some(file) = self.disk.find(&path)? else {
            return Ok(Vec::new());
        };
        let bytes = file.read_from(0).map_err(io_fault(&path))?;
        let lines = bytes.split(|byte| *byte == b'\n');
        Ok(lines.filter_map(|line| serde_json::from_slice(line).ok()).collect())
    }
}
