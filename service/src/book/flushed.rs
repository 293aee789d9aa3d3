//! Flushes taken from the book, and the requests that they are serialised to.

use super::library::Flushes;
use super::memory;
use super::refusal::{check, Refused};

/// Flushes taken from the book; their requests are numbered from 0. They have to be settled: once the lock is released,
/// points of a later window may come, and a flush that is given back would be merged with these.
#[must_use = "what was taken has to be settled"]
pub struct Flushed {
    /// Requests that are serialised already and go first.
    pub(super) earlier: Vec<Vec<u8>>,
    /// Each flush handle with the number of its requests.
    pub(super) parts: Vec<(Flushes, usize)>,
}

impl Flushed {
    pub(super) fn of(flushes: Flushes, count: usize) -> Flushed {
        Flushed { earlier: Vec::new(), parts: vec![(flushes, count)] }
    }

    /// How many requests are to be serialised.
    pub fn count(&self) -> usize {
        self.parts.iter().map(|(_, count)| count).sum()
    }

    /// Serialises one request. Needs no lock.
    pub fn text(&mut self, number: usize) -> Result<Vec<u8>, Refused> {
        let mut before = number;
        for (flushes, count) in &mut self.parts {
            if before < *count {
                let text = check(flushes.text(before))?;
                memory::note_text(text.number);
                return copied(flushes, text.number);
            }
            before -= *count;
        }
        Err(Refused::NoSuch)
    }

    /// Serialises all requests, after those of earlier windows.
    pub fn texts(&mut self) -> Result<Vec<Vec<u8>>, Refused> {
        let written: Result<Vec<_>, _> = (0..self.count()).map(|number| self.text(number)).collect();
        let written = written?;
        let mut all = std::mem::take(&mut self.earlier);
        all.extend(written);
        Ok(all)
    }
}

/// Copies the text that was written last.
pub(super) fn copied(flushes: &mut Flushes, length: u64) -> Result<Vec<u8>, Refused> {
    let mut out = vec![0; usize::try_from(length).map_err(|_| Refused::NoMemory)?];
    match flushes.copy(&mut out) {
        true => Ok(out),
        false => Err(Refused::Unknown(u32::MAX)),
    }
}
