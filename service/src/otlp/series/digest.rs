//! Series by digests of their keys, which are longer by far.

use super::SeriesKey;
use sha2::{Digest as _, Sha256};

/// SHA-256 of a key.
pub type Digest = [u8; 32];

impl SeriesKey {
    pub fn digest(&self) -> Digest {
        Sha256::digest(self.0.as_bytes()).into()
    }
}

/// Digests keys one after the other. Neighbours in an order mostly begin alike, and what they share is digested once.
#[derive(Default)]
pub struct Digests {
    last: Vec<u8>,
    /// Of so many bytes, with which the last one begins.
    shared: Sha256,
    length: usize,
}

/// SHA-256 takes so many bytes at once.
const BLOCK: usize = 64;

impl Digests {
    pub fn of(&mut self, key: &SeriesKey) -> Digest {
        self.of_text(&key.0)
    }

    /// The same of a key that is not kept.
    pub fn of_text(&mut self, key: &str) -> Digest {
        let text = key.as_bytes();
        let alike = self.last.iter().zip(text).take_while(|(one, other)| one == other);
        let alike = alike.count() / BLOCK * BLOCK;
        // One block more is not worth a beginning.
        if alike < self.length || alike > self.length + BLOCK {
            self.shared = Sha256::new_with_prefix(&text[..alike]);
            self.length = alike;
        }
        self.last.clear();
        self.last.extend_from_slice(text);
        let rest = &text[self.length..];
        self.shared.clone().chain_update(rest).finalize().into()
    }
}

#[cfg(test)]
mod tests;
