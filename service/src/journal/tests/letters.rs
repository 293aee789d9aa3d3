//! Builds posts of both forms from texts: a text of odd length becomes points, whose first letters are series numbers.

use super::*;
use std::collections::HashMap;

/// Letters for each point.
const PIECE: usize = 60;

/// Defines each letter. The numbering depends on the length of the text, so one number can mean different letters.
pub struct Letters(u64);

impl Names for Letters {
    fn generation(&self) -> u64 {
        self.0
    }

    fn text(&self, number: u64) -> Bytes {
        vec![(number - self.0) as u8].into()
    }
}

impl Letters {
    pub fn of(text: &str) -> Letters {
        Letters(text.len() as u64 / 2 % 3)
    }

    /// The number of a letter is the letter plus this.
    pub fn shift(&self) -> u64 {
        self.0
    }
}

pub fn body(text: &str) -> Body {
    match text.len() % 2 {
        0 => Body::Text(Bytes::from(text.to_string())),
        _ => Body::Points(points(text)),
    }
}

fn points(text: &str) -> Points {
    let mut points = Points::default();
    for (place, piece) in text.as_bytes().chunks(PIECE).enumerate() {
        let begin = (place * PIECE) as u64;
        let words = piece[1..].chunks(8).map(|eight| {
            let mut word = [0; 8];
            word[..eight.len()].copy_from_slice(eight);
            u64::from_le_bytes(word)
        });
        let number = u64::from(piece[0]) + Letters::of(text).shift();
        points.push(number, begin, begin + piece.len() as u64, words);
    }
    points
}

/// Turns posts back into texts, in order.
#[derive(Default)]
pub struct Reading(HashMap<u64, Bytes>);

impl Reading {
    /// Checks that points are exactly those that were written.
    pub fn text(&mut self, read: &Replayed) -> String {
        self.0.extend(read.named.iter().cloned());
        let text = match &read.post.body {
            Body::Text(text) => text.to_vec(),
            Body::Points(points) => points.each().flat_map(|point| self.piece(point)).collect(),
        };
        let text = String::from_utf8(text).unwrap();
        if matches!(read.post.body, Body::Points(_)) {
            assert_eq!(read.post.body, body(&text));
        }
        text
    }

    fn piece(&self, point: &[u64]) -> Vec<u8> {
        let words = point[3..].iter().flat_map(|word| word.to_le_bytes());
        let letters = self.0[&point[0]].iter().copied().chain(words);
        letters.take((point[2] - point[1]) as usize).collect()
    }
}
