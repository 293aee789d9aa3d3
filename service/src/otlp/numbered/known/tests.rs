//! Bytes are found by their numbers.

use super::*;
use std::collections::HashMap;

/// Also where all hashes are one, and where the empty one comes first, or later.
#[test]
fn what_was_put_is_found() {
    for hashes in [1, 7, 1 << 20] {
        for first in [0, 1, 50] {
            let (mut all, mut put) = (KnownBytes::default(), HashMap::new());
            for number in first..first + 90 {
                let (part, shared) = (number % 5 * 7, "x".repeat(40));
                let bytes = format!("{}{number}{}", &shared[..part], &shared[part * (number % 2)..]);
                let bytes = if number == 50 { Vec::new() } else { bytes.into_bytes() };
                let hash = |bytes: &[u8]| ((bytes.len() * 977 + number * 31) as u64 % hashes) << 12;
                assert_eq!(all.find(hash(&bytes), &bytes), None);
                all.put(hash(&bytes), &bytes, number as u32);
                put.insert(bytes.clone(), (hash(&bytes), number as u32));
                for (bytes, (hash, number)) in &put {
                    assert_eq!(all.find(*hash, bytes), Some(*number));
                    assert_eq!(all.find(*hash, &[bytes, &b"x"[..]].concat()), None);
                }
            }
        }
    }
}

#[test]
fn what_they_have_in_common_is_kept_once() {
    let mut all = KnownBytes::default();
    let shared = "x".repeat(100);
    (0..1000).for_each(|number| all.put(number, format!("{shared}{number:03}{shared}").as_bytes(), 5));
    assert!(all.own.len() < 4000, "{}", all.own.len());
}
