//! The file of `--tokens`: the digest of each token, its owner, the names of others that an owner may use, and quotas.
//!
//! The lines, besides empty ones and those that begin with `#`:
//!
//! - `NAME sha256:HEX`: the digest of a token, so that nobody can post with what the file has.
//! - `NAME/PATTERN sha256:HEX`: the owner may also post as the senders of the pattern: a name, or its beginning and
//!   `*`.
//! - `NAME/PATTERN certificate`: the same for a sender with a certificate.
//! - After either, `series=N` and `points=N` are the quotas of NAME: series, and points a second.
//! - `NAME - series=N`: a quota alone.

use crate::otlp::NO_NAME;
use crate::quota::{Quota, MOST_POINTS};
use crate::shard::is_sender;
use sha2::{Digest, Sha256};
use std::collections::hash_map::Entry;
use std::collections::HashMap;
use std::hash::{Hash, Hasher};
use std::sync::Arc;
use subtle::ConstantTimeEq;

const DIGEST: &str = "sha256:";
const CERTIFICATE: &str = "certificate";
const NO_PROOF: &str = "-";

/// A sender and the names it may use.
#[derive(Debug, PartialEq, Eq)]
pub struct Sender {
    pub name: String,
    /// The other names that it may use; one that ends with `*` stands for all that begin like this.
    pub others: Vec<String>,
}

impl Sender {
    /// Whether it may post under this name.
    pub fn may_be(&self, name: &str) -> bool {
        let fits = |other: &String| match other.strip_suffix('*') {
            Some(begin) => name.starts_with(begin),
            None => name == other,
        };
        name == self.name || self.others.iter().any(fits)
    }
}

/// The SHA-256 of a token. Comparing two takes constant time.
struct TokenDigest([u8; 32]);

impl PartialEq for TokenDigest {
    fn eq(&self, other: &TokenDigest) -> bool {
        self.0.ct_eq(&other.0).into()
    }
}

impl Eq for TokenDigest {}

impl Hash for TokenDigest {
    fn hash<H: Hasher>(&self, state: &mut H) {
        self.0.hash(state);
    }
}

/// The contents of the file.
#[derive(Default)]
pub struct Tokens {
    owners: HashMap<TokenDigest, Arc<Sender>>,
    /// Senders with certificates that may use others' names, by name.
    certified: HashMap<String, Arc<Sender>>,
    /// The quotas, by name.
    quotas: HashMap<String, Quota>,
}

/// The contents of a line.
struct Line {
    sender: Sender,
    proof: Proof,
    quota: Quota,
}

/// How the sender of a line proves who it is.
enum Proof {
    Token([u8; 32]),
    Certificate,
    /// Another line has the proof.
    None,
}

impl Tokens {
    /// Parses the file. An error has the number of the line, and nothing of its contents.
    pub fn read(contents: &[u8]) -> Result<Tokens, String> {
        let text = std::str::from_utf8(contents).map_err(|_| "it is not UTF-8 text".to_string())?;
        let mut tokens = Tokens::default();
        let lines = text.lines().enumerate();
        for (number, line) in lines.filter(|(_, line)| !line.trim().is_empty() && !line.starts_with('#')) {
            let in_line = |why: &str| format!("line {}: {why}", number + 1);
            let line = read_line(line).map_err(in_line)?;
            tokens.add(line).map_err(in_line)?;
        }
        Ok(tokens)
    }

    fn add(&mut self, line: Line) -> Result<(), &'static str> {
        let Line { sender, proof, quota } = line;
        let name = sender.name.clone();
        if quota != Quota::default() && self.quotas.insert(name.clone(), quota).is_some() {
            return Err("an earlier line has series= or points= for this name");
        }
        match proof {
            Proof::Token(digest) => match self.owners.entry(TokenDigest(digest)) {
                Entry::Occupied(_) => return Err("an earlier line has this token"),
                Entry::Vacant(place) => drop(place.insert(sender.into())),
            },
            Proof::Certificate if sender.others.is_empty() => {}
            Proof::Certificate if self.certified.contains_key(&name) => {
                return Err("an earlier line has a certificate of this name")
            }
            Proof::Certificate => drop(self.certified.insert(name, sender.into())),
            Proof::None => {}
        }
        Ok(())
    }

    /// The quota of a sender, if a line has one.
    pub fn quota(&self, name: &str) -> Option<Quota> {
        self.quotas.get(name).copied()
    }

    /// Checks a file of operators, which has only names and tokens.
    pub fn of_operators(self) -> Result<Tokens, String> {
        let is_of_senders = |owner: &Arc<Sender>| !owner.others.is_empty();
        let has_names_alone = self.certified.is_empty() && self.quotas.is_empty();
        match has_names_alone && !self.owners.values().any(is_of_senders) {
            true => Ok(self),
            false => {
                Err("it has a line that only senders may have: write `NAME sha256:HEX`, as `totxegun token NAME` prints it"
                    .into())
            }
        }
    }

    /// If no line has a token: that nobody is let in, and what to do.
    pub fn shut(&self) -> Option<&'static str> {
        let is_empty = self.owners.is_empty() && self.certified.is_empty();
        is_empty.then_some(
            "it has no token, so nobody can use one: add the line that `totxegun token NAME` prints",
        )
    }

    /// The same if certificates let senders in: then the file may have quotas alone.
    pub fn shut_beside_certificates(&self) -> Option<&'static str> {
        self.shut().filter(|_| self.quotas.is_empty())
    }

    /// The owner of a token.
    pub fn owner(&self, token: &[u8]) -> Option<Arc<Sender>> {
        self.owners.get(&TokenDigest(Sha256::digest(token).into())).cloned()
    }

    /// The sender with this name in its certificate, if it may use others' names.
    pub fn certified(&self, name: &str) -> Option<Arc<Sender>> {
        self.certified.get(name).cloned()
    }
}

fn read_line(line: &str) -> Result<Line, &'static str> {
    let mut words = line.split_whitespace();
    let (Some(who), Some(proof)) = (words.next(), words.next()) else {
        return Err("write `NAME sha256:HEX`, as `totxegun token NAME` prints it");
    };
    let quota = read_share(words)?;
    let (name, other) = match who.split_once('/') {
        Some((name, other)) => (name, Some(other)),
        None => (who, None),
    };
    if !is_sender(name) || name == NO_NAME {
        return Err("a sender's name is 1 to 64 characters of A-Z a-z 0-9 . _ -, and not only -");
    }
    if other.is_some_and(|other| other != "*" && !is_sender(other.strip_suffix('*').unwrap_or(other))) {
        return Err("after the / write a sender's name, the beginning of one and *, or only *");
    }
    let says_more = other.is_some() || quota != Quota::default();
    let proof = match proof {
        CERTIFICATE | NO_PROOF if !says_more => {
            return Err("a line without a token needs NAME/PATTERN, series= or points=")
        }
        CERTIFICATE => Proof::Certificate,
        NO_PROOF if other.is_some() => {
            return Err("after NAME/PATTERN write a token's digest, or `certificate`")
        }
        NO_PROOF => Proof::None,
        _ => Proof::Token(
            digest(proof)
                .ok_or("after the name write sha256: and 64 hexadecimal digits, never the token itself")?,
        ),
    };
    let (name, others) = (name.to_string(), other.map(str::to_string).into_iter().collect());
    let sender = Sender { name, others };
    Ok(Line { sender, proof, quota })
}

fn read_share<'l>(words: impl Iterator<Item = &'l str>) -> Result<Quota, &'static str> {
    let mut quota = Quota::default();
    for word in words {
        let (what, number) = word.split_once('=').unwrap_or((word, ""));
        let number = number.parse().ok().filter(|number| (1..=MOST_POINTS).contains(number));
        let of = match what {
            "series" => &mut quota.series,
            "points" => &mut quota.points,
            _ => return Err("after the digest write series=N, points=N, or nothing"),
        };
        if number.is_none() || of.is_some() {
            return Err("write series=N and points=N at most once each, with N from 1 to 1000000000000");
        }
        *of = number;
    }
    Ok(quota)
}

fn digest(proof: &str) -> Option<[u8; 32]> {
    let digits = proof.strip_prefix(DIGEST)?;
    let (pairs, []) = digits.as_bytes().as_chunks() else { return None };
    let value = |digit: u8| char::from(digit).to_digit(16);
    let byte = |[high, low]: &[u8; 2]| Some((value(*high)? << 4 | value(*low)?) as u8);
    pairs.iter().map(byte).collect::<Option<Vec<u8>>>()?.try_into().ok()
}

/// The line of a token for the file.
pub fn line(name: &str, token: &str) -> String {
    format!("{name} {DIGEST}{:x}", Sha256::digest(token))
}

#[cfg(test)]
mod tests {
    use super::*;

    /// From `printf abc | sha256sum`.
    const OF_ABC: &str = "sha256:ba7816bf8f01cfea414140de5dae2223b00361a396177a9cb410ff61f20015ad";

    fn refused(text: &str) -> String {
        Tokens::read(text.as_bytes()).err().unwrap_or_default()
    }

    #[test]
    fn a_token_is_its_owner_s() {
        let text = format!("# shops\n\nshop-1 {OF_ABC}\r\n{}\n", line("shop-1", "second"));
        let tokens = Tokens::read(text.as_bytes()).unwrap();
        assert_eq!(line("shop-1", "abc"), format!("shop-1 {OF_ABC}"));
        for token in ["abc", "second"] {
            assert_eq!(tokens.owner(token.as_bytes()).unwrap().name, "shop-1");
        }
        for token in ["", "ab", "abcd", "ABC", OF_ABC, "shop-1"] {
            assert_eq!(tokens.owner(token.as_bytes()), None, "{token}");
        }
    }

    #[test]
    fn names_of_others_are_by_pattern() {
        let text = format!("a/b-* {OF_ABC}\nc/* certificate\nd/e certificate\n");
        let tokens = Tokens::read(text.as_bytes()).unwrap();
        let of = |sender: Arc<Sender>, names: [&str; 5]| names.map(|name| sender.may_be(name));
        let names = ["a", "b-", "b-1", "b", "e"];
        assert_eq!(of(tokens.owner(b"abc").unwrap(), names), [true, true, true, false, false]);
        assert_eq!(of(tokens.certified("c").unwrap(), names), [true; 5]);
        assert_eq!(of(tokens.certified("d").unwrap(), names), [false, false, false, false, true]);
        assert!(tokens.certified("a").is_none());
    }

    #[test]
    fn a_faulty_line_is_named_and_not_shown() {
        let twice = format!("a {OF_ABC}\nb {}", OF_ABC.to_uppercase().replace("SHA", "sha"));
        for (text, why) in [
            ("\na s3cret", "line 2: after the name write sha256:"),
            ("a sha256:s3cret", "line 1: after the name"),
            (&format!("a {}", &OF_ABC[..OF_ABC.len() - 1]), "line 1: after the name"),
            ("s3cret", "line 1: write `NAME sha256:HEX`"),
            (&format!("a {OF_ABC} s3cret"), "line 1: after the digest write series=N"),
            (&format!("a {OF_ABC} series=s3cret"), "line 1: write series=N and points=N at most once each"),
            (&format!("a {OF_ABC} points=0"), "line 1: write series=N"),
            (&format!("a {OF_ABC} points=1 points=2"), "line 1: write series=N"),
            (&format!("a {OF_ABC} series=1\na - points=1"), "line 2: an earlier line has series="),
            ("a -", "line 1: a line without a token needs"),
            ("a/* - series=1", "line 1: after NAME/PATTERN"),
            (&format!("s3cret+ {OF_ABC}"), "line 1: a sender's name"),
            (&format!("- {OF_ABC}"), "line 1: a sender's name"),
            (&format!("a/s3cret+* {OF_ABC}"), "line 1: after the /"),
            (&format!("a/ {OF_ABC}"), "line 1: after the /"),
            ("a certificate", "line 1: a line without a token needs"),
            ("a/* certificate\na/b certificate", "line 2: an earlier line has a certificate of this name"),
            (&twice, "line 2: an earlier line has this token"),
        ] {
            let found = refused(text);
            assert!(found.contains(why) && !found.contains("s3cret"), "{text}: {found}");
        }
        assert!(Tokens::read(b"\xff").is_err());
    }

    #[test]
    fn a_line_may_say_how_much_its_name_may_have() {
        let text = format!(
            "a {OF_ABC} points=50 series=1000\nb certificate series=7\nc - points=9\nd/* certificate\n"
        );
        let tokens = Tokens::read(text.as_bytes()).unwrap();
        let quota = |series, points| Some(Quota { series, points });
        assert_eq!(tokens.quota("a"), quota(Some(1000), Some(50)));
        assert_eq!(tokens.quota("b"), quota(Some(7), None));
        assert_eq!(tokens.quota("c"), quota(None, Some(9)));
        assert_eq!(tokens.quota("d"), None);
        assert!(tokens.certified("b").is_none() && tokens.certified("d").is_some());
        assert!(tokens.of_operators().is_err());
    }

    #[test]
    fn an_operator_has_a_name_alone() {
        let of = |text: String| Tokens::read(text.as_bytes()).unwrap().of_operators();
        assert!(of(format!("ann {OF_ABC}")).is_ok_and(|tokens| tokens.owner(b"abc").is_some()));
        for text in [format!("ann/bob {OF_ABC}"), "ann/* certificate".to_string()] {
            assert!(of(text).is_err_and(|why| why.contains("only senders may have")));
        }
    }

    /// Otherwise each post would take as long as comparing it with all tokens.
    #[test]
    fn a_token_is_found_among_many_at_once() {
        let others: String =
            (0..20_000).map(|number| format!("shop-{number} sha256:{number:064x}\n")).collect();
        let tokens = Tokens::read(format!("{others}last {OF_ABC}\n").as_bytes()).unwrap();
        let begun = std::time::Instant::now();
        for _ in 0..500 {
            assert_eq!(tokens.owner(b"abc").unwrap().name, "last");
            assert_eq!(tokens.owner(b"none"), None);
        }
        assert!(begun.elapsed() < std::time::Duration::from_secs(1), "{:?}", begun.elapsed());
    }

    #[test]
    fn a_file_without_a_line_lets_nobody_in() {
        for text in ["", "\n", "# none\n"] {
            let tokens = Tokens::read(text.as_bytes()).unwrap();
            assert!(tokens.shut().is_some_and(|why| why.contains("no token")), "{text}");
            assert_eq!(tokens.owner(b""), None);
        }
        for text in [format!("a {OF_ABC}"), "a/* certificate".to_string()] {
            assert_eq!(Tokens::read(text.as_bytes()).unwrap().shut(), None, "{text}");
        }
    }

    /// A sender with a certificate needs no token in the file.
    #[test]
    fn a_file_of_shares_alone_is_one_beside_certificates() {
        for text in ["a certificate series=7", "a - points=9"] {
            let tokens = Tokens::read(text.as_bytes()).unwrap();
            assert_eq!((tokens.shut().is_some(), tokens.shut_beside_certificates()), (true, None), "{text}");
        }
        assert!(Tokens::default().shut_beside_certificates().is_some());
    }
}
