//! Parses the name and the expiry of an X.509 certificate (RFC 5280). Whether it is trusted is not checked here, see
//! `senders`.

use super::der::{Der, GENERALIZED_TIME, INTEGER, OBJECT, OCTETS, SEQUENCE, SET, UTC_TIME};
use crate::log::days;

/// The tags of the numbered parts of a certificate.
const VERSION: u8 = 0xa0;
const EXTENSIONS: u8 = 0xa3;
/// The object identifier of `subjectAltName`, 2.5.29.17, and the kinds of names that are read.
const ALTERNATIVE_NAMES: &[u8] = &[0x55, 0x1d, 0x11];
const DNS: u8 = 0x82;
const URI: u8 = 0x86;
/// The object identifier of `commonName`, 2.5.4.3.
const COMMON_NAME: &[u8] = &[0x55, 0x04, 0x03];

/// The parts of a certificate that are used.
#[derive(Debug, PartialEq, Eq)]
pub struct Certificate {
    /// The first DNS name or URI of `subjectAltName`, otherwise the last CN of the subject; none if it has neither.
    pub name: Option<String>,
    /// When it expires, in seconds since 1970.
    pub ends: i64,
}

impl Certificate {
    /// Parses a certificate in DER; none if the bytes are none.
    pub fn read(bytes: &[u8]) -> Option<Certificate> {
        let mut body = Der(bytes).expect(SEQUENCE)?.expect(SEQUENCE)?;
        if body.0.first() == Some(&VERSION) {
            body.next();
        }
        body.expect(INTEGER)?;
        body.expect(SEQUENCE)?; // the signature algorithm
        body.expect(SEQUENCE)?; // the issuer
        let mut times = body.expect(SEQUENCE)?;
        times.next()?;
        let ends = seconds(times.next()?)?;
        let subject = body.expect(SEQUENCE)?;
        body.expect(SEQUENCE)?; // the public key
        let mut rest = body;
        let extensions = rest.find(|part| part.0 == EXTENSIONS).map(|part| Der(part.1));
        let name = extensions.and_then(alternative_name).or_else(|| common_name(subject));
        Some(Certificate { name, ends })
    }
}

fn alternative_name(mut extensions: Der) -> Option<String> {
    let mut all = extensions.expect(SEQUENCE)?;
    let names = all.find_map(|(_, extension)| {
        let mut parts = Der(extension);
        let is_of_names = parts.expect(OBJECT)?.0 == ALTERNATIVE_NAMES;
        is_of_names.then(|| parts.find(|part| part.0 == OCTETS))?
    })?;
    let mut names = Der(names.1).expect(SEQUENCE)?;
    text(names.find(|name| [DNS, URI].contains(&name.0))?.1)
}

fn common_name(subject: Der) -> Option<String> {
    let sets = subject.filter(|part| part.0 == SET).flat_map(|set| Der(set.1));
    let names = sets.filter_map(|(_, pair)| {
        let mut pair = Der(pair);
        let is_common = pair.expect(OBJECT)?.0 == COMMON_NAME;
        is_common.then(|| pair.next())?
    });
    text(names.last()?.1)
}

fn text(bytes: &[u8]) -> Option<String> {
    String::from_utf8(bytes.to_vec()).ok().filter(|text| !text.is_empty())
}

/// Parses `YYMMDDhhmmssZ`, for the years 1950 to 2049, or `YYYYMMDDhhmmssZ`.
fn seconds((tag, digits): (u8, &[u8])) -> Option<i64> {
    let digits = std::str::from_utf8(digits).ok()?.strip_suffix('Z')?;
    let (year, rest) = match tag {
        UTC_TIME => {
            let (year, rest) = digits.split_at_checked(2)?;
            let year: i64 = year.parse().ok()?;
            (if year < 50 { 2000 + year } else { 1900 + year }, rest)
        }
        GENERALIZED_TIME => {
            let (year, rest) = digits.split_at_checked(4)?;
            (year.parse().ok()?, rest)
        }
        _ => return None,
    };
    let two = |place: usize| rest.get(place..place + 2)?.parse::<i64>().ok();
    let time = (two(4)? * 60 + two(6)?) * 60 + two(8)?;
    (rest.len() == 10).then_some((days(year, two(0)?) + two(2)? - 1) * 86_400 + time)
}

#[cfg(test)]
mod tests {
    use super::super::tests::{certificate, folder, Made};
    use super::*;

    /// The name of a certificate made with these arguments of `openssl req`.
    fn name(subject: &str, names: Option<&str>) -> Option<String> {
        let at = folder();
        let made = certificate(at.path(), Made { name: "a", subject, names, ..Made::default() });
        Certificate::read(&made).unwrap().name
    }

    #[test]
    fn a_name_is_the_first_of_dns_and_uri_or_else_the_cn() {
        let named = |text: &str| Some(text.to_string());
        assert_eq!(name("/CN=one", None), named("one"));
        assert_eq!(name("/O=x,CN=other/CN=one/CN=two", None), named("two"));
        assert_eq!(name("/CN=one", Some("DNS:a.b,DNS:c")), named("a.b"));
        assert_eq!(name("/CN=one", Some("IP:127.0.0.1,URI:spiffe://d/shop,DNS:c")), named("spiffe://d/shop"));
        assert_eq!(name("/CN=one", Some("IP:127.0.0.1,email:a@b")), named("one"));
        assert_eq!(name("/O=x", None), None);
    }

    /// The seconds are those of `date -u -d ... +%s`.
    #[test]
    fn times_are_read() {
        for (tag, digits, wanted) in [
            (UTC_TIME, "700101000000Z", Some(0)),
            (UTC_TIME, "260228235959Z", Some(1_772_323_199)),
            (UTC_TIME, "491231235959Z", Some(2_524_607_999)),
            (UTC_TIME, "500101000000Z", Some(-631_152_000)),
            (GENERALIZED_TIME, "20240229120000Z", Some(1_709_208_000)),
            (GENERALIZED_TIME, "21000301000000Z", Some(4_107_542_400)),
            (GENERALIZED_TIME, "99991231235959Z", Some(253_402_300_799)),
            (UTC_TIME, "7001010000Z", None),
            (UTC_TIME, "700101000000", None),
            (UTC_TIME, "70\u{e9}101000000Z", None),
            (INTEGER, "700101000000Z", None),
        ] {
            assert_eq!(seconds((tag, digits.as_bytes())), wanted, "{digits}");
        }
    }

    /// The bytes come from outside and are parsed after they were trusted: even so, none may make the thread panic.
    #[test]
    fn what_is_cut_or_changed_is_read_without_a_panic() {
        let at = folder();
        let whole = certificate(at.path(), Made { names: Some("DNS:a"), ..Made::default() });
        for end in 0..whole.len() {
            assert_eq!(Certificate::read(&whole[..end]), None);
        }
        for place in 0..whole.len() {
            for other in [0, 0x7f, 0x80, 0x84, 0xff] {
                let mut changed = whole.clone();
                changed[place] = other;
                let _ = Certificate::read(&changed);
            }
        }
    }
}
