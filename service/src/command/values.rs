//! Values of options as people write them, such as times and sizes; and numbers as people read them.

use crate::otlp::NO_NAME;
use std::fmt::Display;
use std::path::{Path, PathBuf};
use std::time::Duration;

const TIMES: [(&str, u64); 5] = [("ms", 1), ("s", 1000), ("m", 60_000), ("h", 3_600_000), ("d", 86_400_000)];
const SIZES: [(&str, u64); 8] = [
    ("", 1),
    ("B", 1),
    ("k", 1 << 10),
    ("M", 1 << 20),
    ("G", 1 << 30),
    ("KiB", 1 << 10),
    ("MiB", 1 << 20),
    ("GiB", 1 << 30),
];

/// A time over zero: a whole number with its unit, such as `10s`, `500ms` or `7d`.
pub fn time(text: &str) -> Result<Duration, String> {
    let milliseconds = scaled(text, &TIMES).filter(|milliseconds| *milliseconds > 0);
    milliseconds
        .map(Duration::from_millis)
        .ok_or_else(|| "write a whole number and ms, s, m, h or d: 10s".to_string())
}

/// A time, or none, for which options have a word.
#[derive(Clone, Copy, Debug, PartialEq, Eq)]
pub struct MayBeNone(pub Option<Duration>);

pub fn time_or(word: &'static str) -> impl Fn(&str) -> Result<MayBeNone, String> + Clone {
    move |text| match text == word {
        true => Ok(MayBeNone(None)),
        false => time(text).map(Some).map(MayBeNone).map_err(|error| format!("{error}, or {word}")),
    }
}

/// A number of bytes, such as `256MiB`, `1G` or `1048576`.
fn size(text: &str) -> Result<u64, String> {
    scaled(text, &SIZES)
        .ok_or_else(|| "write a whole number, and KiB, MiB or GiB behind it or nothing: 256MiB".to_string())
}

/// A size of at least `least` bytes; `why` says why not less.
pub fn size_from(least: u64, why: &'static str) -> impl Fn(&str) -> Result<u64, String> + Clone {
    move |text| size(text).and_then(|bytes| if bytes >= least { Ok(bytes) } else { Err(why.into()) })
}

/// A host and its port, such as `127.0.0.1:4318`. Whether there is such a host is not checked.
pub fn place(text: &str) -> Result<String, String> {
    match text.rsplit_once(':') {
        Some((host, port)) if !host.is_empty() && port.parse::<u16>().is_ok() => Ok(text.to_string()),
        _ => Err("write HOST:PORT, as 127.0.0.1:4318".to_string()),
    }
}

/// An address, or none.
#[derive(Clone, Debug, PartialEq, Eq)]
pub struct MayBePlace(pub Option<String>);

pub fn place_or_off(text: &str) -> Result<MayBePlace, String> {
    match text {
        "off" => Ok(MayBePlace(None)),
        text => place(text).map(Some).map(MayBePlace).map_err(|error| format!("{error}, or off")),
    }
}

/// The beginning of a socket's address.
pub const SOCKET: &str = "unix:";

/// An admin address: `127.0.0.1:4319` or `unix:PATH`.
pub fn operator(text: &str) -> Result<String, String> {
    match text.strip_prefix(SOCKET) {
        Some("") => Err("write unix:PATH, as unix:/run/totxegun/admin.sock".to_string()),
        Some(_) => Ok(text.to_string()),
        None => place(text).map_err(|why| format!("{why}, or unix:PATH")),
    }
}

/// The name of the socket in the folder, unless it is elsewhere.
pub const SOCKET_NAME: &str = "admin.sock";

/// The socket for orders, by the addresses and the folder of the service.
pub fn orders_at<'a>(mut operate: impl Iterator<Item = &'a str>, data: &Path) -> PathBuf {
    let given = operate.find_map(|one| one.strip_prefix(SOCKET));
    given.map_or_else(|| data.join(SOCKET_NAME), PathBuf::from)
}

fn scaled(text: &str, units: &[(&str, u64)]) -> Option<u64> {
    let digits = text.find(|letter: char| !letter.is_ascii_digit()).unwrap_or(text.len());
    let (number, unit) = text.split_at(digits);
    let (_, scale) = units.iter().find(|(name, _)| name.eq_ignore_ascii_case(unit))?;
    number.parse::<u64>().ok()?.checked_mul(*scale)
}

/// A whole number in groups of three digits.
pub fn grouped(number: impl Display) -> String {
    let text = number.to_string();
    let (sign, digits) = match text.strip_prefix('-') {
        Some(digits) => ("-", digits),
        None => ("", &text[..]),
    };
    let mut grouped = sign.to_string();
    for (place, digit) in digits.chars().enumerate() {
        if place > 0 && (digits.len() - place) % 3 == 0 {
            grouped.push(',');
        }
        grouped.push(digit);
    }
    grouped
}

/// `1 request`, `2 requests`.
pub fn counted(number: u64, what: &str) -> String {
    match number {
        1 => format!("1 {what}"),
        _ => format!("{number} {what}s"),
    }
}

/// Senders by name, with how many there are. Without the number, `-` could be read as nobody.
pub fn senders_shown(names: &[String]) -> String {
    match names {
        [] => "none".to_string(),
        names => {
            let all: Vec<String> = names.iter().map(|name| sender_shown(name)).collect();
            format!("{}: {}", counted(names.len() as u64, "sender"), all.join(", "))
        }
    }
}

pub fn sender_shown(name: &str) -> String {
    match name {
        NO_NAME => "- (who names none)".to_string(),
        name => name.to_string(),
    }
}

/// Bytes as people read them.
pub fn bytes_shown(bytes: u64) -> String {
    let shown = bytes as f64;
    match bytes {
        0..=1023 => format!("{bytes} B"),
        1024..=1_048_575 => format!("{:.1} KiB", shown / 1024.0),
        1_048_576..=1_073_741_823 => format!("{:.1} MiB", shown / 1_048_576.0),
        _ => format!("{:.1} GiB", shown / 1_073_741_824.0),
    }
}

/// Seconds as people read them, in two units at most.
pub fn seconds_shown(seconds: u64) -> String {
    match seconds {
        0..=59 => format!("{seconds} s"),
        60..=3599 => format!("{} min {} s", seconds / 60, seconds % 60),
        3600..=86_399 => format!("{} h {} min", seconds / 3600, seconds / 60 % 60),
        _ => format!("{} d {} h", seconds / 86_400, seconds / 3600 % 24),
    }
}

#[cfg(test)]
mod tests {
    use super::*;

    #[test]
    fn times_are_read() {
        assert_eq!(time("10s"), Ok(Duration::from_secs(10)));
        assert_eq!(time("250ms"), Ok(Duration::from_millis(250)));
        assert_eq!(time_or("never")("7d"), Ok(MayBeNone(Some(Duration::from_secs(7 * 86_400)))));
        assert_eq!(time_or("never")("never"), Ok(MayBeNone(None)));
        for text in
            ["", "10", "s", "0s", "-1s", "1.5s", "1 s", "99999999999999999999s", "18446744073709551615d"]
        {
            assert!(time(text).is_err(), "{text}");
        }
    }

    #[test]
    fn sizes_are_read() {
        assert_eq!(size("256MiB"), Ok(256 << 20));
        assert_eq!(size("1g"), Ok(1 << 30));
        assert_eq!(size("100"), Ok(100));
        for text in ["", "MiB", "1.5M", "1T", "-1", "18446744073709551615G"] {
            assert!(size(text).is_err(), "{text}");
        }
    }

    #[test]
    fn places_are_read() {
        for text in ["127.0.0.1:4318", "[::1]:0", "localhost:65535"] {
            assert_eq!(place(text), Ok(text.to_string()));
        }
        for text in ["", "nowhere", ":4318", "h:", "h:65536", "h:x", "[::1]"] {
            assert!(place(text).is_err(), "{text}");
        }
    }

    #[test]
    fn an_address_may_be_off() {
        assert_eq!(place_or_off("off"), Ok(MayBePlace(None)));
        assert_eq!(place_or_off("h:1"), Ok(MayBePlace(Some("h:1".to_string()))));
        assert_eq!(place_or_off("of"), Err("write HOST:PORT, as 127.0.0.1:4318, or off".to_string()));
    }

    #[test]
    fn who_names_none_is_not_nobody() {
        let shown =
            |names: &[&str]| senders_shown(&names.iter().map(ToString::to_string).collect::<Vec<_>>());
        assert_eq!(shown(&[]), "none");
        assert_eq!(shown(&["-"]), "1 sender: - (who names none)");
        assert_eq!(shown(&["none"]), "1 sender: none");
        assert_eq!(shown(&["-", "shop-1"]), "2 senders: - (who names none), shop-1");
    }

    #[test]
    fn numbers_are_in_groups() {
        let numbers = ["0", "999", "1000", "-1234567", "18446744073709551616"].map(grouped);
        assert_eq!(numbers, ["0", "999", "1,000", "-1,234,567", "18,446,744,073,709,551,616"]);
    }

    #[test]
    fn figures_are_shown() {
        assert_eq!(
            [bytes_shown(17), bytes_shown(1536), bytes_shown(5 << 20)],
            ["17 B", "1.5 KiB", "5.0 MiB"]
        );
        assert_eq!(
            [seconds_shown(59), seconds_shown(61), seconds_shown(90_000)],
            ["59 s", "1 min 1 s", "1 d 1 h"]
        );
    }
}
