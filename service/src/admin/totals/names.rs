//! Names by OpenTelemetry's rules for Prometheus: `http.server.duration` in `s` becomes `http_server_duration_seconds`.

use crate::sink::sql::totals::Kind;

const UNITS: [(&str, &str); 27] = [
    ("d", "days"),
    ("h", "hours"),
    ("min", "minutes"),
    ("s", "seconds"),
    ("ms", "milliseconds"),
    ("us", "microseconds"),
    ("ns", "nanoseconds"),
    ("By", "bytes"),
    ("KiBy", "kibibytes"),
    ("MiBy", "mebibytes"),
    ("GiBy", "gibibytes"),
    ("TiBy", "tibibytes"),
    ("KBy", "kilobytes"),
    ("kBy", "kilobytes"),
    ("MBy", "megabytes"),
    ("GBy", "gigabytes"),
    ("TBy", "terabytes"),
    ("m", "meters"),
    ("V", "volts"),
    ("A", "amperes"),
    ("J", "joules"),
    ("W", "watts"),
    ("g", "grams"),
    ("Cel", "celsius"),
    ("Hz", "hertz"),
    ("%", "percent"),
    ("1", ""),
];

/// Units after a `/`.
const PER: [(&str, &str); 7] = [
    ("s", "second"),
    ("m", "minute"),
    ("h", "hour"),
    ("d", "day"),
    ("w", "week"),
    ("mo", "month"),
    ("y", "year"),
];

/// The metric's name with its unit, and with `_total` for a counter or `_ratio` for a gauge of unit `1`.
pub fn metric(name: &str, unit: &str, kind: Kind) -> String {
    let mut words = words(name);
    let plain = without_braces(unit);
    let (unit, per) = plain.split_once('/').unwrap_or((&plain, ""));
    let (unit, per) = (mapped(unit, &UNITS), mapped(per, &PER));
    if !unit.is_empty() && !has(&words, &unit) {
        words.push(unit);
    }
    if !per.is_empty() && !has(&words, &per) {
        words.push(format!("per_{per}"));
    }
    let last = match kind {
        Kind::Monotonic => Some("total"),
        Kind::Sum if plain == "1" => Some("ratio"),
        Kind::Sum | Kind::Histogram => None,
    };
    if let Some(last) = last {
        words.retain(|word| word != last);
        words.push(last.into());
    }
    begun(words.join("_"), "_")
}

/// Makes a name valid: it may not be empty or begin with a digit.
fn begun(name: String, before_digit: &str) -> String {
    match name.bytes().next() {
        None => "_".into(),
        Some(b'0'..=b'9') => format!("{before_digit}{name}"),
        Some(_) => name,
    }
}

/// The label for an attribute's key. Repeated underscores become one, since names with two at the beginning are
/// reserved.
pub fn label(key: &str) -> String {
    let mut name = String::new();
    for sign in key.chars() {
        let sign = if sign.is_ascii_alphanumeric() { sign } else { '_' };
        if sign != '_' || !name.ends_with('_') {
            name.push(sign);
        }
    }
    begun(name, "key_")
}

fn words(text: &str) -> Vec<String> {
    text.split(|sign: char| !sign.is_ascii_alphanumeric())
        .filter(|word| !word.is_empty())
        .map(String::from)
        .collect()
}

/// Leaves out annotations in braces: they say what is counted, and are no unit.
fn without_braces(unit: &str) -> String {
    let mut plain = String::new();
    let mut depth = 0;
    for sign in unit.chars() {
        match sign {
            '{' => depth += 1,
            '}' => depth = 0,
            _ if depth == 0 => plain.push(sign),
            _ => {}
        }
    }
    plain.trim().to_string()
}

fn mapped(unit: &str, known: &[(&str, &str)]) -> String {
    let unit = unit.trim();
    match known.iter().find(|(short, _)| *short == unit) {
        Some((_, long)) => long.to_string(),
        None => words(unit).join("_"),
    }
}

/// Whether the name has the unit already.
fn has(words: &[String], unit: &str) -> bool {
    format!("_{}_", words.join("_")).contains(&format!("_{unit}_"))
}
