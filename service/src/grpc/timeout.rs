//! How long a call may take: its `grpc-timeout`, but no longer than a post over HTTP.

use hyper::header::HeaderMap;
use std::time::Duration;

/// A body may take this long to arrive; what the shard then needs is short in comparison.
const LONGEST: Duration = Duration::from_secs(60);

/// The timeout of a call. A header that can't be parsed is ignored.
pub fn of(headers: &HeaderMap) -> Duration {
    let text = headers.get("grpc-timeout").and_then(|value| value.to_str().ok());
    text.and_then(read).unwrap_or(LONGEST).min(LONGEST)
}

/// One to eight digits and a unit.
fn read(text: &str) -> Option<Duration> {
    let unit = text.chars().last()?;
    let digits = &text[..text.len() - unit.len_utf8()];
    if digits.is_empty() || digits.len() > 8 || !digits.bytes().all(|byte| byte.is_ascii_digit()) {
        return None;
    }
    let number: u64 = digits.parse().ok()?;
    Some(match unit {
        'H' => Duration::from_secs(3600 * number),
        'M' => Duration::from_secs(60 * number),
        'S' => Duration::from_secs(number),
        'm' => Duration::from_millis(number),
        'u' => Duration::from_micros(number),
        'n' => Duration::from_nanos(number),
        _ => return None,
    })
}

#[cfg(test)]
mod tests {
    use super::*;

    #[test]
    fn timeouts_are_read() {
        for (text, wanted) in [
            ("5S", Duration::from_secs(5)),
            ("100m", Duration::from_millis(100)),
            ("7u", Duration::from_micros(7)),
            ("9n", Duration::from_nanos(9)),
            ("99999999H", LONGEST),
            ("2M", LONGEST),
            ("123456789S", LONGEST),
            ("S", LONGEST),
            ("5", LONGEST),
            ("-5S", LONGEST),
            ("5é", LONGEST),
        ] {
            let mut headers = HeaderMap::new();
            if let Ok(value) = text.parse() {
                headers.insert("grpc-timeout", value);
            }
            assert_eq!(of(&headers), wanted, "{text}");
        }
        assert_eq!(of(&HeaderMap::new()), LONGEST);
    }
}
