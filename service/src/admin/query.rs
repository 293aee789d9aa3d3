//! The query of a URL: percent-encoded parameters `key=value`, separated by `&`. A `+` is a space, as in forms of a
//! page.

use percent_encoding::percent_decode_str;

#[derive(Clone, Copy, Debug)]
pub(super) struct Query<'a>(pub &'a str);

impl<'a> Query<'a> {
    /// Whether there is such a parameter, with or without a value.
    pub fn has(self, key: &str) -> bool {
        self.raw(key).is_some()
    }

    /// The value of the first parameter of this name. Empty if there is none.
    pub fn value(self, key: &str) -> Result<String, String> {
        let value = self.raw(key).unwrap_or_default().replace('+', " ");
        let value = percent_decode_str(&value).decode_utf8();
        value.map(String::from).map_err(|_| format!("the {key} is no text in UTF-8"))
    }

    fn raw(self, key: &str) -> Option<&'a str> {
        let mut pairs = self.0.split('&').map(|pair| pair.split_once('=').unwrap_or((pair, "")));
        pairs.find(|(found, _)| percent_decode_str(found).decode_utf8_lossy() == key).map(|(_, value)| value)
    }
}

#[cfg(test)]
mod tests {
    use super::*;

    #[test]
    fn parameters_are_found_wherever_they_stand() {
        let query = Query("&all&reason=a%20b+c%2B%26d=e&rea%73on=second&name=&series=%ff");
        assert_eq!(query.value("reason"), Ok("a b c+&d=e".to_string()));
        assert_eq!(
            [query.value("name"), query.value("all"), query.value("id")],
            [const { Ok(String::new()) }; 3]
        );
        assert_eq!(query.value("series"), Err("the series is no text in UTF-8".to_string()));
        assert_eq!(["all", "name", "al", "a b c"].map(|key| query.has(key)), [true, true, false, false]);
        assert_eq!(Query("rea%73on=x").value("reason"), Ok("x".to_string()));
    }
}
