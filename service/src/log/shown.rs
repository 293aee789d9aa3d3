//! Makes a text of a sender, a sink or a server safe to show: one line, without characters that control a terminal.

/// The first characters of the trimmed text.
pub fn shown(text: &str, most: usize) -> String {
    cut(text.trim(), most).chars().map(plain).collect()
}

/// The whole text.
pub fn all_shown(text: &str) -> String {
    text.chars().map(plain).collect()
}

/// The first characters of a text.
pub fn cut(text: &str, most: usize) -> &str {
    text.char_indices().nth(most).map_or(text, |(end, _)| &text[..end])
}

/// Replaces by a blank what ends a line, moves a cursor, or changes the direction of text.
fn plain(one: char) -> char {
    match one {
        '\u{200b}'..='\u{200f}' | '\u{2028}'..='\u{202e}' | '\u{2060}'..='\u{206f}' | '\u{feff}' => ' ',
        one if one.is_control() => ' ',
        one => one,
    }
}

#[cfg(test)]
mod tests {
    use super::*;

    #[test]
    fn it_is_one_short_line() {
        assert_eq!(shown(" a\nb\u{1b}[2J\u{7f}\u{9b}2J\u{2028}c\u{202e} ", 300), "a b [2J  2J c ");
        assert_eq!(shown(&"\u{e9}".repeat(1000), 7), "\u{e9}".repeat(7));
        assert_eq!(all_shown("a\r\nb "), "a  b ");
    }
}
