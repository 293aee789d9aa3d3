//! Tables for people.

use crate::log::all_shown;
use std::fmt;

/// The greatest width of a column. A text of megabytes must not make every line as long, and `format!` limits widths.
const WIDEST: usize = 1000;

/// Columns as wide as their widest text, up to `WIDEST`. Senders and sinks wrote the texts, so a terminal must not obey
/// them: control characters are replaced.
pub struct Table {
    rows: Vec<Vec<String>>,
}

impl Table {
    pub fn new<T: AsRef<str>>(heads: &[T]) -> Table {
        let mut table = Table { rows: Vec::new() };
        table.row(heads);
        table
    }

    pub fn row<T: AsRef<str>>(&mut self, texts: &[T]) {
        self.rows.push(texts.iter().map(|text| all_shown(text.as_ref())).collect());
    }
}

impl fmt::Display for Table {
    fn fmt(&self, to: &mut fmt::Formatter<'_>) -> fmt::Result {
        let columns = self.rows.iter().map(Vec::len).max().unwrap_or(0);
        let width = |column: usize| {
            self.rows.iter().filter_map(|row| row.get(column)).map(|text| text.chars().count()).max()
        };
        let widths = (0..columns).map(|column| width(column).unwrap_or(0).min(WIDEST));
        let widths: Vec<usize> = widths.collect();
        for row in &self.rows {
            let cells: Vec<String> =
                row.iter().zip(&widths).map(|(text, width)| format!("{text:width$}")).collect();
            writeln!(to, "{}", cells.join("  ").trim_end())?;
        }
        Ok(())
    }
}

#[cfg(test)]
mod tests {
    use super::*;

    #[test]
    fn columns_are_as_wide_as_their_texts() {
        let mut table = Table::new(&["a", "b"]);
        table.row(&["long", "x\u{1b}[2J"]);
        assert_eq!(table.to_string(), "a     b\nlong  x [2J\n");
    }

    #[test]
    fn a_text_may_be_longer_than_a_column_is_wide() {
        let long = "x".repeat(70_000);
        let mut table = Table::new(&["a", "b"]);
        table.row(&[long.as_str(), "c"]);
        let head = format!("a{}b", " ".repeat(WIDEST + 1));
        assert_eq!(table.to_string(), format!("{head}\n{long}  c\n"));
    }
}
