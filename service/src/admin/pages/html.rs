//! HTML that is safe by its types: only texts of the program itself go in as markup, and everything else is escaped.

use crate::command::values::grouped;
use crate::log::{all_shown, cut};
use std::fmt::{Display, Write};

/// How much of a text is shown, in characters.
const SHOWN: usize = 400;

/// How many rows a table has at most, if there may be any number.
const ROWS: usize = 50;

/// A page or a part of one.
#[derive(Default)]
pub struct Html(String);

impl Html {
    pub fn markup(&mut self, markup: &'static str) -> &mut Html {
        self.0.push_str(markup);
        self
    }

    pub fn put(&mut self, part: Html) -> &mut Html {
        self.0.push_str(&part.0);
        self
    }

    /// Escapes a text, also for a quoted attribute. Control characters, line breaks too, are shown as visible
    /// characters.
    pub fn text(&mut self, text: impl Display) -> &mut Html {
        let text = text.to_string();
        let shown = cut(&text, SHOWN);
        for char in all_shown(shown).chars() {
            match char {
                '&' => self.0.push_str("&amp;"),
                '<' => self.0.push_str("&lt;"),
                '>' => self.0.push_str("&gt;"),
                '"' => self.0.push_str("&quot;"),
                '\'' => self.0.push_str("&#39;"),
                other => self.0.push(other),
            }
        }
        if shown.len() < text.len() {
            self.0.push_str("..");
        }
        self
    }

    /// A text within a query, percent-encoded and not cut.
    pub fn query(&mut self, text: &str) -> &mut Html {
        let set = percent_encoding::NON_ALPHANUMERIC;
        let _ = write!(self.0, "{}", percent_encoding::utf8_percent_encode(text, set)); // writing to a string does not fail
        self
    }

    /// A number, which needs no escaping.
    pub fn number(&mut self, number: f64) -> &mut Html {
        let _ = write!(self.0, "{number:.1}"); // writing to a string does not fail
        self
    }

    /// Begins a section.
    pub fn section(&mut self, title: &'static str) -> &mut Html {
        self.markup("<section><h2>").markup(title).markup("</h2>")
    }

    pub fn end_section(&mut self) -> &mut Html {
        self.markup("</section>\n")
    }

    /// A table of the first rows, and how many more there are. `besides` are rows that the caller left out.
    pub fn first_rows(
        &mut self,
        caption: &'static str,
        heads: &[&'static str],
        rows: Vec<Vec<String>>,
        besides: usize,
    ) -> &mut Html {
        let more = rows.len().saturating_sub(ROWS) + besides;
        self.table(caption, heads, &rows[..rows.len().min(ROWS)], &[]);
        if more > 0 {
            self.markup("<p class=note>").text(grouped(more)).markup(" more</p>");
        }
        self
    }

    /// A table, or `none` if it has no rows. Screen readers read its caption. Columns whose heads end in `#` have
    /// numbers. If there are `series`, the first cell of each row links to the series at the same index.
    pub fn table(
        &mut self,
        caption: &'static str,
        heads: &[&'static str],
        rows: &[Vec<String>],
        series: &[String],
    ) -> &mut Html {
        if rows.is_empty() {
            return self.markup("<p class=none>none</p>\n");
        }
        self.markup("<div class=wide><table><caption>").markup(caption).markup("</caption><thead><tr>");
        for head in heads {
            self.markup("<th scope=col").markup(class(head)).markup(">").markup(title(head)).markup("</th>");
        }
        self.markup("</tr></thead><tbody>\n");
        for (place, row) in rows.iter().enumerate() {
            let mut series = series.get(place);
            self.markup("<tr>");
            for (head, cell) in heads.iter().zip(row) {
                self.markup("<td")
                    .markup(class(head))
                    .markup(" data-head=\"")
                    .markup(title(head))
                    .markup("\">");
                match series.take() {
                    Some(id) => {
                        self.markup("<a href=\"series?id=").query(id).markup("\">").text(cell).markup("</a>")
                    }
                    None => self.text(cell),
                };
                self.markup("</td>");
            }
            self.markup("</tr>\n");
        }
        self.markup("</tbody></table></div>\n")
    }

    pub fn into_text(self) -> String {
        self.0
    }
}

fn class(head: &'static str) -> &'static str {
    if head.ends_with('#') {
        " class=n"
    } else {
        ""
    }
}

fn title(head: &'static str) -> &'static str {
    head.trim_end_matches('#')
}

#[cfg(test)]
mod tests {
    use super::*;

    #[test]
    fn what_others_wrote_is_no_markup() {
        let mut html = Html::default();
        html.text("</td><script>alert(1)</script>\" onload='x' &amp;\n\u{202e}\u{1b}[2J");
        let text = html.into_text();
        assert!(!text.contains(['<', '>', '"', '\'']) && !text.contains(char::is_control), "{text}");
        assert!(text.starts_with("&lt;/td&gt;&lt;script&gt;") && text.contains("&amp;amp;"), "{text}");
        let mut long = Html::default();
        long.text("<".repeat(100_000)).query("\"&?#<é");
        assert_eq!(long.into_text(), "&lt;".repeat(SHOWN) + "..%22%26%3F%23%3C%C3%A9");
    }

    #[test]
    fn a_table_has_its_rows() {
        let mut html = Html::default();
        let rows = [vec!["n".to_string(), "<i>".to_string()]];
        html.table("totals", &["name", "total#"], &rows, &["a&b".into()]).table("names", &["name"], &[], &[]);
        assert_eq!(
            html.into_text(),
            "<div class=wide><table><caption>totals</caption><thead><tr><th scope=col>name</th><th scope=col class=n>total</th></tr>\
             </thead><tbody>\n<tr><td data-head=\"name\"><a href=\"series?id=a%26b\">n</a></td>\
             <td class=n data-head=\"total\">&lt;i&gt;</td></tr>\n</tbody></table></div>\n<p class=none>none</p>\n"
        );
    }
}
