//! What a schema's file says of its tables, views and columns, after `--` on the line that begins each of them. A
//! column of which nothing is said means what the last column of the same name above it means.

use std::collections::HashMap;

/// What a table, a view or one of its columns is.
#[derive(Debug, PartialEq, Eq)]
pub(in crate::sink) struct About<'s> {
    pub(in crate::sink) is_view: bool,
    pub(in crate::sink) of: &'s str,
    /// Empty if the text is about the table or view itself.
    pub(in crate::sink) column: &'s str,
    pub(in crate::sink) what: &'s str,
}

/// The texts for all tables and views of a schema. `columns` has the pairs of table and column that exist.
pub(in crate::sink) fn about<'s>(schema: &'s str, columns: &'s [(String, String)]) -> Vec<About<'s>> {
    let mut said: Vec<(About, HashMap<&str, &str>)> = Vec::new();
    for (code, what) in schema.lines().filter_map(|line| line.split_once(" -- ")) {
        let is_word = |part: &&str| !part.is_empty();
        let mut words = code.split([' ', '(', ',', '"']).filter(is_word);
        match (words.next(), words.next(), words.next()) {
            (Some("create"), Some(kind), Some(name)) => {
                let of = name.rsplit('.').next().unwrap_or(name);
                said.push((About { is_view: kind == "view", of, column: "", what }, HashMap::new()));
            }
            (Some(column), ..) => {
                said.last_mut().and_then(|(_, columns)| columns.insert(column, what));
            }
            (None, ..) => {}
        }
    }
    let mut above: HashMap<&str, &str> = HashMap::new();
    let mut all = Vec::new();
    for (about, own) in said {
        let (is_view, of) = (about.is_view, about.of);
        all.push(about);
        above.extend(own);
        let has = columns.iter().filter(|(name, _)| name == of).map(|(_, column)| column.as_str());
        all.extend(has.filter_map(|column| Some(About { is_view, of, column, what: above.get(column)? })));
    }
    all
}

#[cfg(test)]
mod tests {
    use super::*;

    #[test]
    fn a_column_means_what_the_last_one_of_its_name_means() {
        let schema = "-- Of -- no table\ncreate table s.one ( -- One\n    a integer, -- A\n    b (c), -- B\n    c d\n);\n\
            create view s.two ( -- Two\n    \"a\", b, -- Another\n    e\n) as select 1;\ncreate table s.three ( -- Three\n    a\n);";
        let of = |name: &str, columns: &str| {
            columns.chars().map(|column| (name.to_string(), column.to_string())).collect::<Vec<_>>()
        };
        let columns = [of("one", "ab"), of("two", "abe"), of("three", "a")].concat();
        let said: Vec<_> = about(schema, &columns).iter().map(|one| (one.of, one.column, one.what)).collect();
        assert_eq!(
            said,
            [
                ("one", "", "One"),
                ("one", "a", "A"),
                ("one", "b", "B"),
                ("two", "", "Two"),
                ("two", "a", "Another"),
                ("two", "b", "B"),
                ("three", "", "Three"),
                ("three", "a", "Another"),
            ]
        );
    }
}
