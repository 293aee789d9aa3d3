//! `totxegun status`: prints the status of the running service.

use super::table::Table;
use crate::admin::status::{Section, Shown, Status};
use crate::log::{all_shown, cut};

/// How much of a text is shown in any column but the last, in characters.
const CELL: usize = 60;

pub fn text(status: &Status) -> String {
    let shown = Shown::of(status);
    let mut lines = Table::new(&shown.how);
    shown.alarm.iter().chain(&shown.places).for_each(|line| lines.row(line));
    shown.tiles.iter().for_each(|tile| lines.row(&[tile.what, tile.value.as_str()]));
    let sections: String = shown.sections.iter().map(section).collect();
    format!("{lines}{sections}")
}

fn section(section: &Section) -> String {
    let mut text = format!("\n{}\n", section.title);
    section.notes.iter().for_each(|note| text += &format!("{}\n", all_shown(note)));
    if !section.rows.is_empty() {
        let heads: Vec<&str> = section.heads.iter().map(|head| head.trim_end_matches('#')).collect();
        let mut table = Table::new(&heads);
        section.rows.iter().for_each(|row| table.row(&cells(row)));
        text += &table.to_string();
    }
    if section.more > 0 {
        text += &format!("{} more\n", section.more);
    }
    text
}

/// An empty cell becomes a dash, and a long one is cut unless it is the last.
fn cells(row: &[String]) -> Vec<String> {
    let cell = |(place, text): (usize, &String)| match cut(text, CELL) {
        "" => "-".to_string(),
        shown if shown.len() < text.len() && place + 1 < row.len() => format!("{shown}.."),
        _ => text.clone(),
    };
    row.iter().enumerate().map(cell).collect()
}

#[cfg(test)]
mod tests {
    use super::*;
    use crate::admin::status::{First, RefusedStatus};
    use crate::otlp::Reason;

    #[test]
    fn sections_are_tables_and_notes() {
        let of = |sender: &str, answer: &str| RefusedStatus {
            sender: sender.into(),
            reason: Reason::Quarantined,
            posts: 1_234,
            last_seconds: 61,
            answer: answer.into(),
            owner: None,
        };
        let refused = First { first: vec![of("A", "quarantined"), of("-", &"x".repeat(70))], more: 3 };
        let status = Status { version: "1".into(), dead_letters: 2, refused, ..Status::default() };
        let text = text(&status);
        let (wide, long) = (" ".repeat(51), "x".repeat(60));
        let wanted = format!(
            "\nRefused posts\n\
             sender              status  posts  last       last answer{wide}  what to do\n\
             A                   403     1,234  1 min 1 s  quarantined{wide}  totxegun release NAME once the sender is repaired\n\
             - (who names none)  403     1,234  1 min 1 s  {long}..  totxegun release NAME once the sender is repaired\n\
             3 more\n"
        );
        assert!(text.contains(&wanted), "{text}");
        assert!(text.starts_with("totxegun 1                   not ready, up 0 s, process 0\n"), "{text}");
        assert!(text.contains("\ndead letters                 2\n"), "{text}");
        assert!(text.ends_with("and its points are lost\n"), "{text}");
    }

    #[test]
    fn nothing_that_others_wrote_is_obeyed() {
        let status =
            Status { sink: "a\u{1b}[2Jb".into(), unavailable: Some("x\ny".into()), ..Status::default() };
        let text = text(&status);
        assert!(
            text.contains("sink                         a [2Jb\n")
                && text.contains("posts get 503                x y\n"),
            "{text}"
        );
    }
}
