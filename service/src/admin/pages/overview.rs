//! `GET /`: the status in words, its main numbers as tiles, and the rates of the last minutes as a plot.

use super::html::Html;
use super::plot::{lines, Line};
use super::{frame, Page};
use crate::admin::status::{Rates, Section, Shown, Status, Tile, KEPT};

/// The time axis of the plot, which has `KEPT` rates.
const MINUTES: [&str; 6] = ["5 min ago", "4", "3", "2", "1 min ago", "now"];

pub(super) fn page(status: &Status) -> String {
    let mut shown = Shown::of(status);
    let mut html = Html::default();
    tiles(&mut html, &shown.tiles);
    rates(&mut html, &status.rates);
    for section in shown.sections.drain(..) {
        put(&mut html, section);
    }
    frame(Page::Overview, &shown, html)
}

fn tiles(html: &mut Html, tiles: &[Tile]) {
    html.markup("<section class=tiles>");
    for tile in tiles {
        html.markup("<div class=\"tile ").markup(tile.class).markup("\"><b>").text(&tile.value);
        html.markup("</b><span>").markup(tile.what).markup("</span></div>");
    }
    html.markup("</section>\n");
}

fn rates(html: &mut Html, rates: &[Rates]) {
    let line = |class, value: fn(&Rates) -> f64| Line { class, values: rates.iter().map(value).collect() };
    let all = [
        line("delivered", |rates| rates.delivered),
        line("refused", |rates| rates.refused),
        line("posted", |rates| rates.taken),
    ];
    let label = "Posts taken, posts refused and requests delivered, a second";
    lines(html.section("The last five minutes"), label, &all, KEPT, &MINUTES);
    html.markup(
        "<p class=key><span><i class=posted></i>posts taken</span><span><i class=refused></i>refused</span>",
    );
    html.markup("<span><i class=delivered></i>requests delivered, a second</span></p>").end_section();
}

fn put(html: &mut Html, section: Section) {
    html.section(section.title);
    for note in &section.notes {
        html.markup("<p class=note>").text(note).markup("</p>");
    }
    if !section.rows.is_empty() {
        html.first_rows(section.title, section.heads, section.rows, section.more);
    }
    html.end_section();
}

#[cfg(test)]
mod tests {
    use super::*;
    use crate::admin::status::{First, RejectedStatus, SenderStatus, ShardStatus};
    use crate::otlp::Reason;

    #[test]
    fn what_others_wrote_is_no_markup_of_the_page() {
        let hostile = "<script>alert(1)</script>";
        let shard = ShardStatus { trouble: Some(hostile.into()), tries: 1, ..ShardStatus::default() };
        let metric = Some(hostile.into());
        let rejected = RejectedStatus {
            sender: hostile.into(),
            reason: Reason::Gauge,
            points: 1_234,
            metric,
            owner: None,
        };
        let status = Status {
            unavailable: Some(hostile.into()),
            sink: hostile.into(),
            shards: vec![shard],
            rejected: First { first: vec![rejected], more: 7 },
            ..Status::default()
        };
        let text = page(&status);
        assert!(!text.contains("<script>"), "{text}");
        for part in
            ["posts get 503: &lt;script&gt;", "in 1 attempt: &lt;script&gt;", "1,234</td>", ">7 more<"]
        {
            assert!(text.contains(part), "{part} in {text}");
        }
    }

    #[test]
    fn of_many_rows_so_many_are_shown() {
        let sender = |number: u64| SenderStatus {
            sender: format!("s{number}"),
            last_seconds: number,
            taken: 1,
            refused: 0,
        };
        let senders = First { first: (0..60).map(sender).collect(), more: 5 };
        let text = page(&Status { senders, ..Status::default() });
        assert!(text.contains(">s49<") && !text.contains(">s50<") && text.contains(">15 more<"), "{text}");
    }
}
