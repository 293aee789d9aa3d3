//! Plots as SVG: lines over time, and a bar for each hour.

use super::html::Html;
use crate::command::values::grouped;
use std::fmt::Display;

const WIDTH: f64 = 720.0;
const HEIGHT: f64 = 160.0;
/// The space above and below the plot.
const MARGIN: f64 = 18.0;

/// A line. Its class is its colour.
pub struct Line {
    pub class: &'static str,
    pub values: Vec<f64>,
}

/// Lines over the same times, at the right of a plot that has room for `places` values. `label` is read by screen
/// readers, and `marks` are times on the axis, from left to right.
pub fn lines(html: &mut Html, label: &'static str, lines: &[Line], places: usize, marks: &[&'static str]) {
    let values = lines.iter().flat_map(|line| line.values.iter().copied());
    let top = values.fold(0.0, f64::max).max(1.0);
    begin(html, label, &grouped(top.ceil()));
    let step = WIDTH / (places.max(2) - 1) as f64;
    for line in lines {
        html.markup("<polyline class=").markup(line.class).markup(" points=\"");
        let first = places.saturating_sub(line.values.len());
        for (place, value) in line.values.iter().enumerate() {
            html.number((first + place) as f64 * step).markup(",").number(height(*value, top)).markup(" ");
        }
        html.markup("\"/>");
    }
    end(html, marks);
}

/// A bar: its height, and its tooltip.
pub struct Bar {
    pub value: f64,
    pub text: String,
}

/// Bars on a common base line; negative ones hang from it. `label` and `marks` as in `lines`.
pub fn bars(html: &mut Html, label: &'static str, bars: &[Bar], marks: &[String]) {
    let values = || bars.iter().map(|bar| bar.value);
    let (top, bottom) = (values().fold(0.0, f64::max), values().fold(0.0, f64::min));
    let whole = if top > bottom { top - bottom } else { 1.0 };
    begin(html, label, &grouped(top.ceil()));
    let step = WIDTH / bars.len().max(1) as f64;
    let height = |value: f64| (HEIGHT - 2.0 * MARGIN) * value.abs() / whole;
    let ground = MARGIN + height(top);
    for (place, bar) in bars.iter().enumerate() {
        let above = if bar.value > 0.0 { height(bar.value) } else { 0.0 };
        html.markup("<rect x=\"").number(place as f64 * step + 1.0).markup("\" y=\"").number(ground - above);
        html.markup("\" width=\"").number(step - 2.0).markup("\" height=\"").number(height(bar.value));
        html.markup("\"><title>").text(&bar.text).markup("</title></rect>");
    }
    end(html, marks);
}

fn begin(html: &mut Html, label: &'static str, top: &str) {
    html.markup("<div class=plot><span>")
        .text(top)
        .markup("</span><svg role=img aria-label=\"")
        .markup(label);
    html.markup("\" viewBox=\"0 0 720 160\" preserveAspectRatio=none>");
    html.markup("<path class=grid d=\"M0 18H720M0 142H720\"/>");
}

fn end(html: &mut Html, marks: &[impl Display]) {
    html.markup("</svg></div><div class=axis>");
    for mark in marks {
        html.markup("<span>").text(mark).markup("</span>");
    }
    html.markup("</div>\n");
}

fn height(value: f64, top: f64) -> f64 {
    HEIGHT - MARGIN - (HEIGHT - 2.0 * MARGIN) * value / top
}

#[cfg(test)]
mod tests {
    use super::*;

    #[test]
    fn bars_stand_on_zero_or_hang_from_it() {
        let bar = |value: f64| Bar { value, text: format!("<{value}>") };
        let mut html = Html::default();
        bars(&mut html, "two bars", &[bar(3.0), bar(-1.0)], &[String::from("<noon>")]);
        let text = html.into_text();
        assert!(text.contains("<rect x=\"1.0\" y=\"18.0\" width=\"358.0\" height=\"93.0\">"), "{text}");
        assert!(text.contains("<rect x=\"361.0\" y=\"111.0\" width=\"358.0\" height=\"31.0\">"), "{text}");
        assert!(text.contains("<title>&lt;-1&gt;</title>"), "{text}");
        assert!(text.contains("aria-label=\"two bars\""), "{text}");
        assert!(text.ends_with("<div class=axis><span>&lt;noon&gt;</span></div>\n"), "{text}");
    }

    #[test]
    fn the_last_value_is_at_the_right() {
        let mut html = Html::default();
        let values = vec![0.0, 4.0];
        lines(&mut html, "a line", &[Line { class: "posted", values }], 3, &["before", "now"]);
        let text = html.into_text();
        assert!(text.contains("class=posted points=\"360.0,142.0 720.0,18.0 \""), "{text}");
        assert!(text.contains("<span>4</span>"), "{text}");
        assert!(text.ends_with("<div class=axis><span>before</span><span>now</span></div>\n"), "{text}");
    }
}
