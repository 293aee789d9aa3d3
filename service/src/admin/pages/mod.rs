//! The operators' pages: `/` and `/series`. They only read. They work without their script, which reloads `/` every two
//! seconds.
//!
//! What must hold: nothing that others wrote becomes markup (`html` escapes it), and nothing is loaded from elsewhere
//! (the content security policy forbids it).

mod html;
mod overview;
mod plot;
mod series;

use super::query::Query;
use super::status::Shown;
use super::{reply, AdminApi};
use html::Html;
use hyper::header::X_CONTENT_TYPE_OPTIONS;
use hyper::header::{HeaderName, HeaderValue, CACHE_CONTROL, CONTENT_SECURITY_POLICY, REFERRER_POLICY};
use hyper::{Body, Response};
use std::sync::Arc;

const PAGE: &str = "text/html; charset=utf-8";

/// The headers of every page: a browser runs and loads only the files of these pages, and shows no page within another.
const HEADERS: [(HeaderName, &str); 4] = [
    (
        CONTENT_SECURITY_POLICY,
        "default-src 'none'; style-src 'self'; script-src 'self'; connect-src 'self'; img-src data:; form-action 'self'; base-uri 'none'; \
         frame-ancestors 'none'",
    ),
    (X_CONTENT_TYPE_OPTIONS, "nosniff"),
    (REFERRER_POLICY, "no-referrer"),
    (CACHE_CONTROL, "no-store"),
];

/// What a browser may ask for.
#[derive(Clone, Copy, Debug, PartialEq, Eq)]
pub enum Page {
    Overview,
    Series,
    Style,
    Script,
}

impl AdminApi {
    /// Answers with a page.
    pub(super) async fn page(self: &Arc<Self>, page: Page, query: Query<'_>) -> Response<Body> {
        let mut response = match page {
            Page::Overview => reply(200, PAGE, overview::page(&self.status_of_all().await)),
            Page::Series => reply(200, PAGE, self.series_page(query).await),
            Page::Style => reply(200, "text/css", include_str!("page.css")),
            Page::Script => reply(200, "text/javascript", include_str!("page.js")),
        };
        for (name, value) in HEADERS {
            response.headers_mut().insert(name, HeaderValue::from_static(value));
        }
        response
    }
}

/// Puts the body of a page between its head and its foot, with a link to the other page.
fn frame(page: Page, shown: &Shown, body: Html) -> String {
    let mut html = Html::default();
    html.markup("<!doctype html><html lang=en><head><meta charset=utf-8><title>totxegun</title>");
    html.markup("<meta name=viewport content=\"width=device-width, initial-scale=1\"><meta name=color-scheme content=\"light dark\">");
    html.markup("<link rel=stylesheet href=page.css><link rel=icon href=\"data:,\">");
    if page == Page::Overview {
        html.markup(
            "<script src=page.js defer></script><noscript><meta http-equiv=refresh content=10></noscript>",
        );
    }
    html.markup("</head><body><header><h1>totxegun</h1>");
    let current = |here: Page| if here == page { " aria-current=page" } else { "" };
    html.markup("<nav><a href=\"./\"").markup(current(Page::Overview)).markup(">Overview</a>");
    html.markup("<a href=series")
        .markup(current(Page::Series))
        .markup(">Series</a></nav></header>\n<div class=bar role=status>");
    match &shown.alarm {
        None => html.markup("<p id=state class=\"state good\">takes posts</p>"),
        Some(alarm) => html.markup("<p id=state class=\"state bad\">").text(alarm.join(": ")).markup("</p>"),
    };
    html.markup("<p id=renewal></p></div>\n<main id=main>").put(body).markup("</main><footer id=foot>");
    let places: Vec<String> = shown.places.iter().map(|line| line.join(" ")).collect();
    html.text(shown.how.join(" ")).markup("; ").text(places.join("; "));
    html.markup("</footer></body></html>\n");
    html.into_text()
}
