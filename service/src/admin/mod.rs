//! The admin addresses: orders to the workers, status, metrics, pages and dead letters. `service/operators` serves them by
//! two handlers: `AdminApi` at a socket of this machine, where the system says who may connect, and `TcpAdmin` over TCP, where
//! everybody reads, and only a token gives orders.
//!
//! What must hold: a request that a browser sends for another site's page is refused (`web`), and each action is
//! recorded before it is carried out (`acts`). With several instances, `reach` asks them for their shards, or says
//! which one to ask.

mod adjust;
mod amend;
mod audit_log;
mod dead_letters;
mod late;
mod late_sums;
mod local_shards;
mod named;
mod orders;
mod pages;
mod periods;
mod query;
mod reach;
pub mod status;
mod store_health;
mod tcp;
mod totals;
mod user;
mod web;

pub use adjust::{AskedAdjustment, ADJUSTMENTS};
pub use audit_log::{Act, Actor, Asked, AuditLog, OPERATOR};
pub use dead_letters::ResendOutcome;
pub use late_sums::LateSum;
pub use local_shards::{LocalShard, LocalShards, Undelivered};
pub use named::Named;
pub use periods::{begun, FLUSHED, FORCE};
pub use reach::Others;
pub use status::{DatabaseStatus, Pulse, Status};
pub use store_health::StoreHealth;
pub use tcp::TcpAdmin;
pub use totals::{Times, Totals};
pub(crate) use web::is_ours;

use crate::ingest::connections::Handler;
use crate::ingest::Budget;
use crate::late::LateData;
use crate::metrics::Metrics;
use crate::outbox::SenderRename;
use crate::post_reports::SenderActivity;
use crate::quota::Quotas;
use crate::sink::periods::{Period, PeriodAction};
use crate::sink::Sink;
use dead_letters::DeadLetterOrder;
use hyper::header::{HeaderValue, ALLOW, CONTENT_TYPE, LOCATION};
use hyper::{Body, Method, Request, Response, StatusCode, Uri};
use pages::Page;
use percent_encoding::percent_decode_str;
use periods::period_of;
use query::Query;
use reach::{Answer, Command};
use std::sync::Arc;
use std::time::Instant;

const JSON: &str = "application/json";
const TEXT: &str = "text/plain; charset=utf-8";
const PROMETHEUS: &str = "text/plain; version=0.0.4";

/// What answers operators. `open_shards` are the shards that are open here.
pub struct AdminApi {
    pub open_shards: Arc<LocalShards>,
    /// The other instances, if a store is shared.
    pub others: Option<Others>,
    pub quotas: Arc<Quotas>,
    pub acts: Arc<AuditLog>,
    pub sink: Arc<dyn Sink>,
    /// None if the sink has no totals to read.
    pub totals: Option<Totals>,
    pub metrics: Arc<Metrics>,
    pub budget: Arc<Budget>,
    /// Which senders have posted.
    pub activity: Arc<SenderActivity>,
    /// Points that their series refused.
    pub late: Arc<LateData>,
    /// The rates of posts and deliveries.
    pub pulse: Arc<Pulse>,
    /// The address at which senders post.
    pub listen: String,
    /// The admin address of TCP, as it was given.
    pub operate: String,
    /// Whether no other machine reaches that address.
    pub is_local: bool,
    pub data: String,
    /// The limit of series.
    pub max_series: usize,
    pub begun: Instant,
}

/// A route of the admin addresses.
enum Route {
    /// A command to all shards.
    Order(Command),
    /// What to do with the dead letter of this key.
    DeadLetter(DeadLetterOrder, String),
    Report,
    Metrics,
    Totals,
    Health,
    Ready,
    Startup,
    Status,
    Letters,
    Late,
    /// What a period lacks.
    LateOf(String),
    /// The adjustment is in the body.
    Adjust,
    /// Closes this period.
    Close(String),
    Open(String),
    /// Rewinds series to this time; none forgets them.
    Amend(Option<String>),
    Page(Page),
}

impl Route {
    /// The method and the route of a path.
    fn of(path: &str) -> Option<(Method, Route)> {
        let parts: Vec<&str> = path.strip_prefix('/')?.split('/').collect();
        Some(match parts[..] {
            ["flush"] => (Method::POST, Route::Order(Command::Flush)),
            ["quarantine", sender] => (Method::POST, Route::Order(Command::Quarantine(decoded(sender)))),
            ["release", sender] => (Method::POST, Route::Order(Command::Release(decoded(sender)))),
            ["senders", from, "rename", to] => {
                let rename = SenderRename { from: decoded(from), to: decoded(to) };
                (Method::POST, Route::Order(Command::RenameSender(rename)))
            }
            ["report"] => (Method::GET, Route::Report),
            ["metrics"] => (Method::GET, Route::Metrics),
            ["totals"] => (Method::GET, Route::Totals),
            ["healthz"] => (Method::GET, Route::Health),
            ["readyz"] => (Method::GET, Route::Ready),
            ["startupz"] => (Method::GET, Route::Startup),
            ["status"] => (Method::GET, Route::Status),
            ["dead-letters"] => (Method::GET, Route::Letters),
            ["late"] => (Method::GET, Route::Late),
            ["late", period] => (Method::GET, Route::LateOf(decoded(period))),
            ["dead-letters", key] => (Method::GET, Route::DeadLetter(DeadLetterOrder::Show, decoded(key))),
            ["dead-letters", key, "resend"] => {
                (Method::POST, Route::DeadLetter(DeadLetterOrder::Resend, decoded(key)))
            }
            ["dead-letters", key, "drop"] => {
                (Method::POST, Route::DeadLetter(DeadLetterOrder::Drop, decoded(key)))
            }
            ["v1", "adjustments"] => (Method::POST, Route::Adjust),
            ["close", period] => (Method::POST, Route::Close(decoded(period))),
            ["reopen", period] => (Method::POST, Route::Open(decoded(period))),
            ["rewind", to] => (Method::POST, Route::Amend(Some(decoded(to)))),
            ["forget"] => (Method::POST, Route::Amend(None)),
            [""] => (Method::GET, Route::Page(Page::Overview)),
            ["series"] => (Method::GET, Route::Page(Page::Series)),
            ["page.css"] => (Method::GET, Route::Page(Page::Style)),
            ["page.js"] => (Method::GET, Route::Page(Page::Script)),
            _ => return None,
        })
    }

    /// Who may use the route over TCP.
    fn over_tcp(&self) -> TcpAccess {
        match self {
            Route::Order(_)
            | Route::DeadLetter(..)
            | Route::Letters
            | Route::Late
            | Route::LateOf(_)
            | Route::Adjust
            | Route::Close(_)
            | Route::Open(_)
            | Route::Amend(_) => TcpAccess::Operators,
            Route::Report => TcpAccess::Nobody,
            _ => TcpAccess::All,
        }
    }
}

/// Who may use a route over TCP. At the socket, whoever may connect may use all.
#[derive(Clone, Copy, Debug, PartialEq, Eq)]
enum TcpAccess {
    All,
    /// Whoever has a token: the route changes something, or shows what senders have sent.
    Operators,
    /// Nobody: making the answer holds posts up.
    Nobody,
}

impl Handler for AdminApi {
    async fn answer(self: Arc<Self>, request: Request<Body>) -> Response<Body> {
        let actor = Actor::of(&request);
        self.answer_to(actor, Route::of(request.uri().path()), request).await
    }
}

impl AdminApi {
    async fn answer_to(
        self: &Arc<Self>,
        actor: Actor,
        route: Option<(Method, Route)>,
        request: Request<Body>,
    ) -> Response<Body> {
        match route {
            None => message(404, "no such path"),
            Some((method, route)) if is_met(&method, request.method()) => {
                match self.stranger(&route, &request) {
                    Some(why) => message(403, &why),
                    None => {
                        let (head, body) = request.into_parts();
                        let query = Query(head.uri.query().unwrap_or_default());
                        with_path(self.go(route, actor, query, body).await, &head.uri)
                    }
                }
            }
            Some((method, _)) => {
                let mut response = message(405, "wrong method");
                let allow = if method == Method::POST { "POST" } else { "GET, HEAD" };
                response.headers_mut().insert(ALLOW, HeaderValue::from_static(allow));
                response
            }
        }
    }

    /// Why a request is refused as one of a web page.
    fn stranger(&self, route: &Route, request: &Request<Body>) -> Option<String> {
        match route {
            Route::Health | Route::Ready | Route::Startup => None,
            // If other machines reach the address, a scraper may use any name for it.
            Route::Metrics if !self.is_local => None,
            // Our own pages may ask for pages: these change nothing.
            Route::Page(_) => web::stranger(request, &self.operate, &[web::BY_HAND, web::BY_US]),
            _ => web::stranger(request, &self.operate, &[web::BY_HAND]),
        }
    }

    async fn go(
        self: &Arc<Self>,
        route: Route,
        actor: Actor,
        query: Query<'_>,
        body: Body,
    ) -> Response<Body> {
        match route {
            Route::Order(order) => {
                let asked = order.act();
                let doing = |who: String| async move { self.carry_out(&who, &order).await };
                self.acts.recorded(actor, asked, doing, Answer::outcome).await.into()
            }
            Route::DeadLetter(what, key) => {
                let asked = what.act(&key);
                let doing = |_| async { self.letter(what, &key).await };
                self.acts.recorded(actor, asked, doing, Answer::outcome).await.into()
            }
            Route::Report => self.report().await,
            Route::Metrics => {
                self.read_levels();
                reply(200, PROMETHEUS, self.metrics.page())
            }
            Route::Totals => self.totals(query).await,
            Route::Health => reply(200, TEXT, "ok\n"),
            Route::Ready => match self.unavailable() {
                None => reply(200, TEXT, "ready\n"),
                Some(why) => message(503, why.text()),
            },
            Route::Startup => match self.starting() {
                None => reply(200, TEXT, "started\n"),
                Some(how_far) => message(503, &how_far),
            },
            Route::Status => match serde_json::to_vec(&self.status_of_all().await) {
                Ok(status) => reply(200, JSON, status),
                Err(error) => message(500, &error.to_string()),
            },
            Route::Letters => self.letters().await.into(),
            Route::Late => self.late(query).await.into(),
            Route::LateOf(period) => self.late_of(period_of(&period, query)).await.into(),
            Route::Adjust => self.adjust(actor, body).await.into(),
            Route::Close(period) => {
                let (force, flushed) = (query.has(FORCE), query.has(FLUSHED));
                let period = period_of(&period, query);
                let asked = asked_period("close", &period).with("--force", force).with("--flush", flushed);
                self.apply(actor, asked, period.map(PeriodAction::Close), force || flushed).await.into()
            }
            Route::Open(period) => {
                let period = period_of(&period, query);
                let asked = asked_period("reopen", &period);
                self.apply(actor, asked, period.map(PeriodAction::Open), true).await.into()
            }
            Route::Amend(to) => self.amend(actor, to.as_deref(), query).await.into(),
            Route::Page(page) => self.page(page, query).await,
        }
    }
}

/// What is written down of a period, with its zone; of one that is none nothing is.
fn asked_period(what: &'static str, period: &Result<Period, String>) -> Asked {
    Asked::new(what, period.as_ref().map(ToString::to_string).unwrap_or_default())
}

/// A part of a path that names something: it may be percent-encoded. What is no text names nothing.
fn decoded(part: &str) -> String {
    percent_decode_str(part).decode_utf8_lossy().into_owned()
}

/// Adds the path to a redirection, which has only the address of the other instance.
fn with_path(mut response: Response<Body>, asked: &Uri) -> Response<Body> {
    if let Some(Ok(at)) = response.headers().get(LOCATION).map(HeaderValue::to_str) {
        let path = asked.path_and_query().map_or("/", |path| path.as_str());
        if let Ok(whole) = HeaderValue::from_str(&format!("{at}{path}")) {
            response.headers_mut().insert(LOCATION, whole);
        }
    }
    response
}

/// A HEAD gets what a GET gets (RFC 9110, 9.3.2); hyper leaves out the body.
fn is_met(wanted: &Method, asked: &Method) -> bool {
    wanted == asked || *wanted == Method::GET && *asked == Method::HEAD
}

pub(crate) fn message(status: u16, text: &str) -> Response<Body> {
    Answer::told(status, text).into()
}

pub(crate) fn reply(status: u16, kind: &'static str, body: impl Into<Body>) -> Response<Body> {
    let mut response = Response::new(body.into());
    *response.status_mut() = StatusCode::from_u16(status).unwrap_or(StatusCode::INTERNAL_SERVER_ERROR);
    response.headers_mut().insert(CONTENT_TYPE, HeaderValue::from_static(kind));
    response
}

#[cfg(test)]
mod tests;
