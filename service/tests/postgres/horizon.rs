//! Tests what readers see while hours are deleted, and what a wrong clock leaves behind.

use crate::kept::{now, until};
use crate::points::HOUR;
use crate::server::{sum, sums, Server};
use crate::{open, open_with, taken};
use std::time::Duration;
use totxegun::sink::Retention;

const DAY: u64 = 24 * HOUR;
const TWO_DAYS: Option<Duration> = Some(Duration::from_secs(2 * 86_400));

/// The rows of an hour are deleted one after another. Here a series is locked, as by a request in progress, and so are
/// the hours of its metric.
#[tokio::test(flavor = "multi_thread")]
async fn an_hour_that_is_being_deleted_is_there_whole_or_not_at_all() {
    let Some(server) = Server::start() else { return };
    let address = server.by_socket("postgres");
    let before = open(&address);
    let old = (now() / HOUR - 72) * HOUR;
    taken(&*before, 1, sums(&[("a", old, old + 9, 1), ("b", old, old + 9, 2), ("c", old, old + 9, 4)])).await;
    taken(&*before, 2, sums(&[("a", now() - 10, now(), 8)])).await;
    drop(before);
    let late = format!(
        "insert into totxegun.late_hours select id, 1, 0, {hour} - 1, {hour}, 5, 0 from totxegun.series where name = 'a'",
        hour = old / HOUR
    );
    server.ask(&late);
    let late = "select count(*) from totxegun.late";
    assert_eq!(server.ask(late), "1");
    let _held = server.hold(
        "begin; select from totxegun.series_totals join totxegun.series on id = series where name = 'b' for update of series_totals; \
         select from totxegun.metric_hours join totxegun.metrics on id = metric where name = 'b' for update of metric_hours; \
         select pg_sleep(60)",
    );
    let held =
        "select count(*) from pg_stat_activity where query like '%pg_sleep(60)' and pid <> pg_backend_pid()";
    until(&server, held, "1").await;
    let _sink = open_with(&address, Retention { hours: TWO_DAYS, ..Retention::default() });
    let deleted = format!("select count(*) from totxegun.hours where hour = {}", old / HOUR);
    until(&server, &deleted, "1").await;
    for view in ["by_hour", "totals_by_hour"] {
        assert_eq!(server.ask(&format!("select name, total from totxegun.{view}")), "a|8", "{view}");
    }
    assert_eq!(server.ask(late), "0");
}

/// Machines and senders shared the clock, so there are intervals of its time, and no right point comes after them.
#[tokio::test(flavor = "multi_thread")]
async fn a_clock_that_all_shared_and_was_ahead_keeps_out_nothing_that_comes() {
    let Some(server) = Server::start() else { return };
    let address = server.by_socket("postgres");
    let before = open(&address);
    let (far, soon) = ((now() / DAY + 4000) * DAY, (now() / DAY + 2) * DAY);
    taken(&*before, 1, sums(&[("a", now() - 10, now(), 1), ("a", far, far + 9, 2)])).await;
    drop(before);
    server.ask(&format!("update totxegun.horizon set hours_from = {}", far / HOUR - 48));
    let keep = Retention { intervals: TWO_DAYS, hours: TWO_DAYS };
    let sink = open_with(&address, keep);
    let next = "select hours_from - 1 = floor(extract(epoch from now()) / 3600) from totxegun.horizon";
    until(&server, next, "t").await;
    taken(&*sink, 2, sums(&[("b", soon, soon + 9, 4), ("b", soon + 9, soon + 20, 16)])).await;
    taken(&*sink, 3, sum("b", soon + 20, soon + 29, 8)).await;
    for (view, time) in [("by_hour", "hour"), ("by_day", "day")] {
        let found = server.ask(&format!("select total from totxegun.{view} order by {time}"));
        assert_eq!(found, "28\n2", "{view}");
    }
}
