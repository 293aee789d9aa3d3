//! Tests which paths there are, who may use each over TCP, and how paths are decoded.

use super::*;

/// Orders, and routes that show bodies, need the socket or a token.
#[test]
fn each_path_has_one_method() {
    let (read, order, local) = (TcpAccess::All, TcpAccess::Operators, TcpAccess::Nobody);
    for (path, method, over_tcp) in [
        ("/flush", Method::POST, order),
        ("/quarantine/A", Method::POST, order),
        ("/release/A", Method::POST, order),
        ("/senders/A/rename/B", Method::POST, order),
        ("/report", Method::GET, local),
        ("/metrics", Method::GET, read),
        ("/totals", Method::GET, read),
        ("/healthz", Method::GET, read),
        ("/readyz", Method::GET, read),
        ("/startupz", Method::GET, read),
        ("/status", Method::GET, read),
        ("/dead-letters", Method::GET, order),
        ("/late", Method::GET, order),
        ("/late/2026-11", Method::GET, order),
        ("/dead-letters/0-a-1", Method::GET, order),
        ("/dead-letters/0-a-1/resend", Method::POST, order),
        ("/dead-letters/0-a-1/drop", Method::POST, order),
        ("/close/2026-11", Method::POST, order),
        ("/reopen/2026-11", Method::POST, order),
        (ADJUSTMENTS, Method::POST, order),
        ("/rewind/2026-11-05T13", Method::POST, order),
        ("/forget", Method::POST, order),
        ("/", Method::GET, read),
        ("/series", Method::GET, read),
        ("/page.css", Method::GET, read),
        ("/page.js", Method::GET, read),
    ] {
        let found = Route::of(path).map(|(method, route)| (method, route.over_tcp()));
        assert_eq!(found, Some((method, over_tcp)), "{path}");
    }
}

#[test]
fn a_path_may_be_percent_encoded() {
    let part = |path| match Route::of(path).unwrap().1 {
        Route::Close(part) | Route::Open(part) | Route::Amend(Some(part)) | Route::DeadLetter(_, part) => {
            part
        }
        Route::Order(Command::Quarantine(part) | Command::Release(part)) => part,
        _ => String::new(),
    };
    assert_eq!(part("/rewind/2026-11-05T13%3A30%3A15"), "2026-11-05T13:30:15");
    assert_eq!(part("/close/2026-11-05%2013:00"), "2026-11-05 13:00");
    for path in [
        "/quarantine/shop%2D1",
        "/release/shop%2d1",
        "/dead-letters/shop%2D1",
        "/dead-letters/shop%2D1/resend",
        "/dead-letters/shop%2D1/drop",
    ] {
        assert_eq!(part(path), "shop-1", "{path}");
    }
}

#[test]
fn a_period_is_of_the_zone_that_is_asked_for() {
    let of = |text, query| periods::period_of(text, Query(query));
    assert_eq!(of("2026-11", "flush").unwrap().to_string(), "2026-11");
    let berlin = of("2026-11", "time-zone=Europe%2FBerlin&flush").unwrap();
    assert_eq!((berlin.to_string().as_str(), berlin.from), ("2026-11 Europe/Berlin", 498_191));
    for (text, query, part) in [
        ("2026-11", "time-zone=Asia/Kolkata", "whole hours"),
        ("2026-11-05T13", "time-zone=Europe/Berlin", "hours are of UTC"),
        ("2026-11", "time-zone=", "is no time zone"),
        ("november", "time-zone=Europe/Berlin", "no period"),
    ] {
        let why = of(text, query).unwrap_err();
        assert!(why.contains(part), "{why}");
    }
}

#[test]
fn nothing_else_is_a_path() {
    for path in [
        "",
        "//",
        "/v1/metrics",
        "/flush/",
        "/checkpoint",
        "/health",
        "/ready",
        "/renew",
        "/quarantine",
        "/senders/A/rename",
        "/close",
        "/close/2026-11/05",
        "/rewind",
        "/quarantine/A/B",
        "/dead-letters/0-a-1/send",
        "flush",
    ] {
        assert!(Route::of(path).is_none(), "{path}");
    }
}
