//! Why something is not taken: points of a request that is taken, or a whole request. Answers, logs, metrics, the page and
//! `explain` have labels, texts, advice and statuses from here; what is behind a text's beginning is for people alone, and
//! nothing reads it.

use serde::{Deserialize, Serialize};

/// How a sender is told.
enum Disclosure {
    /// The request is taken but for so many of these: one, and several.
    Points([&'static str; 2]),
    /// All of the request is refused: the status of HTTP, and what the text begins with.
    Request(u16, &'static str),
}

use Disclosure::{Points, Request};

/// A reason has a row: what it is where its name does not say so, its label, how a sender is told, and what is to be done.
macro_rules! reasons {
    ($($(#[$about:meta])* $reason:ident $label:literal $told:expr, $advice:literal;)*) => {
        #[derive(Clone, Copy, Debug, PartialEq, Eq, PartialOrd, Ord, Hash, Deserialize, Serialize)]
        pub enum Reason {
            $($(#[$about])* #[serde(rename = $label)] $reason,)*
        }

        impl Reason {
            pub const ALL: &'static [Reason] = &[$(Reason::$reason),*];

            fn row(self) -> (&'static str, Disclosure, &'static str) {
                match self {
                    $(Reason::$reason => ($label, $told, $advice),)*
                }
            }
        }
    };
}

reasons! {
    Gauge "gauge" Points(["gauge", "gauges"]),
        "these are not added up: hand them on by --forward-unsupported, or name them by --expect-rejected";
    Summary "summary" Points(["summary", "summaries"]),
        "these are not added up: hand them on by --forward-unsupported, or name them by --expect-rejected";
    ExponentialHistogram "exponential_histogram" Points(["exponential histogram", "exponential histograms"]),
        "serve with --exponential and bounds that are edges of their buckets, as powers of two are; or send them elsewhere";
    /// Of a sum that only goes up.
    CumulativeSum "cumulative_sum" Points(["cumulative sum", "cumulative sums"]),
        "set the sender's temporality preference to delta";
    CumulativeHistogram "cumulative_histogram" Points(["cumulative histogram", "cumulative histograms"]),
        "set the sender's temporality preference to delta";
    /// A cumulative sum that may go down.
    UpDownCounter "up_down_counter" Points(["UpDownCounter", "UpDownCounters"]),
        "these are cumulative also with the preference delta: use two Counters, or name them by --expect-rejected";
    /// A number that no rule of `--integer-unit` takes.
    Double "double" Points(["double", "doubles"]),
        "use an instrument of whole numbers (Go's Int64Counter, Java's LongCounter, JavaScript's ValueType.INT, Python's int, \
         .NET's Counter<long>, Rust's u64_counter), or serve with --integer-unit";
    /// A histogram with a bound or a sum that is not whole.
    Fraction "fraction" Points(["histogram with a fraction", "histograms with fractions"]),
        "use whole values and bounds (Go's Int64Histogram, Java's ofLongs(), Rust's u64_histogram), or serve with --integer-unit";
    /// Its own, its scope's or its resource's are not those of a series.
    Attribute "attribute" Points(["point with bad attributes", "points with bad attributes"]),
        "use texts, whole numbers, truths and lists of them, each key once, or --drop-attribute";
    /// It has no start, or no end after it.
    Span "span" Points(["point without a span", "points without a span"]),
        "each point has to say where it starts, and end after it";
    NoValue "no_value" Points(["point without a value", "points without a value"]),
        "`totxegun explain FILE` says of each point of a captured body why";
    /// It ends later than `--max-ahead` lets it.
    ClockAhead "clock_ahead" Points(["point ahead of time", "points ahead of time"]),
        "set the sender's clock, by NTP; or the service's, where that is wrong; or give a greater --max-ahead";
    /// It ended earlier than `--max-age` lets it.
    ClockBehind "clock_behind" Points(["point that is too old", "points that are too old"]),
        "set the sender's clock, by NTP, or give a greater --max-age";
    /// Of a cumulative run that began before the last point of another.
    EarlierRun "earlier_run"
        Points(["point of a run that began before the last point of another", "points of runs that began before the last point of another"]),
        "two processes send the same series, or two instruments of one name: give each its own service.instance.id, or name";
    /// Cumulative, and less than it was.
    WentDown "went_down" Points(["cumulative point that went down", "cumulative points that went down"]),
        "a counter may not go down while its start stays: mend the sender, or serve with --reset count";
    /// Cumulative, of a series that has delta points.
    Mixed "mixed" Points(["cumulative point of a series with delta points", "cumulative points of series with delta points"]),
        "send a series with one temporality: it goes on once its sender starts anew, or after totxegun forget SERIES";
    /// More came to a cumulative sum than a point may have.
    Leap "leap" Points(["cumulative sum that leapt too far", "cumulative sums that leapt too far"]),
        "a sum may change by 2^63-1 between two points";
    /// Cumulative, and from before series were forgotten.
    Forgotten "forgotten"
        Points(["cumulative point from before series were forgotten", "cumulative points from before series were forgotten"]),
        "it may have been counted: see --series-ttl";
    Other "other" Points(["point of another form", "points of another form"]),
        "`totxegun explain FILE` says of each point of a captured body why";

    OutOfOrder "duplicate_or_late" Request(400, "duplicate or late"),
        "it begins before its series ends, and is no repeat of what the last two posts had: the sender's clock was set back, it sends a series twice, or what is old comes after what is newer";
    OtherWriter "other_writer" Request(400, "other writer"),
        "OTEL_RESOURCE_ATTRIBUTES=service.instance.id=NAME, another name for each process; or, if only the sender's name has changed, totxegun senders rename OLD NEW";
    Quarantined "quarantined" Request(403, "quarantined"), "totxegun release NAME once the sender is repaired";
    WrongShape "wrong_shape" Request(400, "wrong shape"),
        "the sender writes what is no OTLP: totxegun explain FILE on a captured body";
    NotJson "not_json" Request(400, "not JSON"), "the sender writes what is no JSON, or names protobuf as JSON";
    Unreadable "unreadable" Request(400, "unreadable"),
        "the text says what can't be read: totxegun explain FILE on a captured body";
    BadSender "bad_sender" Request(400, "bad sender"), "OTEL_EXPORTER_OTLP_METRICS_HEADERS=x-sender=NAME, one name";
    NoSender "no_sender" Request(400, "no sender"),
        "give the resource the attribute of --sender-from, or the post an x-sender";
    NoToken "no_token" Request(401, "no token"),
        "OTEL_EXPORTER_OTLP_METRICS_HEADERS=Authorization=Bearer%20TOKEN, one token";
    UnknownToken "unknown_token" Request(401, "the token is not known"),
        "totxegun token NAME makes one: give it to the sender, and its line to the file of --tokens";
    CertificateNotBelieved "certificate_not_believed" Request(401, "the certificate has expired or is no longer trusted"),
        "renew the sender's certificate, or put its root into the file of --client-ca";
    CertificateWithoutName "certificate_without_name" Request(401, "the certificate has no name"),
        "make the sender's certificate anew, with a DNS name in its subjectAltName";
    /// The text begins with the name of who posts.
    OtherName "other_name" Request(403, "another's name"),
        "the sender leaves x-sender out, or a line NAME/OTHER of --tokens allows it";
    OtherHost "other_host" Request(403, "another host"),
        "a web page, by a name that it made to mean this machine; or senders name it otherwise: --allowed-hosts NAME";
    NoSuchPath "no_such_path" Request(404, "no such path"),
        "OTEL_EXPORTER_OTLP_METRICS_ENDPOINT=http://HOST:PORT/v1/metrics";
    /// Of gRPC.
    NoSuchMethod "no_such_method" Request(404, "no such method"), "MetricsService/Export is all that is called here";
    WrongMethod "wrong_method" Request(405, "wrong method"), "metrics are posted";
    ContentType "content_type" Request(415, "unsupported Content-Type"),
        "set the exporter's protocol to http/protobuf or http/json";
    ContentEncoding "content_encoding" Request(415, "unsupported Content-Encoding"),
        "set the exporter's compression to gzip, zstd or none";
    NoLength "no_length" Request(411, "no length of the body"), "the sender gives neither Content-Length nor chunks";
    MalformedRequest "malformed_request" Request(400, "malformed request"),
        "what came is no request of HTTP, or of gRPC";
    HeadTooLong "head_too_long" Request(431, "head too long"), "the sender has too many headers";
    BadCompression "bad_compression" Request(400, "bad compression"), "the sender packs otherwise than it says";
    BodyTooLong "body_too_long" Request(413, "body too long"),
        "have the sender post fewer points at a time (a Collector: send_batch_max_size)";
    TooManyHours "too_many_hours" Request(413, "too many hours in a post"),
        "have the sender post fewer points at a time, or serve with --split-at day";
    TooLongSeries "too_long_series" Request(413, "too long series in a post"),
        "have the sender post fewer series at a time, or drop long attributes (--drop-attribute)";
    /// By itself, whatever the book has.
    PostOfTooManySeries "post_of_too_many_series" Request(413, "too many series in a post"),
        "have the sender post fewer series at a time";
    PostTooLarge "post_too_large" Request(413, "too large: a post's points of one series"),
        "have the sender post fewer points at a time";
    /// As the status of a gateway that waited too long.
    Deadline "deadline" Request(504, "the deadline has passed"), "give the exporter a longer timeout";
    /// Senders of OTLP repeat 503, and drop what is 408.
    TooSlow "too_slow" Request(503, "the request did not arrive in time"), "the network or the sender is slow";
    /// Its connection ended, or its call was given up, within a body.
    GoneAway "gone_away" Request(503, "the sender has gone away"),
        "nothing is lost: a sender repeats what it gave up. If this stays, its timeout is short, or the network breaks off";
    TooManyBytes "too_many_bytes" Request(503, "too many bytes in flight"), "raise --max-bytes, if this stays";
    Recovering "recovering" Request(503, "recovering"), "a start is putting in what the journal has: wait";
    /// Until there is a new start nothing is taken.
    Unfilled "unfilled" Request(503, "no memory: the book does not take what the journal has"), "raise --max-memory";
    Stopping "stopping" Request(503, "stopping"), "the service ends";
    NoOwner "no_owner" Request(503, "no instance has the shard of this post"),
        "wait: another instance takes it over; if this stays, look at the log of each instance";
    /// Of an instance that takes no shards: those of others it brings posts to.
    ClockOff "clock_off" Request(503, "the clock of this instance is wrong"), "set it by NTP: it has no shards until it is right";
    /// Nothing of the post was taken.
    OwnerChanges "owner_changes" Request(503, "the shard of this post is being moved"),
        "this ends by itself once another instance has it";
    /// The post may have been taken.
    OwnerSilent "owner_silent" Request(503, "the instance that has the shard of this post has given no answer"),
        "wait: it answers again, or another takes its shards; if this stays, look at its log, and the network to its --peer";
    /// What is kept free of the disk is all that is left of it.
    NoRoom "no_room" Request(503, "no room for the journal"), "make room on the disk";
    DiskSilent "disk_silent" Request(503, "the disk does not answer"),
        "look at the disk, its controller or its network (dmesg)";
    /// A store has the shard's files.
    StoreSilent "store_silent" Request(503, "the store does not answer"),
        "look at the store's server, its standby and the network";
    /// A write would be on fewer servers than `--store-copies` asks for.
    FewCopies "few_copies" Request(503, "the store has too few copies"),
        "name its standby in synchronous_standby_names; with --store-copies 1 one server is enough, and what it had is lost with it";
    /// Another instance has the shard, or will have it in a moment.
    ShardMoves "shard_moves" Request(503, "this shard is being moved"), "this ends by itself once another instance has it";
    TooManySeries "too_many_series" Request(503, "too many series"),
        "shorten --series-ttl, drop an attribute, or raise --max-series";
    TooLarge "too_large" Request(503, "too large"), "this ends by itself once what is pending is written";
    NoMemory "no_memory" Request(503, "no memory"), "raise --max-memory";
    OverQuota "over_quota" Request(429, "over its quota"),
        "raise its series= or points= in the file of --tokens, --sender-series or --sender-points; or have it send less";
    PostOverQuota "post_over_quota" Request(413, "over its quota"),
        "raise its series= in the file of --tokens, or --sender-series; or have it post fewer series at a time";
    Full "full" Request(503, "full"), "this ends by itself once what is being flushed is written";
    /// Of an order.
    AlreadyQuarantined "already_quarantined" Request(400, "already quarantined"), "this is as it was asked for";
    /// The same.
    NotQuarantined "not_quarantined" Request(400, "not quarantined"), "this is as it was asked for";
    /// A part of a request has no answer, or the book did what it never does.
    Fault "fault" Request(503, "no answer"), "a fault of the program: report it (SECURITY.md)";
}

impl Reason {
    /// As metrics and options have it.
    pub fn label(self) -> &'static str {
        self.row().0
    }

    pub fn labelled(label: &str) -> Option<Reason> {
        Reason::ALL.iter().copied().find(|reason| reason.label() == label)
    }

    /// Those of points.
    pub fn of_points() -> impl Iterator<Item = Reason> {
        Reason::ALL.iter().copied().filter(|reason| matches!(reason.row().1, Points(_)))
    }

    /// What a text of it begins with, or one such point is called.
    pub fn text(self) -> &'static str {
        match self.row().1 {
            Points([one, _]) => one,
            Request(_, text) => text,
        }
    }

    /// What so many of them are called.
    pub(super) fn noun(self, points: u64) -> &'static str {
        match self.row().1 {
            Points([_, many]) if points != 1 => many,
            _ => self.text(),
        }
    }

    /// What is to be done.
    pub fn advice(self) -> &'static str {
        self.row().2
    }

    /// The status of HTTP.
    pub fn status(self) -> u16 {
        match self.row().1 {
            Points(_) => 200,
            Request(status, _) => status,
        }
    }

    /// The `google.rpc.Code` in a body over HTTP, so that a sender that goes by it does what the status says.
    pub fn code(self) -> i32 {
        match self.status() {
            413 => 3, // RESOURCE_EXHAUSTED would ask for the same again
            404 => 5, // NOT_FOUND
            415 => 3,
            _ => self.grpc_status(),
        }
    }

    /// What a call of gRPC ends with, so that a sender does the same by either.
    pub fn grpc_status(self) -> i32 {
        match self.status() {
            200 => 0,
            400 | 411 | 431 => 3,  // INVALID_ARGUMENT
            401 => 16,             // UNAUTHENTICATED
            403 => 7,              // PERMISSION_DENIED
            404 | 405 | 415 => 12, // UNIMPLEMENTED: another method, another encoding
            504 => 4,              // DEADLINE_EXCEEDED
            413 | 429 => 8,        // RESOURCE_EXHAUSTED; without RetryInfo it is not tried again
            503 => 14,             // UNAVAILABLE
            _ => 2,                // UNKNOWN
        }
    }

    /// Whether the same may be taken later.
    pub fn is_repeated(self) -> bool {
        matches!(self.status(), 429 | 503)
    }

    /// Whether such points are handed on where there is somebody who takes them: nothing is wrong with them.
    pub(super) fn is_passed(self) -> bool {
        matches!(
            self,
            Reason::Gauge
                | Reason::Summary
                | Reason::ExponentialHistogram
                | Reason::CumulativeSum
                | Reason::CumulativeHistogram
                | Reason::UpDownCounter
                | Reason::Double
                | Reason::Fraction
        )
    }
}
