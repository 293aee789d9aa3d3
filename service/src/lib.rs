//! The parts of `totxegun`: one program around its proved book.
//!
//! Senders post to `ingest`, or call `grpc`, which read their request by `otlp` and give it to the `shard`: the book (`book`)
//! with its `journal` and `outbox`, in `storage`. A `worker` fills the book at the start, and flushes it. What was flushed
//! is delivered to one of the `sink`. `quota` is what each sender may have, `post_reports` tells senders
//! and operators of posts that were not taken, `late` keeps points that their series refused.
//! `admin` is the admin address, `command` the command line, `service` all of it as one process, `log` what it says;
//! `latch` tells a part of it to stop, `work` is done beside the runtime, `postgres` connects.
//! A `store` has the files of shards that several machines share.

// What may be missing is handled; in a test these two are the check. `print!` and `eprint!` panic where nobody reads: see
// `command` and `log`.
// What may: `book/library`, which calls the proved book, and `ingest/zstd`, which calls libzstd.
#![deny(unsafe_code)]
#![cfg_attr(
    not(test),
    deny(clippy::unwrap_used, clippy::expect_used, clippy::print_stdout, clippy::print_stderr)
)]

pub mod admin;
pub mod book;
pub mod cluster;
pub mod command;
pub mod dead_letters;
pub mod grpc;
pub mod identity;
pub mod ingest;
pub mod journal;
pub mod latch;
pub mod late;
mod log;
pub mod metrics;
pub mod otlp;
pub mod outbox;
pub mod passthrough;
pub mod post_reports;
pub mod postgres;
pub mod quota;
pub mod reloaded;
pub mod runs;
pub mod service;
pub mod shard;
pub mod sink;
pub mod storage;
pub mod store;
pub mod tls;
mod work;
pub mod worker;

use log::complain;
