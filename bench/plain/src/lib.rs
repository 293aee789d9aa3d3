//! Gateways as one writes them in stock Rust, to be measured beside `gateway serve`: receivers as threads, httparse,
//! serde, a map of series under one lock. Nothing is proved; there is no journal, no undo of a flush and no audit: a
//! batch is read, added to its series and forgotten.
//!
//! Four programs share what is here:
//!
//!   - `plain` does the job with the least code. It refuses a body that has more than the job needs.
//!   - `plain-tree` is `plain`, but that a body is read into `serde_json`'s tree first, as the gateway reads it.
//!   - `plain-answers` gives each post the gateway's answer, byte for byte.
//!   - `plain-fast` is `plain`, tuned: borrowed texts, no memory for a point of a known series, a fast hash, LTO.
//!
//!     PROGRAM serve --backend ADDR --listen ADDR [--receivers N]

pub mod http;
pub mod least;
pub mod number;
pub mod output;
pub mod series;
pub mod serve;
pub mod simple;
