//! Tests the senders' address by a client that writes bytes: what is passed on to a shard, what is answered, and in
//! which encoding.

mod certificates;
mod connections;
mod limits;
mod names;
mod posts;
mod support;
mod tls;
