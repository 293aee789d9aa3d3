//! Stores that several machines share: `postgres` keeps their shards, and `moving` fills a store from a folder.

pub mod moving;
pub mod postgres;
