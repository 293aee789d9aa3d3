//! Several instances over one store: which instance owns which shard, and how a post reaches its owner.
//!
//! `owners` decides which shards to take and to hand over, from `places` and what heartbeats have read; `beats` is the
//! loop that carries this out; `terms` is the interface to the store and to this process's shards; `local_view` answers
//! the rest of the process. `forward` sends posts to other instances' shards and accepts posts for ours. `status` is
//! what is shown.
//!
//! Nothing here keeps two owners apart: only a shard's term in the store does (`store/postgres`).

pub mod forward;
pub mod heartbeats;
mod local_view;
pub mod owners;
pub mod placement;
pub mod status;
pub mod terms;

pub use forward::{Answers, Asks, Forward, Forwarded, Here, Internal, Secret, UnresponsivePeer};
pub use heartbeats::Heartbeats;
pub use local_view::Cluster;
pub use owners::{Refusal, ShardOwner};
pub use status::Status;

#[cfg(test)]
mod tests;
