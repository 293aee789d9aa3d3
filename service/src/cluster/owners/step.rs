//! What an instance does with a shard, and who serves it.

/// A step for a shard.
#[derive(Clone, Copy, Debug, PartialEq, Eq)]
pub struct Step {
    pub act: ShardAction,
    pub shard: u16,
    /// The term under which we own it, or which was seen.
    pub term: u64,
}

#[derive(Clone, Copy, Debug, PartialEq, Eq)]
pub enum ShardAction {
    /// Take the shard if it still has this term, and open it.
    Take,
    /// It belongs to another instance: close it and release it.
    HandOver,
    /// It has this instance's name, but is not open here and belongs elsewhere.
    Release,
    /// Another instance owns it.
    Drop,
}

/// The instance that serves a shard.
#[derive(Clone, Debug, PartialEq, Eq)]
pub enum ShardOwner {
    Here {
        term: u64,
    },
    There {
        name: String,
        address: String,
        term: u64,
    },
    /// No instance serves it now, or it is not known where.
    Nobody,
}
