//! What a delivery needs of its shard's files: the outbox and the dead letters.

use crate::dead_letters::DeadLetters;
use crate::outbox::Waiting;
use crate::outbox::{Epochs, Outbox};
use crate::storage::{Fault, Fenced, Tenure};
use crate::work::blocking;
use std::sync::Arc;

/// The files, as a delivery needs them; tests replace them.
pub(super) trait Store: Sync {
    fn epoch(&self) -> String;
    /// What identifies us as the owner of the shard; none for a folder.
    fn tenure(&self) -> Option<Tenure> {
        None
    }
    /// The epochs of waiting and future requests.
    fn epochs(&self) -> Epochs;
    async fn first(&self) -> Result<(Waiting, Vec<u8>), Fault>;
    /// Returns when the request may be sent: it is durable, and we own the shard.
    async fn may_deliver(&self, number: u64) -> Result<(), Fault>;
    /// The waiting requests after the first, with their numbers, up to `most` requests and `bytes` bytes.
    async fn behind_first(&self, most: usize, bytes: usize) -> Vec<(u64, Vec<u8>)>;
    async fn fenced(&self) -> Fenced;
    async fn acknowledge(&self, number: u64) -> Result<(), Fault>;
    /// Keeps a dead letter durably; false if the disk has no room for it.
    async fn keep(&self, key: String, reason: String, body: Vec<u8>) -> Result<bool, Fault>;
    /// The sink has this request, which an earlier run may have kept before it was killed: removes that letter.
    async fn let_go(&self, key: String, body: Vec<u8>) -> Result<(), Fault>;
}

pub(super) struct Files {
    pub(super) outbox: Arc<Outbox>,
    pub(super) dead: Arc<DeadLetters>,
}

impl Store for Files {
    fn epoch(&self) -> String {
        self.outbox.epoch()
    }

    fn tenure(&self) -> Option<Tenure> {
        self.outbox.tenure()
    }

    fn epochs(&self) -> Epochs {
        self.outbox.epochs()
    }

    async fn first(&self) -> Result<(Waiting, Vec<u8>), Fault> {
        self.outbox.first().await
    }

    async fn may_deliver(&self, number: u64) -> Result<(), Fault> {
        // Checked again after each settle: its answer may have been long on its way, and another instance may own the
        // shard by now.
        while !self.outbox.may_deliver(number) {
            let outbox = self.outbox.clone();
            blocking(move || outbox.sync()).await?;
        }
        Ok(())
    }

    async fn behind_first(&self, most: usize, bytes: usize) -> Vec<(u64, Vec<u8>)> {
        self.outbox.behind_first(most, bytes).await
    }

    async fn fenced(&self) -> Fenced {
        self.outbox.fenced().await
    }

    async fn acknowledge(&self, number: u64) -> Result<(), Fault> {
        let outbox = self.outbox.clone();
        blocking(move || outbox.acknowledge(number)).await
    }

    async fn keep(&self, key: String, reason: String, body: Vec<u8>) -> Result<bool, Fault> {
        let dead = self.dead.clone();
        blocking(move || dead.keep_in_room(&key, &reason, &body)).await
    }

    async fn let_go(&self, key: String, body: Vec<u8>) -> Result<(), Fault> {
        if self.dead.count() == 0 {
            return Ok(());
        }
        let dead = self.dead.clone();
        blocking(move || dead.let_go(&key, &body)).await
    }
}
