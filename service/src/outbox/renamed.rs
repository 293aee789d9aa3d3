//! A sender gets another name: its series get another owner, and the sink is told so, in one group.

use super::changes::{Group, SenderRename};
use super::keys::Keys;
use super::rows;
use super::table::Heard;
use super::Outbox;
use crate::otlp::series::SeriesKey;
use crate::storage::{seconds, Fault};
use crate::work::locked;

impl Outbox {
    /// Gives the series of one sender to another one, and returns how many they are. The group also has the requests that tell the
    /// sink so. It is durable when this returns, with a shard store once it is settled; and all of it is, or nothing.
    pub fn rename_sender(
        &self,
        renamed: &SenderRename,
        requests: impl FnOnce(&[SeriesKey]) -> Vec<Vec<u8>>,
    ) -> Result<u64, Fault> {
        let is_owned = |owner: Option<&str>| owner == Some(&*renamed.from);
        let series = self.each_of(|series| is_owned(series.owner.as_deref()), |key, _| key);
        if series.is_empty() {
            return Ok(0);
        }
        let packed: Vec<Vec<u8>> = requests(&series).iter().map(|body| rows::deflated(body)).collect();
        let mut writer = locked(&self.writer);
        let group = {
            let state = locked(&self.state);
            Group {
                first: state.facts.next,
                epoch: state.facts.epoch.clone(),
                since: seconds(),
                heard: Heard::now(),
                journal: state.facts.journal,
                ends: Vec::new(),
                new: Keys::default(),
                owners: Vec::new(),
                recent: Vec::new(),
                renamed: Some(renamed.clone()),
            }
        };
        self.put_group(&mut writer, group, &packed)?;
        self.arrived.notify_one();
        Ok(series.len() as u64)
    }
}
