//! The contents of the folder that is moved.

use super::MoveFault;
use crate::journal::Journal;
use crate::otlp::series::SeriesKey;
use crate::otlp::shard_of_series;
use crate::outbox::{Beginning, Outbox, Series};
use crate::storage::Folder;
use std::collections::HashMap;

pub struct Content {
    pub journal: Journal,
    pub outbox: Outbox,
    pub series: HashMap<SeriesKey, Series>,
}

impl Content {
    pub fn of_folder(folder: &Folder) -> Result<Content, MoveFault> {
        let (journal, outbox) = folder.shard()?;
        Ok(Content { series: outbox.series(), journal, outbox })
    }

    /// What one of the store's shards begins with. Waiting requests continue in the first shard.
    pub fn beginning(&self, number: u16, shards: u16) -> Beginning {
        let is_its = |key: &SeriesKey| shard_of_series(key, shards).unwrap_or(0) == number;
        let series = self.series.iter().filter(|(key, _)| is_its(key));
        Beginning {
            next: if number == 0 { self.outbox.first_number() } else { 1 },
            series: series.map(|(key, series)| (key.clone(), series.clone())).collect(),
            quarantined: self.outbox.quarantined(),
            beside: self.outbox.beside(),
            since: self.outbox.since(),
            forgotten: self.outbox.forgotten(),
        }
    }
}

#[cfg(test)]
mod tests {
    use super::*;
    use crate::runs::{Forgotten, Since};
    use crate::storage::Durability;

    /// Without these, a series that began earlier and first posts after the move would count only from its first point
    /// there; and a start after the move would let secondary units decide.
    #[test]
    fn each_shard_begins_with_what_holds_for_all_series() {
        let place = tempfile::tempdir().unwrap();
        let folder = Folder::open(place.path(), Durability::Process).unwrap();
        let mut forgotten = Forgotten::default();
        forgotten.note([([7; 32], 3), ([8; 32], 5)], &mut Since::default());
        let beside = [("m".to_string(), "ms".to_string())];
        let (next, series, quarantined) = (4, Vec::new(), ["s".to_string()].into());
        let since = Since { made: 40, forgotten: 9 };
        let (_, outbox) = folder.shard().unwrap();
        outbox
            .begin_with(Beginning {
                next,
                series,
                quarantined,
                beside: beside.clone().into(),
                since,
                forgotten,
            })
            .unwrap();
        drop(outbox);
        let content = Content::of_folder(&folder).unwrap();
        for shard in [0, 1] {
            let beginning = content.beginning(shard, 2);
            assert_eq!(beginning.next, if shard == 0 { 4 } else { 1 });
            assert_eq!((beginning.since, &beginning.quarantined), (since, &["s".to_string()].into()));
            assert_eq!(beginning.beside, beside.clone().into());
            assert_eq!([7, 8, 9].map(|one| beginning.forgotten.of(&[one; 32])), [3, 5, 0]);
        }
    }
}
