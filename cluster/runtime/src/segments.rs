//! What a host's messages tell of its server's log: which segments are freed, and which replicas are being made.

use sevunthi::Id;
use std::collections::{BTreeMap, BTreeSet};

/// Segments of the server's log, since that has begun.
#[derive(Debug, Default)]
pub struct Segments {
    freed: BTreeSet<u16>,
    /// Of each segment the indexes of the hosts that were asked to keep a replica, and have not answered.
    placed: BTreeMap<u16, BTreeSet<u8>>,
}

impl Segments {
    /// A backup is asked to keep a replica of this segment.
    pub fn placed(&mut self, id: Id, segment: u16) {
        self.placed.entry(segment).or_default().insert(id.index);
    }

    /// A backup has a replica of this segment.
    pub fn stored(&mut self, id: Id, segment: u16) {
        if let Some(backups) = self.placed.get_mut(&segment) {
            backups.remove(&id.index);
            if backups.is_empty() {
                self.placed.remove(&segment);
            }
        }
    }

    /// A segment is dead, and its replicas go.
    pub fn freed(&mut self, segment: u16) {
        self.freed.insert(segment);
        self.placed.remove(&segment);
    }

    /// How many segments are freed.
    pub fn freed_count(&self) -> usize {
        self.freed.len()
    }

    /// How many replicas were asked for, and are not there yet.
    pub fn missing(&self) -> usize {
        self.placed.values().map(BTreeSet::len).sum()
    }

    /// The server begins a new log.
    pub fn clear(&mut self) {
        *self = Segments::default();
    }
}

#[cfg(test)]
mod tests {
    use super::*;

    #[test]
    fn replicas_are_missing_until_they_are_told_of() {
        let [one, other] = [1, 2].map(|index| Id { index, generation: 1 });
        let mut segments = Segments::default();
        for segment in 1..4 {
            segments.placed(one, segment);
            segments.placed(other, segment);
        }
        segments.placed(one, 1);
        assert_eq!(segments.missing(), 6);
        segments.stored(one, 1);
        segments.stored(one, 1);
        segments.stored(other, 1);
        segments.freed(2);
        segments.freed(2);
        assert_eq!((segments.missing(), segments.freed_count()), (2, 1));
        segments.clear();
        assert_eq!((segments.missing(), segments.freed_count()), (0, 0));
    }
}
