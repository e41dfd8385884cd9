//! How long backups take to answer: one that stays slow while another is fast keeps all writes waiting. Where all are
//! slow nobody is blamed.

use sevunthi::Id;
use std::time::Duration;

/// An answer that takes so long is slow, and one that takes no longer than this is fast.
const SLOW: Duration = Duration::from_millis(200);
const FAST: Duration = Duration::from_millis(50);

/// What was asked and not answered for so long is not measured: it was lost, or nobody answers.
const LOST: Duration = Duration::from_secs(5);

/// One entry that a backup was asked to keep.
#[derive(Clone, Copy, Debug)]
struct Asked {
    segment: u16,
    offset: u64,
    at: Duration,
}

/// A backup, with one of what it was asked for, how long it took last, and since when each answer was slow.
#[derive(Debug)]
struct Backup {
    id: Id,
    asked: Option<Asked>,
    took: Option<Duration>,
    answered: Duration,
    slow_since: Option<Duration>,
}

/// How fast each backup is. All times are those of the host's own [`Awake`](crate::awake::Awake).
#[derive(Debug, Default)]
pub struct Pace {
    backups: Vec<Backup>,
}

impl Pace {
    /// A backup is asked to keep an entry at this place.
    pub fn asked(&mut self, id: Id, segment: u16, offset: u64, now: Duration) {
        let asked = Asked { segment, offset, at: now };
        match self.backups.iter_mut().find(|backup| backup.id == id) {
            Some(backup) => {
                let is_new = backup.asked.is_none_or(|asked| LOST < now - asked.at);
                if is_new {
                    backup.asked = Some(asked);
                }
            }
            None => {
                let backup = Backup { id, asked: Some(asked), took: None, answered: now, slow_since: None };
                self.backups.push(backup);
            }
        }
    }

    /// A backup has so many entries of a segment. Says that it has become slow, if it has.
    pub fn stored(&mut self, id: Id, segment: u16, length: u64, now: Duration) -> Option<Duration> {
        let backup = self.backups.iter_mut().find(|backup| backup.id == id)?;
        let asked = backup.asked.filter(|asked| asked.segment == segment && asked.offset < length)?;
        let took = now - asked.at;
        (backup.asked, backup.took, backup.answered) = (None, Some(took), now);
        if took < SLOW {
            backup.slow_since = None;
            return None;
        }
        let is_new = backup.slow_since.is_none();
        backup.slow_since.get_or_insert(asked.at);
        is_new.then_some(took)
    }

    /// How long each backup took last that has answered lately, and for how long it has been slow.
    pub fn lately(&self, now: Duration) -> impl Iterator<Item = (Id, Duration, Duration)> {
        self.backups.iter().filter(move |backup| now - backup.answered < 2 * LOST).filter_map(move |backup| {
            let slow = backup.slow_since.map_or(Duration::ZERO, |since| now - since);
            Some((backup.id, backup.took?, slow))
        })
    }

    /// Those that have been slow for so long, while another was fast.
    pub fn slow_for(&self, least: Duration, now: Duration) -> Vec<Id> {
        if !self.lately(now).any(|(_, took, _)| took <= FAST) {
            return Vec::new();
        }
        self.lately(now).filter(|(.., slow)| least <= *slow).map(|(id, ..)| id).collect()
    }

    /// The server begins anew, and has asked nobody.
    pub fn clear(&mut self) {
        self.backups.clear();
    }
}

#[cfg(test)]
mod tests {
    use super::*;

    #[test]
    fn who_stays_slow_while_another_is_fast_is_found() {
        let at = Duration::from_millis;
        let [slow, fast] = [1, 2].map(|index| Id { index, generation: 1 });
        let mut pace = Pace::default();
        let mut became_slow = 0;
        for turn in 0..40 {
            let (began, offset) = (turn * 1000, turn);
            for id in [slow, fast] {
                pace.asked(id, 3, offset, at(began));
                // what follows at once is not measured, and an earlier answer is none to it
                pace.asked(id, 3, offset + 1, at(began + 5));
                assert_eq!(pace.stored(id, 3, offset, at(began + 6)), None);
            }
            assert_eq!(pace.stored(fast, 3, offset + 2, at(began + 9)), None);
            became_slow += u64::from(pace.stored(slow, 3, offset + 1, at(began + 300)).is_some());
        }
        assert_eq!(became_slow, 1);
        let now = at(39_300);
        assert_eq!(pace.lately(now).collect::<Vec<_>>(), [(slow, at(300), now), (fast, at(9), at(0))]);
        assert_eq!(pace.slow_for(at(30_000), now), [slow]);
        assert_eq!(pace.slow_for(at(40_000), now), []);
        pace.asked(slow, 4, 0, at(40_000));
        assert_eq!(pace.stored(slow, 4, 1, at(40_010)), None);
        assert_eq!(pace.slow_for(at(1), at(40_010)), []);
    }

    #[test]
    fn where_all_are_slow_nobody_is_blamed() {
        let at = Duration::from_secs;
        let mut pace = Pace::default();
        for second in 0..60 {
            for index in 1..4 {
                let id = Id { index, generation: 1 };
                pace.asked(id, 1, second, at(second));
                pace.stored(id, 1, second + 1, at(second + 1));
            }
        }
        assert_eq!(pace.slow_for(at(30), at(60)), []);
        assert_eq!(pace.lately(at(60)).filter(|(.., slow)| at(30) < *slow).count(), 3);
    }
}
