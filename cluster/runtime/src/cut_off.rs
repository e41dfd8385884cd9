//! Servers that the coordinator hears, and that do not hear each other.

use sevunthi::Id;
use std::collections::BTreeMap;
use std::time::Duration;

/// For so many times of silence a host that was cut off from another is left out, where it is not needed: if it began
/// anew at once, the other would choose it again, and wait for it again.
const LEFT_OUT: u32 = 10;

/// What the coordinator sees. All times are those in which it was awake.
#[derive(Debug)]
pub struct Sight {
    /// Who is up.
    pub up: Vec<Id>,
    /// Who is not silent, and how long ago it was heard.
    pub heard: Vec<(Id, Duration)>,
    /// Who owns something.
    pub owners: Vec<Id>,
    /// Something is being recovered.
    pub is_recovering: bool,
    /// How many replicas a segment has.
    pub factor: usize,
    /// For how long one waits.
    pub silence: Duration,
    /// The present time.
    pub now: Duration,
}

impl Sight {
    /// Whether the server is up, and was heard no longer ago than this.
    fn lives(&self, id: &Id, longest: Duration) -> bool {
        self.up.contains(id) && self.heard.iter().any(|(other, ago)| other == id && *ago <= longest)
    }

    /// How many hosts have to be let in, so that each segment finds its backups.
    fn needed(&self) -> usize {
        (self.factor + 1).saturating_sub(self.up.len())
    }
}

/// A suspicion that came of a wait.
#[derive(Debug)]
struct Suspicion {
    when: Duration,
    /// The host that waited, where another one was suspected.
    waiter: Option<u8>,
}

/// Who waits for whom, and which hosts are left out.
#[derive(Debug, Default)]
pub struct CutOff {
    /// Of each host its newest server that was heard, and whom it waits for.
    waiting: BTreeMap<u8, (Id, Vec<Id>)>,
    /// Of each host the last suspicion.
    suspected: BTreeMap<u8, Suspicion>,
    /// Since when more hosts are needed than are up, or something is being recovered.
    lacking: Option<Duration>,
}

impl CutOff {
    /// A server has told whom it waits for.
    pub fn hear(&mut self, id: Id, waits: Vec<Id>) {
        if self.waiting.get(&id.index).is_none_or(|(other, _)| other.generation <= id.generation) {
            self.waiting.insert(id.index, (id, waits));
        }
    }

    /// Whom to suspect beside the silent ones. A server that owns something gets rid of the one that it waits for; but
    /// if it waits for several, or that did not help it not long ago, it is suspected itself. So is one that owns
    /// nothing, if the others can do without it, or a recovery may wait for it.
    pub fn suspects(&mut self, sight: &Sight, silent: &[Id]) -> Vec<Id> {
        let mut suspects = Vec::new();
        for (id, waits) in self.waiting.values().filter(|(id, _)| sight.lives(id, sight.silence)) {
            // (one that stands still is not cut off: it is silent soon)
            let waits: Vec<Id> = waits.iter().copied().filter(|other| sight.lives(other, sight.silence / 3)).collect();
            if waits.iter().chain([id]).any(|id| silent.contains(id) || suspects.iter().any(|(other, _)| other == id)) {
                continue;
            }
            let is_spare = sight.is_recovering || sight.factor + 1 < sight.up.len();
            match (&waits[..], sight.owners.contains(id)) {
                ([], _) => {}
                ([other], true) if !self.was_helped(id.index, sight) => suspects.push((*other, Some(id.index))),
                (_, owns) if owns || is_spare => suspects.push((*id, None)),
                _ => {}
            }
        }
        let now = sight.now;
        self.suspected.extend(suspects.iter().map(|(id, waiter)| (id.index, Suspicion { when: now, waiter: *waiter })));
        suspects.into_iter().map(|(id, _)| id).collect()
    }

    /// Whether another was suspected because this host waited for it, not long ago.
    fn was_helped(&self, index: u8, sight: &Sight) -> bool {
        let mut suspicions = self.suspected.values();
        suspicions.any(|one| one.waiter == Some(index) && sight.now - one.when < LEFT_OUT * sight.silence)
    }

    /// The hosts that are left out: those that were suspected so not long ago, and are not needed. Of those that are
    /// needed the first that was suspected is let in. Where too few come, or a recovery takes long, all are.
    pub fn left_out(&mut self, sight: &Sight) -> Vec<u8> {
        let mut needed = sight.needed();
        let lacks = sight.is_recovering || 0 < needed;
        self.lacking = self.lacking.filter(|_| lacks).or(lacks.then_some(sight.now));
        if self.lacking.is_some_and(|since| sight.silence <= sight.now - since) {
            return Vec::new();
        }
        let is_up = |index| sight.up.iter().any(|id| id.index == index);
        let is_heard = |index| sight.heard.iter().any(|(id, _)| id.index == index);
        let mut hosts: Vec<(Duration, u8)> = self.suspected.iter().map(|(index, one)| (one.when, *index)).collect();
        hosts.retain(|&(when, index)| !is_up(index) && sight.now - when < LEFT_OUT * sight.silence);
        hosts.sort_unstable();
        hosts.retain(|&(_, index)| {
            let is_let_in = 0 < needed && is_heard(index);
            needed -= usize::from(is_let_in);
            !is_let_in
        });
        hosts.into_iter().map(|(_, index)| index).collect()
    }
}

#[cfg(test)]
mod tests {
    use super::*;

    fn ids<const N: usize>(indexes: [u8; N]) -> Vec<Id> {
        indexes.into_iter().map(|index| Id { index, generation: 1 }).collect()
    }

    /// What is seen at this time: who is up, and who owns something. All four hosts were heard just now.
    fn seen<const N: usize, const M: usize>(up: [u8; N], owners: [u8; M], seconds: u64) -> Sight {
        Sight {
            up: ids(up),
            heard: ids([0, 1, 2, 3]).into_iter().map(|id| (id, Duration::ZERO)).collect(),
            owners: ids(owners),
            is_recovering: false,
            factor: 2,
            silence: Duration::from_secs(1),
            now: Duration::from_secs(seconds),
        }
    }

    /// These wait for those.
    fn waiting<const N: usize>(all: [(u8, &[u8]); N]) -> CutOff {
        let mut cut_off = CutOff::default();
        for (index, waits) in all {
            let waits = waits.iter().map(|index| Id { index: *index, generation: 1 }).collect();
            cut_off.hear(Id { index, generation: 1 }, waits);
        }
        cut_off
    }

    #[test]
    fn of_two_an_owner_stays() {
        let all = [0, 1, 2, 3];
        let mutual: [(u8, &[u8]); 2] = [(1, &[3]), (3, &[1])];
        assert_eq!(waiting(mutual).suspects(&seen(all, [1], 0), &[]), ids([3]));
        assert_eq!(waiting(mutual).suspects(&seen(all, [3], 0), &[]), ids([1]));
        assert_eq!(waiting(mutual).suspects(&seen(all, [1, 3], 0), &[]), ids([3]));
        assert_eq!(waiting(mutual).suspects(&seen(all, [], 0), &[]), ids([1]));
        // who owns nothing is left alone where it is needed, unless a recovery may wait for it
        assert_eq!(waiting([(1, &[3])]).suspects(&seen([0, 1, 3], [0], 0), &[]), ids([]));
        let recovering = Sight { is_recovering: true, ..seen([0, 1, 3], [0], 0) };
        assert_eq!(waiting([(1, &[3])]).suspects(&recovering, &[]), ids([1]));
    }

    #[test]
    fn an_owner_that_waits_for_several_goes() {
        let all = [0, 1, 2, 3];
        assert_eq!(waiting([(0, &[2, 3])]).suspects(&seen(all, [0], 0), &[]), ids([0]));
        // at once, or one after the other
        let mut cut_off = waiting([(0, &[2])]);
        assert_eq!(cut_off.suspects(&seen(all, [0], 5), &[]), ids([2]));
        cut_off.hear(ids([0])[0], ids([3]));
        assert_eq!(cut_off.suspects(&seen([0, 1, 3], [0], 14), &[]), ids([0]));
        assert_eq!(cut_off.suspects(&seen([0, 1, 3], [0], 15), &[]), ids([3]));
        // who is silent, or is not up, or was not heard lately, is not cut off
        assert_eq!(waiting([(0, &[2])]).suspects(&seen(all, [0], 0), &ids([2])), ids([]));
        assert_eq!(waiting([(0, &[2])]).suspects(&seen([0, 1, 3], [0], 0), &[]), ids([]));
        let mut sight = seen(all, [0], 0);
        sight.heard[2].1 = Duration::from_millis(400);
        assert_eq!(waiting([(0, &[2])]).suspects(&sight, &[]), ids([]));
    }

    #[test]
    fn who_is_not_needed_is_left_out_for_a_while() {
        let mut cut_off = waiting([(1, &[3])]);
        assert_eq!(cut_off.suspects(&seen([0, 1, 2, 3], [1], 5), &[]), ids([3]));
        assert_eq!(cut_off.left_out(&seen([0, 1, 2], [1], 14)), [3]);
        assert_eq!(cut_off.left_out(&seen([0, 1, 2], [1], 15)), []);
        assert_eq!(cut_off.left_out(&seen([0, 1], [1], 6)), []);
        let recovering = |seconds| Sight { is_recovering: true, ..seen([0, 1, 2], [1], seconds) };
        assert_eq!(cut_off.left_out(&seen([0, 1, 2], [1], 6)), [3]);
        assert_eq!(cut_off.left_out(&recovering(6)), [3]);
        assert_eq!(cut_off.left_out(&recovering(7)), []);
    }

    #[test]
    fn who_was_suspected_first_is_let_in_first() {
        let mut cut_off = waiting([(1, &[3])]);
        assert_eq!(cut_off.suspects(&seen([0, 1, 2, 3], [0, 1], 5), &[]), ids([3]));
        cut_off.hear(ids([0])[0], ids([2]));
        assert_eq!(cut_off.suspects(&seen([0, 1, 2], [0, 1], 7), &[]), ids([2]));
        assert_eq!(cut_off.left_out(&seen([0, 1, 3], [0, 1], 7)), [2]);
        assert_eq!(cut_off.left_out(&seen([0, 1], [0, 1], 7)), [2]);
        // where it does not come, all are
        assert_eq!(cut_off.left_out(&seen([0, 1], [0, 1], 8)), []);
        // one that is not heard can't be let in
        let mut sight = seen([0, 1], [0, 1], 9);
        sight.heard.remove(3);
        cut_off.lacking = None;
        assert_eq!(cut_off.left_out(&sight), [3]);
    }
}
