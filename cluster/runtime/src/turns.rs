//! Writes that wait for others of their key. A conditional write is compared with what is durable: so it waits until no
//! write of its key is under way. What wants to write that key later waits behind it, so that plain puts can't starve
//! it. Where nobody waits, a write costs two additions.

use std::collections::{HashMap, VecDeque};

/// A table and a key.
pub type Key = (u32, u64);

/// So many counts there are: with 1,024 writes under way few keys share one.
const COUNTS: usize = 4096;

/// Which keys have writes under way, and what waits for those.
pub struct Turns<T> {
    /// How many writes are under way, by a part of a product of their keys.
    counts: Vec<u32>,
    /// What waits, in order. Whoever is here waits for a write of its key that is under way.
    waiting: HashMap<Key, VecDeque<T>>,
}

impl<T> Default for Turns<T> {
    /// Nothing is under way.
    fn default() -> Turns<T> {
        Turns { counts: vec![0; COUNTS], waiting: HashMap::new() }
    }
}

impl<T> Turns<T> {
    fn count(&mut self, (table, key): Key) -> &mut u32 {
        let mixed = (key ^ u64::from(table).rotate_left(32)).wrapping_mul(0x9e37_79b9_7f4a_7c15);
        &mut self.counts[(mixed >> 52) as usize % COUNTS]
    }

    /// A write of this key is under way.
    pub fn enter(&mut self, key: Key) {
        *self.count(key) += 1;
    }

    /// It is not any more.
    pub fn leave(&mut self, key: Key) {
        let count = self.count(key);
        *count = count.saturating_sub(1);
    }

    /// Where this is false no write of the key is under way.
    pub fn may_be_under_way(&mut self, key: Key) -> bool {
        *self.count(key) != 0
    }

    /// Whether something waits for this key.
    pub fn has_waiting(&self, key: Key) -> bool {
        !self.waiting.is_empty() && self.waiting.contains_key(&key)
    }

    /// How much waits.
    pub fn count_waiting(&self) -> usize {
        self.waiting.values().map(VecDeque::len).sum()
    }

    /// This waits for the key, behind what does.
    pub fn wait(&mut self, key: Key, what: T) {
        self.waiting.entry(key).or_default().push_back(what);
    }

    /// What has waited for the key, in order.
    pub fn release(&mut self, key: Key) -> VecDeque<T> {
        self.waiting.remove(&key).unwrap_or_default()
    }

    /// What is so waits no more.
    pub fn forget(&mut self, is_so: impl Fn(&T) -> bool) {
        self.waiting.retain(|_, waiting| {
            waiting.retain(|what| !is_so(what));
            !waiting.is_empty()
        });
    }

    /// Nothing is under way any more. Gives what has waited.
    pub fn clear(&mut self) -> Vec<T> {
        self.counts.fill(0);
        std::mem::take(&mut self.waiting).into_values().flatten().collect()
    }
}

#[cfg(test)]
mod tests {
    use super::*;

    #[test]
    fn what_waits_comes_in_order_when_its_key_is_free() {
        let mut turns = Turns::default();
        let (key, other) = ((1, 5), (2, 5));
        assert!(!turns.may_be_under_way(key));
        turns.enter(key);
        turns.enter(key);
        assert!(turns.may_be_under_way(key) && !turns.has_waiting(key));
        (0..3).for_each(|number| turns.wait(key, number));
        turns.wait(other, 7);
        assert!(turns.has_waiting(key) && turns.count_waiting() == 4);
        turns.leave(key);
        assert!(turns.may_be_under_way(key));
        turns.leave(key);
        assert!(!turns.may_be_under_way(key));
        turns.forget(|number| *number == 1);
        assert_eq!((turns.release(key), turns.release(key)), (VecDeque::from([0, 2]), VecDeque::new()));
        turns.enter(key);
        assert_eq!(turns.clear(), [7]);
        assert!(!turns.may_be_under_way(key));
    }
}
