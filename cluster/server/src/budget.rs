//! How many requests clients may have under way. Who has its share has to wait: nothing more is read from it, so what it
//! sends stays in its own machine, and not in this process.

use crate::histogram::Histogram;
use std::collections::VecDeque;
use std::sync::atomic::{AtomicUsize, Ordering};
use std::sync::{Arc, Condvar, Mutex, MutexGuard, PoisonError};
use std::time::Instant;

/// All clients together may have so many requests under way, each an equal part of them, and at least one.
pub const MOST_REQUESTS: usize = 1024;

/// What all clients of a process share.
#[derive(Debug, Default)]
pub struct Budget {
    /// How many clients have requests under way.
    busy: AtomicUsize,
    /// From when a request was handed to the node to when its answer was written to the client's connection.
    pub times: Histogram,
}

impl Budget {
    /// How many requests one of so many busy clients may have under way.
    fn share(&self) -> usize {
        (MOST_REQUESTS / self.busy.load(Ordering::Relaxed).max(1)).max(1)
    }
}

/// The requests of one client that are under way: handed to the node, and not written back yet.
#[derive(Debug)]
pub struct Account {
    budget: Arc<Budget>,
    open: Mutex<Open>,
    changed: Condvar,
}

#[derive(Debug)]
struct Open {
    count: usize,
    /// When how many of them were handed over, the oldest first.
    handed: VecDeque<(Instant, usize)>,
    /// Since when none is under way.
    idle_since: Instant,
    is_closed: bool,
}

impl Account {
    /// The account of a client that has asked nothing yet.
    pub fn new(budget: &Arc<Budget>) -> Account {
        let open = Open { count: 0, handed: VecDeque::new(), idle_since: Instant::now(), is_closed: false };
        Account { budget: Arc::clone(budget), open: Mutex::new(open), changed: Condvar::new() }
    }

    fn lock(&self) -> MutexGuard<'_, Open> {
        self.open.lock().unwrap_or_else(PoisonError::into_inner)
    }

    /// Waits until at least one request more may be handed over, and says how many of these may be now, which count from
    /// now on. None is where the connection has ended.
    pub fn take(&self, wanted: usize) -> Option<usize> {
        self.take_of(wanted, |open| self.budget.share().saturating_sub(open.count))
    }

    /// The same of one request whose answer is long: nothing else may be under way.
    pub fn take_alone(&self) -> Option<usize> {
        self.take_of(1, |open| usize::from(open.count == 0))
    }

    fn take_of(&self, wanted: usize, room: impl Fn(&Open) -> usize) -> Option<usize> {
        let mut open = self.lock();
        while !open.is_closed {
            let count = room(&open).min(wanted);
            if 0 < count {
                if open.count == 0 {
                    self.budget.busy.fetch_add(1, Ordering::Relaxed);
                }
                open.count += count;
                open.handed.push_back((Instant::now(), count));
                return Some(count);
            }
            open = self.changed.wait(open).unwrap_or_else(PoisonError::into_inner);
        }
        None
    }

    /// So many answers were written.
    pub fn give_back(&self, mut count: usize) {
        let mut open = self.lock();
        count = count.min(open.count);
        open.count -= count;
        if open.count == 0 && 0 < count {
            open.idle_since = Instant::now();
            self.budget.busy.fetch_sub(1, Ordering::Relaxed);
        }
        while let Some((since, handed)) = open.handed.front_mut().filter(|_| 0 < count) {
            let done = count.min(*handed);
            self.budget.times.add(since.elapsed(), done as u64);
            *handed -= done;
            count -= done;
            if *handed == 0 {
                open.handed.pop_front();
            }
        }
        self.changed.notify_one();
    }

    /// The connection has ended: nobody waits any more, and nothing is under way.
    pub fn close(&self) {
        let mut open = self.lock();
        if 0 < std::mem::take(&mut open.count) {
            self.budget.busy.fetch_sub(1, Ordering::Relaxed);
        }
        open.handed.clear();
        open.is_closed = true;
        self.changed.notify_all();
    }

    /// Since when none of its requests is under way.
    pub fn idle_since(&self) -> Option<Instant> {
        let open = self.lock();
        (open.count == 0).then_some(open.idle_since)
    }
}

#[cfg(test)]
mod tests {
    use super::*;
    use std::thread;
    use std::time::Duration;

    #[test]
    fn busy_clients_have_equal_parts() {
        let budget = Arc::new(Budget::default());
        let [one, other] = [(); 2].map(|()| Account::new(&budget));
        assert_eq!(one.take(MOST_REQUESTS + 5), Some(MOST_REQUESTS));
        assert_eq!(other.take(MOST_REQUESTS), Some(MOST_REQUESTS));
        one.give_back(MOST_REQUESTS - 3);
        other.give_back(MOST_REQUESTS);
        assert!(other.idle_since().is_some() && one.idle_since().is_none());
        // the first one still has three, so two are busy once the other asks again
        assert_eq!(other.take(1), Some(1));
        assert_eq!(other.take(MOST_REQUESTS), Some(MOST_REQUESTS / 2 - 1));
        assert_eq!(one.take(MOST_REQUESTS), Some(MOST_REQUESTS / 2 - 3));
    }

    #[test]
    fn who_has_its_part_waits_for_answers_or_the_end() {
        let budget = Arc::new(Budget::default());
        let account = Arc::new(Account::new(&budget));
        assert_eq!(account.take(MOST_REQUESTS), Some(MOST_REQUESTS));
        let waiting = |account: &Arc<Account>| {
            let account = Arc::clone(account);
            thread::spawn(move || account.take(9))
        };
        let first = waiting(&account);
        thread::sleep(Duration::from_millis(20));
        assert!(!first.is_finished());
        account.give_back(4);
        assert_eq!(first.join().expect("it has not panicked"), Some(4));
        let second = waiting(&account);
        account.close();
        assert_eq!(second.join().expect("it has not panicked"), None);
        assert_eq!(budget.busy.load(Ordering::Relaxed), 0);
        assert_eq!(budget.times.count(), 4);
    }

    #[test]
    fn a_long_answer_stands_alone() {
        let budget = Arc::new(Budget::default());
        let account = Account::new(&budget);
        assert_eq!(account.take_alone(), Some(1));
        account.give_back(1);
        assert_eq!(account.take(2), Some(2));
        account.give_back(2);
        assert_eq!((account.take_alone(), budget.times.count()), (Some(1), 3));
    }
}
