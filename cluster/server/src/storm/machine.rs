//! How long the machine kept waiting what had something to do: a thread that was due, or a byte that was to be synced.

use std::fs::File;
use std::os::unix::fs::FileExt;
use std::path::Path;
use std::sync::atomic::{AtomicBool, Ordering};
use std::sync::{Arc, Mutex};
use std::thread::{self, JoinHandle};
use std::time::{Duration, Instant};

/// How often the thread wakes; it is late when it is later than this.
const BEAT: Duration = Duration::from_millis(5);

/// How often a byte is synced, and how long that may take.
const SYNC: Duration = Duration::from_millis(20);

type Late = Arc<Mutex<Vec<(Instant, Instant)>>>;

/// Two threads, one that wakes again and again, and one that syncs a byte. They note when they were late.
pub struct Machine {
    ends: Arc<AtomicBool>,
    threads: Late,
    syncs: Late,
    both: Vec<JoinHandle<()>>,
}

impl Machine {
    /// It begins to measure, the disk in this folder.
    pub fn new(folder: &Path) -> std::io::Result<Machine> {
        let file = File::create(folder.join("beat"))?;
        let (ends, threads, syncs) = (Arc::new(AtomicBool::new(false)), Late::default(), Late::default());
        let both = vec![
            spawn(&ends, &threads, BEAT, || ()),
            spawn(&ends, &syncs, SYNC, move || {
                let _ = file.write_all_at(b"b", 0).and_then(|()| file.sync_all());
            }),
        ];
        Ok(Machine { ends, threads, syncs, both })
    }

    /// For how much of this time one of the two was late.
    pub fn kept_waiting(&self, from: Instant, to: Instant) -> Duration {
        let mut times = Vec::new();
        for late in [&self.threads, &self.syncs] {
            let Ok(late) = late.lock() else { continue };
            let cut = late.iter().map(|&(due, ran)| (due.max(from), ran.min(to)));
            times.extend(cut.filter(|(due, ran)| due < ran));
        }
        times.sort_unstable();
        let (mut sum, mut end) = (Duration::ZERO, from);
        for (due, ran) in times {
            sum += ran.saturating_duration_since(due.max(end));
            end = end.max(ran);
        }
        sum
    }

    /// The longest time for which a thread that was due did not run, and a byte was not synced.
    pub fn longest(&self) -> (Duration, Duration) {
        let longest = |late: &Late| {
            late.lock()
                .map_or(Duration::ZERO, |late| late.iter().map(|&(due, ran)| ran - due).max().unwrap_or_default())
        };
        (longest(&self.threads), longest(&self.syncs))
    }
}

/// A thread that does this after each pause, and notes when it is later with it than by another pause.
fn spawn(ends: &Arc<AtomicBool>, late: &Late, pause: Duration, act: impl Fn() + Send + 'static) -> JoinHandle<()> {
    let (ends, late) = (Arc::clone(ends), Arc::clone(late));
    thread::spawn(move || {
        while !ends.load(Ordering::Relaxed) {
            let due = Instant::now() + pause;
            thread::sleep(pause);
            act();
            let now = Instant::now();
            if due + pause <= now
                && let Ok(mut late) = late.lock()
            {
                late.push((due, now));
            }
        }
    })
}

impl Drop for Machine {
    fn drop(&mut self) {
        self.ends.store(true, Ordering::Relaxed);
        for thread in self.both.drain(..) {
            let _ = thread.join();
        }
    }
}

#[cfg(test)]
mod tests {
    use super::*;

    #[test]
    fn times_that_overlap_count_once() {
        let from = Instant::now();
        let at = |milliseconds| from + Duration::from_millis(milliseconds);
        let late = |times: &[(u64, u64)]| Arc::new(Mutex::new(times.iter().map(|&(a, b)| (at(a), at(b))).collect()));
        let machine = Machine {
            ends: Arc::default(),
            threads: late(&[(10, 30), (50, 60), (900, 1000)]),
            syncs: late(&[(20, 40), (52, 58), (90, 200)]),
            both: Vec::new(),
        };
        assert_eq!(machine.kept_waiting(from, at(100)), Duration::from_millis(30 + 10 + 10));
        assert_eq!(machine.longest(), (Duration::from_millis(100), Duration::from_millis(110)));
    }
}
