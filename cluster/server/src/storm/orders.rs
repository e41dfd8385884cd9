//! Tables that are made all the time, while coordinators take over from one another: none that was acknowledged may be
//! gone.

use crate::client::{Client, Error, Refusal};
use std::collections::BTreeSet;
use std::sync::Arc;
use std::sync::atomic::{AtomicBool, Ordering};
use std::thread::{self, JoinHandle};
use std::time::Duration;

/// The first table, and the last one: 1,024 tablets may stand.
const FIRST: u32 = 100;
const LAST: u32 = 900;

/// Between two of them.
const PAUSE: Duration = Duration::from_millis(100);

/// What was asked for.
#[derive(Clone, Debug, Default)]
pub struct Ordered {
    /// Tables that were acknowledged.
    pub done: BTreeSet<u32>,
    /// Those of which nobody knows.
    unknown: BTreeSet<u32>,
}

/// Whoever makes tables.
pub struct Orders {
    ends: Arc<AtomicBool>,
    thread: JoinHandle<Ordered>,
}

impl Orders {
    /// It begins, by a client that operates the cluster.
    pub fn begin(client: Client) -> Orders {
        let ends = Arc::new(AtomicBool::new(false));
        let until = Arc::clone(&ends);
        let thread = thread::spawn(move || make(client, &until));
        Orders { ends, thread }
    }

    /// It ends.
    pub fn end(self) -> Ordered {
        self.ends.store(true, Ordering::Relaxed);
        self.thread.join().unwrap_or_default()
    }
}

fn make(mut client: Client, ends: &AtomicBool) -> Ordered {
    client.wait = Duration::from_millis(800);
    let mut ordered = Ordered::default();
    for table in FIRST..=LAST {
        if ends.load(Ordering::Relaxed) {
            break;
        }
        match client.create(table, None) {
            Ok(()) => _ = ordered.done.insert(table),
            // refused, and so it was not made, unless it stands there
            Err(Error::Refused(refusal)) if refusal != Refusal::TableExists => {}
            Err(_) => _ = ordered.unknown.insert(table),
        }
        thread::sleep(PAUSE);
    }
    ordered
}

impl Ordered {
    /// What is wrong with the tables that stand, as the coordinator that leads tells of them.
    pub fn wrong(&self, status: &str) -> Vec<String> {
        let table = |line: &str| line.strip_prefix("table ")?.split(' ').next()?.parse::<u32>().ok();
        let there: BTreeSet<u32> = status.lines().filter_map(table).filter(|table| FIRST <= *table).collect();
        let lost: Vec<_> = self.done.difference(&there).collect();
        let extra: Vec<_> =
            there.iter().filter(|table| !self.done.contains(table) && !self.unknown.contains(table)).collect();
        let mut wrong = Vec::new();
        if !lost.is_empty() {
            wrong.push(format!("tables were acknowledged, and are gone: {lost:?}"));
        }
        if !extra.is_empty() {
            wrong.push(format!("tables are there that were refused, or that nobody asked for: {extra:?}"));
        }
        wrong
    }
}

#[cfg(test)]
mod tests {
    use super::*;

    #[test]
    fn what_was_acknowledged_has_to_be_there() {
        let ordered = Ordered { done: BTreeSet::from([100, 101]), unknown: BTreeSet::from([102]) };
        let status = |tables: &[u32]| {
            let line = |table: &u32| format!("table {table} keys 0 to 9 is owned by 0.1 term 1\n");
            tables.iter().map(line).collect::<String>()
        };
        assert!(ordered.wrong(&status(&[1, 100, 101])).is_empty());
        assert!(ordered.wrong(&status(&[1, 100, 101, 102])).is_empty());
        assert!(ordered.wrong(&status(&[100]))[0].ends_with("are gone: [101]"));
        assert!(ordered.wrong(&status(&[100, 101, 103]))[0].ends_with("asked for: [103]"));
    }
}
