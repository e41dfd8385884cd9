//! Reads of ranges, page by page, while others write and owners end: no page misses what was acknowledged before it was
//! asked for, or shows what was replaced before.
//!
//! `scan PORT HOSTS SECONDS WRITERS KEYS`: so many writers put and delete so many keys each, of table 6 of a cluster on this
//! machine, every other key of their own, and one after the other reads all of them, from end to end. Before each page is
//! asked for it is noted what was acknowledged of each key. In the page each of them has at least that version, or was
//! being deleted meanwhile. A key with a write that is unknown is left alone from then on.

use sevunthi_client::scan::{LAST_KEY, Page};
use sevunthi_client::{Client, Error, Target};
use std::process::ExitCode;
use std::sync::{Arc, Mutex, PoisonError};
use std::thread;
use std::time::{Duration, Instant};

const TABLE: u32 = 6;

/// Between two keys there are so many that nobody writes.
const APART: u64 = 1 << 40;

/// What is known of a key.
#[derive(Clone, Copy, Debug, Default, PartialEq, Eq)]
struct Known {
    /// The version of its newest acknowledged write.
    version: u64,
    /// Whether that has put a value.
    has_value: bool,
    /// How many deletes were begun, and whether the last one has no answer yet.
    deletes: u64,
    is_deleting: bool,
    /// A write of it is unknown, and nothing is known of it any more.
    is_lost: bool,
}

type Table = Arc<Mutex<Vec<Known>>>;

fn note(table: &Table, at: usize, what: impl FnOnce(&mut Known)) {
    what(&mut table.lock().unwrap_or_else(PoisonError::into_inner)[at]);
}

fn all(table: &Table) -> Vec<Known> {
    table.lock().unwrap_or_else(PoisonError::into_inner).clone()
}

/// Writes its keys, one after the other, and tells how many writes were done.
fn write(target: Target, table: &Table, keys: impl Iterator<Item = usize> + Clone, end: Instant) -> u64 {
    let (mut client, mut done) = (Client::new(target), 0);
    for (turn, at) in keys.clone().cycle().enumerate() {
        if end < Instant::now() {
            break;
        }
        if all(table)[at].is_lost {
            continue;
        }
        let key = at as u64 * APART;
        let deletes = turn % 3 == 2;
        let said = if deletes {
            note(table, at, |known| (known.deletes, known.is_deleting) = (known.deletes + 1, true));
            client.delete(TABLE, key)
        } else {
            client.put(TABLE, key, &[b'x'; 300])
        };
        done += u64::from(said.is_ok());
        note(table, at, |known| {
            known.is_deleting = false;
            match said {
                Ok(version) => (known.version, known.has_value) = (version, !deletes),
                Err(Error::Unknown) => known.is_lost = true,
                Err(_) => {}
            }
        });
    }
    done
}

/// How many keys a page shows wrongly: of those from the first key on, where this was known before it was asked for, and
/// that when it had come.
fn wrong_in(page: &Page, first: u64, before: &[Known], after: &[Known]) -> usize {
    let keys: Vec<u64> = page.entries.iter().map(|entry| entry.key).collect();
    let is_in_order = keys.is_sorted_by(|one, other| one < other) && keys.iter().all(|key| first <= *key);
    let is_wrong = |at: &usize| {
        let (key, known, now) = (*at as u64 * APART, before[*at], after[*at]);
        let is_covered = first <= key && page.next.is_none_or(|next| key < next);
        let shown = page.entries.iter().find(|entry| entry.key == key);
        is_covered
            && !known.is_lost
            && !now.is_lost
            && match shown {
                Some(entry) => entry.version < known.version,
                None => known.has_value && !known.is_deleting && known.deletes == now.deletes,
            }
    };
    usize::from(!is_in_order) + (0..before.len()).filter(is_wrong).count()
}

/// Reads all until the end. Gives how many pages and values were read, and how many were wrong.
fn read(target: Target, table: &Table, most: u32, end: Instant) -> (u64, u64, usize) {
    let (mut client, mut pages, mut values, mut wrong) = (Client::new(target), 0, 0, 0);
    let mut first = 0;
    while Instant::now() < end {
        let before = all(table);
        let Ok(page) = client.scan(TABLE, first..=LAST_KEY, most) else { continue };
        wrong += wrong_in(&page, first, &before, &all(table));
        pages += 1;
        values += page.entries.len() as u64;
        first = page.next.unwrap_or(0);
    }
    (pages, values, wrong)
}

fn main() -> ExitCode {
    let words: Vec<u64> = std::env::args().skip(1).filter_map(|word| word.parse().ok()).collect();
    let &[port, hosts, seconds, writers, keys] = &words[..] else {
        eprintln!("usage: scan PORT HOSTS SECONDS WRITERS KEYS");
        return ExitCode::from(2);
    };
    let target = Target::on("127.0.0.1", port as u16, hosts as u8);
    let (writers, count) = (writers as usize, (writers * keys) as usize);
    let table: Table = Arc::new(Mutex::new(vec![Known::default(); count]));
    let end = Instant::now() + Duration::from_secs(seconds);
    let (done, read) = thread::scope(|scope| {
        let begun: Vec<_> = (0..writers)
            .map(|writer| {
                let (target, table) = (target.clone(), &table);
                scope.spawn(move || write(target, table, (writer..count).step_by(writers), end))
            })
            .collect();
        let readers = [7, 100].map(|most| {
            let (target, table) = (target.clone(), &table);
            scope.spawn(move || read(target, table, most, end))
        });
        let read = readers.map(|reader| reader.join().unwrap_or((0, 0, 1)));
        (begun.into_iter().filter_map(|writer| writer.join().ok()).sum::<u64>(), read)
    });
    let (pages, values) = (read[0].0 + read[1].0, read[0].1 + read[1].1);
    let wrong = read[0].2 + read[1].2;
    let lost = all(&table).iter().filter(|known| known.is_lost).count();
    println!(
        "{pages} pages with {values} values were read while {done} writes were done; {wrong} wrong; {lost} keys unknown"
    );
    if wrong == 0 && 0 < values && 0 < done { ExitCode::SUCCESS } else { ExitCode::FAILURE }
}
