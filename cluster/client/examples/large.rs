//! Values in pieces, while owners end: whoever reads one sees it whole.
//!
//! `large PORT HOSTS SECONDS CLIENTS BYTES`: so many clients put, read and delete values of up to so many bytes under
//! three names, of a cluster on this machine, with headers in table 3 and pieces in table 4. Each value is one byte,
//! again and again, and has a length of its own: one that is mixed, or has another length, is told. At the end all are
//! deleted, and what those clients know of is removed.

use sevunthi_client::large::{Error, Large};
use sevunthi_client::names;
use sevunthi_client::{Client, Target};
use std::process::ExitCode;
use std::thread;
use std::time::{Duration, Instant};

const HEADERS: u32 = 3;
const PIECES: u32 = 4;

/// What a client has seen.
#[derive(Default)]
struct Seen {
    put: u64,
    read: u64,
    deleted: u64,
    torn: u64,
    unknown: u64,
    failed: u64,
    left: usize,
}

impl Seen {
    /// Counts what was not done, or is unknown.
    fn note(&mut self, error: &Error) {
        match error {
            Error::Named(names::Error::Asked(sevunthi_client::Error::Unknown)) => self.unknown += 1,
            Error::Broken => self.torn += 1,
            Error::TooLong
            | Error::Mismatch { .. }
            | Error::Changing
            | Error::Unwritten
            | Error::NoNumber(_)
            | Error::Named(_) => self.failed += 1,
        }
    }

    fn add(&mut self, other: &Seen) {
        self.put += other.put;
        self.read += other.read;
        self.deleted += other.deleted;
        self.torn += other.torn;
        self.unknown += other.unknown;
        self.failed += other.failed;
        self.left += other.left;
    }
}

/// The length of a value of this byte.
fn length_of(byte: u8, most: usize) -> usize {
    most - usize::from(byte) % most.min(97)
}

/// Puts, reads and deletes until the end.
fn live(target: Target, number: u64, most: usize, end: Instant) -> Seen {
    let (mut large, mut seen) = (Large::new(Client::new(target), HEADERS, PIECES), Seen::default());
    for count in number.. {
        if end < Instant::now() {
            break;
        }
        let name = format!("value-{}", count % 3);
        let byte = (number * 41 + count) as u8;
        let said = match count % 8 {
            7 => large.delete(name.as_bytes()).map(|_| seen.deleted += 1),
            0..=2 => large.put(name.as_bytes(), &vec![byte; length_of(byte, most)]).map(|_| seen.put += 1),
            _ => large.get(name.as_bytes()).map(|found| {
                let value = found.value.unwrap_or_default();
                let is_whole = value.first().is_none_or(|first| {
                    value.len() == length_of(*first, most) && value.iter().all(|byte| byte == first)
                });
                seen.torn += u64::from(!is_whole);
                seen.read += 1;
            }),
        };
        if let Err(error) = said {
            seen.note(&error);
        }
    }
    for name in ["value-0", "value-1", "value-2"] {
        let _ = large.delete(name.as_bytes());
    }
    let _ = large.tidy();
    seen.left = large.left();
    seen
}

fn main() -> ExitCode {
    let words: Vec<u64> = std::env::args().skip(1).filter_map(|word| word.parse().ok()).collect();
    let &[port, hosts, seconds, clients, bytes] = &words[..] else {
        eprintln!("usage: large PORT HOSTS SECONDS CLIENTS BYTES");
        return ExitCode::from(2);
    };
    let target = Target::on("127.0.0.1", port as u16, hosts as u8);
    let end = Instant::now() + Duration::from_secs(seconds);
    let start = |number| {
        let target = target.clone();
        thread::spawn(move || live(target, number, bytes as usize, end))
    };
    let threads: Vec<_> = (0..clients).map(start).collect();
    let mut all = Seen::default();
    threads.into_iter().for_each(|thread| all.add(&thread.join().unwrap_or_default()));
    let Seen { put, read, deleted, torn, unknown, failed, left } = all;
    println!(
        "{put} values of {bytes} bytes or less were put, {read} read, {deleted} deleted; {torn} torn; \
         {unknown} unknown, {failed} failed, {left} with pieces left"
    );
    if 0 < put && 0 < read && torn == 0 { ExitCode::SUCCESS } else { ExitCode::FAILURE }
}
