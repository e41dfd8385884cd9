//! Counters by conditional writes, while owners end: no increment is lost, and none is done twice.
//!
//! `counter PORT HOSTS SECONDS CLIENTS COUNTERS`: so many clients add 1 to so many counters of table 1, of a cluster on
//! this machine. Each value has the number, and who made it. Nothing else writes there: so the number is always the
//! version. An increment whose answer was lost is unknown: it counts once or not at all. Whoever has to know which puts
//! a token into the value, or into a list of the last ones. At the end the counters are compared with what was
//! acknowledged: each number at most once, and those that nobody knows of are no more than were unknown.

use sevunthi_client::{Client, Error, Found, Target};
use std::collections::BTreeMap;
use std::process::ExitCode;
use std::sync::mpsc::{Sender, channel};
use std::thread;
use std::time::{Duration, Instant};

const TABLE: u32 = 1;
/// The first counter's key.
const FIRST: u64 = 1000;

/// What has become of an increment: of this counter, to this number.
enum Said {
    Done { key: u64, number: u64 },
    Mismatch,
    Unknown,
    Refused,
}

/// The number that a value has.
fn number_of(found: &Found) -> u64 {
    let text = found.value.as_deref().map(String::from_utf8_lossy).unwrap_or_default();
    text.split(' ').next().and_then(|word| word.parse().ok()).unwrap_or(0)
}

/// Adds to a counter until the end. Where another was first, what is there stands in the answer.
fn count(target: Target, client_number: u64, key: u64, end: Instant, said: &Sender<Said>) {
    let mut client = Client::new(target);
    let mut at = None;
    while Instant::now() < end {
        let Some(found) = at.take().or_else(|| client.get(TABLE, key).ok()) else { continue };
        let number = number_of(&found) + 1;
        let value = format!("{number} {client_number}").into_bytes();
        let what = match client.put_if(TABLE, key, found.version, &value) {
            Ok(version) => {
                at = Some(Found { version, value: Some(value) });
                Said::Done { key, number }
            }
            Err(Error::Mismatch(found)) => {
                at = Some(found);
                Said::Mismatch
            }
            Err(Error::Unknown) => Said::Unknown,
            Err(_) => Said::Refused,
        };
        let _ = said.send(what);
    }
}

/// What all clients have seen: how often each number of each counter was acknowledged, and how much else there was.
#[derive(Default)]
struct Counted {
    done: BTreeMap<(u64, u64), u64>,
    mismatches: u64,
    unknown: u64,
    refused: u64,
}

impl Counted {
    fn add(&mut self, said: Said) {
        match said {
            Said::Done { key, number } => *self.done.entry((key, number)).or_default() += 1,
            Said::Mismatch => self.mismatches += 1,
            Said::Unknown => self.unknown += 1,
            Said::Refused => self.refused += 1,
        }
    }

    /// Compares that with the counters as they are, tells it, and says whether it is right.
    fn is_right(&self, client: &mut Client, counters: u64) -> bool {
        let twice = self.done.values().filter(|count| 1 < **count).count();
        let (mut lost, mut settled, mut wrong) = (0, 0, 0);
        for key in FIRST..FIRST + counters {
            let found = client.get(TABLE, key).unwrap_or_default();
            let number = number_of(&found);
            let acknowledged = || self.done.range((key, 0)..=(key, u64::MAX)).map(|((_, number), _)| *number);
            wrong += u64::from(found.version != number);
            lost += acknowledged().filter(|other| number < *other).count();
            settled += number.saturating_sub(acknowledged().count() as u64);
            println!("counter {key} is {number} at version {}", found.version);
        }
        let (count, Counted { mismatches, unknown, refused, .. }) = (self.done.len(), self);
        println!(
            "{count} done, {mismatches} mismatches, {unknown} unknown, of which {settled} were done, \
             {refused} refused; {twice} twice, {lost} lost, {wrong} with another version"
        );
        0 < count && twice == 0 && lost == 0 && wrong == 0 && settled <= *unknown
    }
}

fn main() -> ExitCode {
    let words: Vec<u64> = std::env::args().skip(1).filter_map(|word| word.parse().ok()).collect();
    let &[port, hosts, seconds, clients, counters] = &words[..] else {
        eprintln!("usage: counter PORT HOSTS SECONDS CLIENTS COUNTERS");
        return ExitCode::from(2);
    };
    let target = Target::on("127.0.0.1", port as u16, hosts as u8);
    let (end, (to, from)) = (Instant::now() + Duration::from_secs(seconds), channel());
    for number in 0..clients {
        let (target, to) = (target.clone(), to.clone());
        thread::spawn(move || count(target, number, FIRST + number % counters, end, &to));
    }
    drop(to);
    let mut counted = Counted::default();
    from.into_iter().for_each(|said| counted.add(said));
    if counted.is_right(&mut Client::new(target), counters) { ExitCode::SUCCESS } else { ExitCode::FAILURE }
}
