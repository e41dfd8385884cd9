//! Clients that write and read all the time, with the history of what they saw.

use super::machine::Machine;
use crate::client::{Client, Error, Found, Target};
use crate::dice::Dice;
use std::fmt::Write as _;
use std::sync::Mutex;
use std::sync::atomic::{AtomicBool, Ordering};
use std::thread;
use std::time::{Duration, Instant};

/// The table in which all is written.
pub const TABLE: u32 = 1;
const KEYS: u64 = 4;
/// How many clients there are.
pub const CLIENTS: u64 = 6;

/// A gap that is shorter than this is not kept.
const SHORT: Duration = Duration::from_millis(500);

/// What clients have done.
#[derive(Clone, Debug, Default)]
pub struct Lived {
    /// Writes that were acknowledged.
    pub writes: u64,
    /// Confirmed reads.
    pub reads: u64,
    /// Conditional writes whose condition did not hold, with what was there: confirmed reads.
    pub mismatches: u64,
    /// Calls of which nobody knows, or that were refused.
    pub unknown: u64,
    /// The longer times without an answer, of each client, the last one up to its end.
    gaps: Vec<(Instant, Instant)>,
}

/// The longest time that a client went without an answer.
#[derive(Clone, Copy, Debug, Default)]
pub struct Gap {
    /// By the clock.
    pub whole: Duration,
    /// When it began.
    pub from: Option<Instant>,
    /// Less the time in which the machine kept a thread waiting that was due.
    pub served: Duration,
}

impl Lived {
    /// Adds what another client has done.
    pub fn add(&mut self, other: Lived) {
        self.writes += other.writes;
        self.reads += other.reads;
        self.mismatches += other.mismatches;
        self.unknown += other.unknown;
        self.gaps.extend(other.gaps);
    }

    /// The longest gap, and the one that is longest without the machine's part of it.
    pub fn gap(&self, machine: &Machine) -> Gap {
        let mut most = Gap::default();
        for &(from, to) in &self.gaps {
            let whole = to - from;
            if most.whole < whole {
                (most.whole, most.from) = (whole, Some(from));
            }
            most.served = most.served.max(whole.saturating_sub(machine.kept_waiting(from, to)));
        }
        most
    }

    fn answered(&mut self, last: &mut Instant) {
        let now = Instant::now();
        if SHORT <= now - *last {
            self.gaps.push((*last, now));
        }
        *last = now;
    }
}

/// What a client asks for.
#[derive(Clone, Copy, PartialEq, Eq)]
enum What {
    Get,
    Put,
    Delete,
    PutIf,
    PutIfAbsent,
    DeleteIf,
}

const WHAT: [What; 8] =
    [What::Get, What::Get, What::Put, What::Put, What::Delete, What::PutIf, What::PutIfAbsent, What::DeleteIf];

impl What {
    fn has_value(self) -> bool {
        matches!(self, What::Put | What::PutIf | What::PutIfAbsent)
    }

    fn is_conditional(self) -> bool {
        matches!(self, What::PutIf | What::PutIfAbsent | What::DeleteIf)
    }
}

/// A client with what it has seen.
struct Living<'a> {
    number: u64,
    dice: Dice,
    client: Client,
    history: &'a Mutex<String>,
    count: u64,
    /// The version of each key that it has seen last.
    seen: [u64; KEYS as usize],
    /// The key whose version was another one than a condition said: it is tried again.
    again: Option<u64>,
    lived: Lived,
}

/// A client writes and reads until it is told to end, and notes each invocation and its response, as `ramseg check`
/// reads them. Each operation has a process number of its own.
pub fn live(number: u64, seed: u64, target: Target, ends: &AtomicBool, history: &Mutex<String>) -> Lived {
    let dice = Dice::new(seed.wrapping_mul(31).wrapping_add(number));
    let mut client = Client::new(target);
    client.wait = Duration::from_millis(800);
    client.patience = Duration::from_millis(1500);
    let (seen, lived) = ([0; KEYS as usize], Lived::default());
    let mut living = Living { number, dice, client, history, count: 0, seen, again: None, lived };
    let mut last = Instant::now();
    while !ends.load(Ordering::Relaxed) {
        if living.ask() {
            living.lived.answered(&mut last);
        }
        if living.again.is_none() {
            let pause = 2 + living.dice.below(10);
            thread::sleep(Duration::from_millis(pause));
        }
    }
    living.lived.answered(&mut last);
    living.lived
}

impl Living<'_> {
    /// Asks for one thing, and says whether there was an answer. A conditional write is a write and a read, of which one
    /// is done: the write where the condition holds, else the read.
    fn ask(&mut self) -> bool {
        self.count += 1;
        let (key, what) = match self.again.take() {
            Some(key) => (key, What::PutIf),
            None => (self.dice.below(KEYS), WHAT[self.dice.below(8) as usize]),
        };
        let (writes, reads) = (what != What::Get, what == What::Get || what.is_conditional());
        let value = format!("{}-{}", self.number, self.count);
        let given = if what.has_value() { text(Some(value.as_bytes())) } else { "null".into() };
        let process = 2 * (self.count * CLIENTS + self.number);
        let note = |kind: [&str; 2], written: &str, read: &str| {
            let [write, read_kind] = kind;
            if writes {
                note(self.history, process, write, "write", key, &format!("\"value\":{given}{written}"));
            }
            if reads {
                note(self.history, process + 1, read_kind, "read", key, read);
            }
        };
        let nothing = "\"value\":null";
        note(["invoke"; 2], "", nothing);
        let outcome = ask_for(&mut self.client, what, key, value.as_bytes(), self.seen[key as usize]);
        let of_read =
            |found: &Found| format!("\"value\":{},\"version\":{}", text(found.value.as_deref()), found.version);
        match &outcome {
            Ok(found) if writes => note(["ok", "fail"], &format!(",\"version\":{}", found.version), nothing),
            Ok(found) | Err(Error::Mismatch(found)) => note(["fail", "ok"], "", &of_read(found)),
            Err(Error::Unknown) => note(["info"; 2], "", nothing),
            Err(_) => note(["fail"; 2], "", nothing),
        }
        self.learn(key, writes, &outcome)
    }

    /// Counts what has come of a request, and says whether there was an answer.
    fn learn(&mut self, key: u64, writes: bool, outcome: &Result<Found, Error>) -> bool {
        match outcome {
            Ok(found) | Err(Error::Mismatch(found)) => self.seen[key as usize] = found.version,
            Err(_) => {
                self.lived.unknown += 1;
                return false;
            }
        }
        match outcome {
            Ok(_) if writes => self.lived.writes += 1,
            Ok(_) => self.lived.reads += 1,
            Err(_) => {
                self.lived.mismatches += 1;
                self.again = Some(key);
            }
        }
        true
    }
}

/// Asks for this, at a version where there is a condition.
fn ask_for(client: &mut Client, what: What, key: u64, value: &[u8], version: u64) -> Result<Found, Error> {
    let found = |version| Found { version, value: None };
    match what {
        What::Get => client.get(TABLE, key),
        What::Put => client.put(TABLE, key, value).map(found),
        What::Delete => client.delete(TABLE, key).map(found),
        What::PutIf => client.put_if(TABLE, key, version, value).map(found),
        What::PutIfAbsent => client.put_if_absent(TABLE, key, value).map(found),
        What::DeleteIf => client.delete_if(TABLE, key, version).map(found),
    }
}

/// A value in hexadecimal, in quotes, or null.
fn text(value: Option<&[u8]>) -> String {
    value.map_or("null".into(), |value| {
        let digits = value.iter().map(|byte| format!("{byte:02x}")).collect::<String>();
        format!("\"{digits}\"")
    })
}

/// Adds a line to the history.
fn note(history: &Mutex<String>, process: u64, kind: &str, f: &str, key: u64, more: &str) {
    if let Ok(mut history) = history.lock() {
        let key = format!("\"{TABLE}/{key}\"");
        let line = format!("\"process\":{process},\"type\":\"{kind}\",\"f\":\"{f}\",\"key\":{key},{more}");
        let _ = writeln!(history, "{{{line}}}");
    }
}
