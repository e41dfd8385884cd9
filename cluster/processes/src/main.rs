//! Nodes that outlive their processes: three hosts and a coordinator, each in a process of its own, and the outside, on
//! a transport of bytes that loses, repeats and reorders. Processes are killed, and power is cut, at drawn moments:
//! between any two of writing, syncing, letting leave, and the steps of a save. Their nodes come back from what is left
//! of their journals then. A process is a node of the library, and it ends when that is dropped. All this is plain Rust
//! over the static library: nothing is proved of what draws and counts, and the interface for C is tried, too.
//!
//! `processes FIRST COUNT AUDITOR` runs so many seeds from the first on, and tells of each in a line what happened,
//! counted from the works and the messages, what became of the table in the end, and what was wrong: what `AUDITOR
//! audit` says of all messages that left; acknowledged writes that were not read; nodes that had forgotten what they
//! told. The last line counts. The status is 1 where something was wrong.
//!
//! To be read in this order: `process`, a node in its process; `disk`, its files; `cluster`, all nodes, and what
//! follows a work; `life`, a run of a seed; `told` and `kept`, what must not be forgotten. The rest serves these:
//! `network`, what is on its way; `client`, whom the outside asks; `dice`, what is drawn; `audit`; `outcome`, what came
//! of it.

mod audit;
mod client;
mod cluster;
mod dice;
mod disk;
mod kept;
mod life;
mod network;
mod outcome;
mod process;
mod told;

use audit::Audit;
use outcome::{Outcome, Totals};
use std::collections::BTreeMap;
use std::ops::Range;
use std::path::Path;
use std::process::ExitCode;
use std::sync::mpsc::{Receiver, channel};
use std::{env, thread};

const USAGE: &str = "usage: processes FIRST COUNT AUDITOR";

fn main() -> ExitCode {
    let words: Vec<String> = env::args().skip(1).collect();
    let Some((seeds, audit)) = asked(&words) else {
        eprintln!("{USAGE}");
        return ExitCode::from(2);
    };
    match run(seeds, &audit) {
        Ok(true) => ExitCode::SUCCESS,
        Ok(false) => ExitCode::FAILURE,
        Err(error) => {
            eprintln!("processes: {error}");
            ExitCode::from(2)
        }
    }
}

/// The seeds, and who audits, as the words say.
fn asked(words: &[String]) -> Option<(Range<u64>, Audit)> {
    let [first, count, auditor] = words else {
        return None;
    };
    let (first, count) = (first.parse::<u64>().ok()?, count.parse::<u64>().ok()?);
    Some((first..first.checked_add(count)?, Audit::by(Path::new(auditor))))
}

/// What came of a seed, or why it can't be told.
type Told = Result<Outcome, String>;

/// Runs the seeds on all processors, and tells of them in their order. Says whether nothing was wrong.
fn run(seeds: Range<u64>, audit: &Audit) -> Result<bool, String> {
    let workers = thread::available_parallelism().map_or(1, usize::from);
    thread::scope(|scope| {
        let (sender, told) = channel();
        for worker in 0..workers {
            let (sender, seeds) = (sender.clone(), seeds.clone());
            scope.spawn(move || {
                // who is told has ended where nobody takes it
                seeds.skip(worker).step_by(workers).all(|seed| sender.send((seed, outcome_of(seed, audit))).is_ok())
            });
        }
        drop(sender);
        tell(seeds, told)
    })
}

/// Tells of the seeds in their order, which come in any.
fn tell(seeds: Range<u64>, told: Receiver<(u64, Told)>) -> Result<bool, String> {
    let (mut totals, mut waiting) = (Totals::default(), BTreeMap::new());
    for seed in seeds {
        while !waiting.contains_key(&seed) {
            let (number, outcome) = told.recv().map_err(|_| format!("seed {seed} has ended without an outcome"))?;
            waiting.insert(number, outcome);
        }
        if let Some(outcome) = waiting.remove(&seed) {
            let outcome = outcome?;
            totals.add(&outcome);
            println!("{outcome}");
        }
    }
    println!("{totals}");
    Ok(totals.are_right())
}

/// What came of a seed.
fn outcome_of(seed: u64, audit: &Audit) -> Told {
    let cluster = life::run(seed).map_err(|fault| format!("seed {seed}: {fault}"))?;
    let is_clean = audit.is_clean(&cluster.sent).map_err(|error| format!("seed {seed}: {error}"))?;
    Ok(Outcome::of(seed, &cluster, is_clean))
}
