//! Locks with fencing tokens, by conditional writes, while owners end: two never have a lock at once, and who comes too
//! late writes nothing.
//!
//! `locks PORT HOSTS SECONDS CLIENTS LOCKS`: so many clients take so many locks of table 2, of a cluster on this
//! machine, each for a while, and write what the lock guards. A lock has a name; its value says who has it, and until
//! when. After that time another one takes it: so the clocks of all have to agree. A token is the version of the lock,
//! which rises. Now and then a client sleeps until its time is over, and writes then: what is guarded keeps the greatest
//! token that it has seen, and takes nothing with a smaller one. It has a name in the same table.
//!
//! 1. A lock is a name. Where another name has the same key, that is an error, and not a lock.
//! 2. It is taken by `put_if_absent`. Where somebody has it whose time is over, it is taken by `put_if`, with the
//!    version that the mismatch has shown: of several who try that one succeeds.
//! 3. It is let go by `delete_if`, with the version that one holds: who comes too late ends nobody else's lock.
//! 4. A take that is unknown is looked for by a read: it was done where the value is one's own. If it is done later,
//!    nobody knows, and its time will be over.

use sevunthi_client::names::{self, Names};
use sevunthi_client::{Client, Error, Target};
use std::process::ExitCode;
use std::sync::mpsc::{Sender, channel};
use std::thread;
use std::time::{Duration, SystemTime, UNIX_EPOCH};

/// The table, in which all has names.
const TABLE: u32 = 2;
/// For so many milliseconds a lock is held.
const HELD: u64 = 400;

/// Milliseconds since 1970.
fn now() -> u64 {
    SystemTime::now().duration_since(UNIX_EPOCH).map_or(0, |since| since.as_millis() as u64)
}

/// A lock that somebody has.
struct Held {
    name: String,
    token: u64,
    until: u64,
}

/// Why a lock was not taken.
enum NotTaken {
    /// Another one has it.
    IsHeld,
    /// Something else: where it is unknown, the lock may be held until its time is over.
    Failed(names::Error),
}

impl From<names::Error> for NotTaken {
    fn from(error: names::Error) -> NotTaken {
        NotTaken::Failed(error)
    }
}

/// Locks of a cluster, as one client takes them.
struct Locks {
    names: Names<Client>,
    holder: String,
}

impl Locks {
    /// Takes a lock, if nobody has it, or its time is over.
    fn take(&mut self, name: &str) -> Result<Held, NotTaken> {
        let until = now() + HELD;
        let value = format!("{} {until}", self.holder);
        let taken = match self.names.put_if_absent(name.as_bytes(), value.as_bytes()) {
            Err(names::Error::Asked(Error::Mismatch(found))) => {
                let text = String::from_utf8_lossy(found.value.as_deref().unwrap_or_default()).into_owned();
                let until = text.split(' ').nth(1).and_then(|word| word.parse().ok());
                if until.is_some_and(|until: u64| now() <= until) {
                    return Err(NotTaken::IsHeld);
                }
                self.names.put_if(name.as_bytes(), found.version, value.as_bytes())
            }
            taken => taken,
        };
        let token = match taken {
            Err(names::Error::Asked(Error::Mismatch(_))) => return Err(NotTaken::IsHeld),
            Err(names::Error::Asked(Error::Unknown)) => self.look_for(name, &value)?,
            taken => taken?,
        };
        Ok(Held { name: name.to_string(), token, until })
    }

    /// The answer was lost: the value says whether it was done.
    fn look_for(&mut self, name: &str, value: &str) -> Result<u64, NotTaken> {
        let found = self.names.get(name.as_bytes())?;
        let is_mine = found.value.as_deref() == Some(value.as_bytes());
        if is_mine { Ok(found.version) } else { Err(names::Error::Asked(Error::Unknown).into()) }
    }

    /// Lets a lock go, if it is still held. Where nobody knows whether that was done, its time will be over.
    fn let_go(&mut self, held: &Held) {
        let _ = self.names.delete_if(held.name.as_bytes(), held.token);
    }

    /// Writes what a lock guards, under its token. Says whether it was taken: a greater token was not there.
    fn write_guarded(&mut self, name: &str, token: u64) -> Result<bool, names::Error> {
        let name = format!("guarded by {name}").into_bytes();
        let mut found = self.names.get(&name)?;
        loop {
            let text = found.value.as_deref().map(String::from_utf8_lossy).unwrap_or_default();
            if text.parse().is_ok_and(|greatest: u64| token < greatest) {
                return Ok(false);
            }
            match self.names.put_if(&name, found.version, token.to_string().as_bytes()) {
                Err(names::Error::Asked(Error::Mismatch(there))) => found = there,
                written => return written.map(|_| true),
            }
        }
    }
}

/// What a client tells of its locks.
enum Said {
    /// It had this lock, from then to then.
    Had { lock: u64, token: u64, from: u64, to: u64 },
    /// It was too late, and what it wrote was taken, or was not.
    Late { was_taken: bool },
    /// A lock was not taken, or what it guards not written; or nobody knows.
    Failed(names::Error),
}

/// Takes one lock after another until the end.
fn live(target: Target, number: u64, locks: u64, end: u64, said: &Sender<Said>) {
    let mut mine = Locks { names: Names::new(Client::new(target), TABLE), holder: format!("client-{number}") };
    for count in number.. {
        if end < now() {
            return;
        }
        let lock = count % locks;
        let what = match mine.take(&format!("lock-{lock}")) {
            Ok(held) if count % 50 == 0 => {
                thread::sleep(Duration::from_millis(2 * HELD));
                match mine.write_guarded(&held.name, held.token) {
                    Ok(was_taken) => Said::Late { was_taken },
                    Err(error) => Said::Failed(error),
                }
            }
            Ok(held) => {
                let from = now();
                let is_written = mine.write_guarded(&held.name, held.token);
                let to = now().min(held.until);
                mine.let_go(&held);
                match is_written {
                    Ok(_) => Said::Had { lock, token: held.token, from, to },
                    Err(error) => Said::Failed(error),
                }
            }
            Err(NotTaken::IsHeld) => {
                thread::sleep(Duration::from_millis(1));
                continue;
            }
            Err(NotTaken::Failed(error)) => Said::Failed(error),
        };
        let _ = said.send(what);
    }
}

fn main() -> ExitCode {
    let words: Vec<u64> = std::env::args().skip(1).filter_map(|word| word.parse().ok()).collect();
    let &[port, hosts, seconds, clients, locks] = &words[..] else {
        eprintln!("usage: locks PORT HOSTS SECONDS CLIENTS LOCKS");
        return ExitCode::from(2);
    };
    let target = Target::on("127.0.0.1", port as u16, hosts as u8);
    let (end, (to, from)) = (now() + 1000 * seconds, channel());
    for number in 0..clients {
        let (target, to) = (target.clone(), to.clone());
        thread::spawn(move || live(target, number, locks, end, &to));
    }
    drop(to);
    let (mut had, mut late, mut fenced, mut unknown, mut failed) = (Vec::new(), 0, 0, 0, 0);
    for what in from {
        match what {
            Said::Had { lock, token, from, to } if from < to => had.push((lock, token, from, to)),
            Said::Had { .. } => late += 1,
            Said::Late { was_taken } => {
                late += 1;
                fenced += u64::from(!was_taken);
            }
            Said::Failed(names::Error::Asked(Error::Unknown)) => unknown += 1,
            Said::Failed(_) => failed += 1,
        }
    }
    had.sort_unstable();
    let both = |pair: &&[(u64, u64, u64, u64)]| pair[0].0 == pair[1].0;
    let at_once = had.windows(2).filter(both).filter(|pair| pair[0].1 == pair[1].1 || pair[1].2 < pair[0].3).count();
    let count = had.len();
    println!(
        "{count} locks were had, {at_once} by two at once; {late} were late, of whom {fenced} were kept out; \
         {unknown} unknown, {failed} failed"
    );
    if 0 < count && at_once == 0 { ExitCode::SUCCESS } else { ExitCode::FAILURE }
}
