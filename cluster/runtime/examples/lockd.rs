//! A lock service with fencing tokens, as a service on the hosts: `sevunthi_runtime` does all that a node wants.
//!
//! `lockd coordinator FOLDER SECRET PORT HOSTS`, `lockd host INDEX FOLDER SECRET PORT HOSTS`: the processes of a cluster on
//! this machine, where host 0 listens at the port, and the others and then the coordinator at those that follow. SECRET
//! is a file that all of them have, and nobody else.
//! `lockd lock PORT HOSTS NAME MILLISECONDS`, `lockd unlock PORT HOSTS NAME TOKEN`: a client.
//!
//! 1. A lock is an entry at a key that is a sum of its name: who has it, by which request, and for how long. It is taken and
//!    let go by conditional writes. The *token* is the version of the entry, which rises with each, whoever owns the key.
//!    What a lock guards keeps the greatest token that it has seen, and takes nothing with a smaller one.
//! 2. The time of a lock runs at its owner's process, by a clock that only has to run at the right pace. It begins when the
//!    lock is durable, and anew where another owner is granted the key. A client counts from before it asks. So no two
//!    clients hold a lock at once, whatever their clocks say.
//! 3. What the service has in memory is what the entries say, and may be stale where this host was replaced: each write is
//!    conditional, and fails then.
//! 4. A client whose answer is lost asks again with the same number: the entry says whether it has the lock already.

use sevunthi_client::SecretFile;
use sevunthi_runtime::kept::NotOpened;
use sevunthi_runtime::owner::{Condition, Outcome, Range};
use sevunthi_runtime::serve::{Config, coordinate, serve};
use sevunthi_runtime::service::{Caller, Cx, Service, Ticket};
use sevunthi_runtime::sockets::{Call, Sockets};
use std::collections::{HashMap, HashSet};
use std::convert::Infallible;
use std::error::Error;
use std::net::SocketAddr;
use std::process::ExitCode;
use std::time::{Duration, Instant};
use std::{env, process, thread};

const TABLE: u32 = 1;

/// What an answer begins with; a token of eight bytes follows.
mod code {
    pub const DONE: u8 = 0;
    pub const HELD: u8 = 1;
    pub const NOT_HELD: u8 = 2;
    pub const ELSEWHERE: u8 = 3;
    pub const AGAIN: u8 = 4;
    pub const CLASH: u8 = 5;
    pub const WRONG: u8 = 6;
}

/// A request: what is wanted, the client and its number of this, an argument, and the lock's name.
#[derive(Clone, Debug)]
struct Ask {
    locks: bool,
    client: u64,
    number: u64,
    /// For how many milliseconds, or which token is let go.
    argument: u64,
    name: Vec<u8>,
}

impl Ask {
    fn code(&self) -> Vec<u8> {
        let numbers = [self.client, self.number, self.argument].into_iter().flat_map(u64::to_le_bytes);
        [u8::from(self.locks)].into_iter().chain(numbers).chain(self.name.iter().copied()).collect()
    }

    fn read(bytes: &[u8]) -> Option<Ask> {
        let (&first, rest) = bytes.split_first()?;
        let number = |at: usize| Some(u64::from_le_bytes(rest.get(8 * at..8 * at + 8)?.try_into().ok()?));
        let name = rest.get(24..).filter(|name| (1..=256).contains(&name.len()))?.to_vec();
        Some(Ask { locks: first == 1, client: number(0)?, number: number(1)?, argument: number(2)?, name })
    }

    /// A sum of the name, of 63 bits. Where two names have one, the second to come is refused while the first is held.
    fn key(&self) -> u64 {
        let mix = |sum: u64, byte: &u8| (sum ^ u64::from(*byte)).wrapping_mul(0x0100_0000_01b3);
        self.name.iter().fold(0xcbf2_9ce4_8422_2325, mix) >> 1
    }
}

/// A lock that somebody has.
struct Lock {
    token: u64,
    ask: Ask,
    until: Instant,
}

impl Lock {
    /// It is durable, or was when this owner was granted its key: its time begins.
    fn begins(token: u64, ask: Ask) -> Lock {
        Lock { token, until: Instant::now() + Duration::from_millis(ask.argument), ask }
    }
}

/// The locks of what this host owns.
#[derive(Default)]
struct Locks {
    held: HashMap<u64, Lock>,
    /// Keys with a write under way.
    busy: HashSet<u64>,
    asked: HashMap<Ticket, (Caller, Ask)>,
}

impl Locks {
    fn say(cx: &mut Cx<'_>, to: Caller, code: u8, token: u64) {
        cx.answer(to, &[&[code][..], &token.to_le_bytes()].concat());
    }

    /// What the answer is without a write, or else the condition of one.
    fn judge(&self, ask: &Ask) -> Result<Condition, (u8, u64)> {
        let Some(lock) = self.held.get(&ask.key()) else {
            return if ask.locks { Ok(Condition::Absent) } else { Err((code::NOT_HELD, 0)) };
        };
        let is_over = lock.until <= Instant::now();
        let is_same = (lock.ask.client, lock.ask.number) == (ask.client, ask.number);
        match ask.locks {
            _ if lock.ask.name != ask.name && !is_over => Err((code::CLASH, 0)),
            true if is_same && !is_over => Err((code::DONE, lock.token)),
            true if !is_over => Err((code::HELD, lock.token)),
            false if lock.token != ask.argument => Err((code::NOT_HELD, lock.token)),
            _ => Ok(Condition::Version(lock.token)),
        }
    }
}

impl Service for Locks {
    fn granted(&mut self, cx: &mut Cx<'_>, range: Range) {
        let mut next = (range.table == TABLE).then_some(range.first);
        while let Some(first) = next {
            let Ok(page) = cx.entries(TABLE, first..=range.last, 1000) else { return };
            for entry in page.entries {
                self.held.extend(Ask::read(&entry.value).map(|ask| (entry.key, Lock::begins(entry.version, ask))));
            }
            next = page.next;
        }
    }

    fn ask(&mut self, cx: &mut Cx<'_>, from: Caller, request: &[u8]) {
        let Some(ask) = Ask::read(request) else { return Locks::say(cx, from, code::WRONG, 0) };
        let key = ask.key();
        if !cx.owns(TABLE, key) {
            return Locks::say(cx, from, code::ELSEWHERE, 0);
        }
        if self.busy.contains(&key) {
            return Locks::say(cx, from, code::AGAIN, 0);
        }
        match self.judge(&ask) {
            Ok(condition) => {
                let value = ask.locks.then(|| ask.code());
                let ticket = cx.write_if(TABLE, key, condition, value.as_deref());
                self.busy.insert(key);
                self.asked.insert(ticket, (from, ask));
            }
            Err((code, token)) => Locks::say(cx, from, code, token),
        }
    }

    fn done(&mut self, cx: &mut Cx<'_>, ticket: Ticket, outcome: Outcome) {
        let Some((caller, ask)) = self.asked.remove(&ticket) else { return };
        let key = ask.key();
        self.busy.remove(&key);
        let (code, token) = match outcome {
            Outcome::Written(token) if ask.locks => {
                self.held.insert(key, Lock::begins(token, ask));
                (code::DONE, token)
            }
            Outcome::Written(token) => {
                self.held.remove(&key);
                (code::DONE, token)
            }
            // what was in memory is stale: this is there
            Outcome::Mismatch(token, value) => {
                self.held.remove(&key);
                let there = value.as_deref().and_then(Ask::read);
                self.held.extend(there.map(|ask| (key, Lock::begins(token, ask))));
                (code::AGAIN, 0)
            }
            Outcome::Refused(_) | Outcome::Unknown => (code::AGAIN, 0),
            Outcome::Found(..) | Outcome::Page(_) => (code::WRONG, 0),
        };
        Locks::say(cx, caller, code, token);
    }

    fn begun_anew(&mut self, _: &mut Cx<'_>) {
        // those that are asked for stay: what has become of them follows
        self.held.clear();
        self.busy.clear();
    }
}

type Outcomes<T> = Result<T, Box<dyn Error>>;

/// Where all listen: hosts, and then the coordinator.
fn addresses(port: &str, hosts: &str) -> Outcomes<Vec<SocketAddr>> {
    let (port, hosts): (u16, u16) = (port.parse()?, hosts.parse()?);
    Ok((port..=port + hosts).map(|port| ([127, 0, 0, 1], port).into()).collect())
}

fn config(folder: &str, hosts: &str) -> Outcomes<Config> {
    Ok(Config { long: 1 << 22, segment: 256, ..Config::new(folder, hosts.parse()?) })
}

fn told(why: NotOpened) -> Box<dyn Error> {
    format!("{why:?}").into()
}

fn run_coordinator(folder: &str, secret: &str, port: &str, hosts: &str) -> Outcomes<Infallible> {
    let addresses = addresses(port, hosts)?;
    let (sockets, events) = Sockets::open(&addresses, addresses.len() - 1, &SecretFile::new(secret))?;
    coordinate(config(folder, hosts)?, &[TABLE], sockets, &events).map_err(told)
}

fn run_host(index: &str, folder: &str, secret: &str, port: &str, hosts: &str) -> Outcomes<Infallible> {
    let index: u8 = index.parse()?;
    let (sockets, events) = Sockets::open(&addresses(port, hosts)?, index.into(), &SecretFile::new(secret))?;
    serve(config(folder, hosts)?, index, sockets, &events, Locks::default()).map_err(told)
}

/// Asks one host after another until one says what became of it. A request has one number, however often it is asked.
fn ask(port: &str, hosts: &str, locks: bool, name: &str, argument: &str) -> Outcomes<()> {
    let addresses = addresses(port, hosts)?;
    let now = std::time::UNIX_EPOCH.elapsed()?.as_nanos() as u64;
    let client = u64::from(process::id());
    let ask = Ask { locks, client, number: now, argument: argument.parse()?, name: name.into() };
    for turn in 0..1000 {
        let address = addresses[turn % (addresses.len() - 1)];
        let said = Call::open(address, Duration::from_secs(2)).and_then(|mut call| call.ask(&ask.code()));
        let token = said.as_ref().ok().and_then(|said| Some(u64::from_le_bytes(said.get(1..9)?.try_into().ok()?)));
        match said.as_deref().map(|said| said.first()) {
            Ok(Some(&code::DONE)) => {
                println!("token {}", token.unwrap_or(0));
                return Ok(());
            }
            Ok(Some(&code::HELD)) => return Err("somebody has it".into()),
            Ok(Some(&code::NOT_HELD)) => return Err("it is not held under this token".into()),
            Ok(Some(&code::CLASH)) => return Err("another name has its key".into()),
            Ok(Some(&code::WRONG)) => return Err("a name has 1 to 256 bytes".into()),
            _ => thread::sleep(Duration::from_millis(5)),
        }
    }
    Err("nobody who owns it was reached".into())
}

fn main() -> ExitCode {
    let words: Vec<String> = env::args().skip(1).collect();
    let words: Vec<&str> = words.iter().map(String::as_str).collect();
    let said = match words[..] {
        ["coordinator", folder, secret, port, hosts] => run_coordinator(folder, secret, port, hosts).map(|_| ()),
        ["host", index, folder, secret, port, hosts] => run_host(index, folder, secret, port, hosts).map(|_| ()),
        ["lock", port, hosts, name, milliseconds] => ask(port, hosts, true, name, milliseconds),
        ["unlock", port, hosts, name, token] => ask(port, hosts, false, name, token),
        _ => Err("usage: lockd coordinator|host|lock|unlock ..".into()),
    };
    match said {
        Ok(()) => ExitCode::SUCCESS,
        Err(why) => {
            eprintln!("lockd: {why}");
            ExitCode::FAILURE
        }
    }
}
