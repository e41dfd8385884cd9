//! How fast writes and reads are.

use crate::client::{Answer, Client, Connection, Error, Missing, Refusal, Target};
use crate::etcd::Etcd;
use crate::hello::Refused;
use crate::options::Options;
use crate::protocol::{DONE, MISMATCH, Op, UNKNOWN};
use crate::reasons::NOT_OWNER;
use std::collections::{BTreeMap, HashMap, VecDeque};
use std::fs;
use std::io::{self, ErrorKind};
use std::time::{Duration, Instant};

/// How a client speaks on its connection.
pub trait Talk {
    /// Asks for one thing, under this number: they are 0, 1, 2 and so on.
    fn ask(&mut self, number: u64, key: u64);
    /// Sends what was asked, and waits for answers: adds the numbers of what was answered, with the codes of the
    /// answers.
    fn wait(&mut self, answers: &mut Vec<(u64, u8)>) -> io::Result<()>;
}

/// A connection to a host.
struct Host {
    connection: Connection,
    op: Op,
    table: u32,
    value: Vec<u8>,
    said: Vec<Answer>,
    /// Of conditional puts: the version of each key, as it was answered, and the key of each request under way.
    versions: HashMap<u64, u64>,
    keys: HashMap<u64, u64>,
}

impl Host {
    fn new(connection: Connection, op: Op, table: u32, value: Vec<u8>) -> Host {
        let (versions, keys) = (HashMap::new(), HashMap::new());
        Host { connection, op, table, value, said: Vec::new(), versions, keys }
    }
}

impl Talk for Host {
    fn ask(&mut self, number: u64, key: u64) {
        let asked = match (self.op, self.versions.get(&key)) {
            (Op::Get, _) => self.connection.get(self.table, key),
            (Op::PutIf, Some(version)) => self.connection.put_if(self.table, key, *version, &self.value),
            _ => self.connection.put(self.table, key, &self.value),
        };
        if self.op == Op::PutIf {
            self.keys.insert(number, key);
        }
        debug_assert_eq!(asked, number);
    }

    fn wait(&mut self, answers: &mut Vec<(u64, u8)>) -> io::Result<()> {
        self.connection.wait(&mut self.said)?;
        answers.extend(self.said.drain(..).map(|Answer { number, said }| {
            if let (Some(key), Ok(found) | Err(Error::Mismatch(found))) = (self.keys.remove(&number), &said) {
                self.versions.insert(key, found.version);
            }
            let code = match said {
                Ok(_) => DONE,
                Err(Error::Refused(refusal)) => refusal.code(),
                Err(Error::Mismatch(_)) => MISMATCH,
                Err(_) => UNKNOWN,
            };
            (number, code)
        }));
        Ok(())
    }
}

/// So long an answer is waited for.
pub const WAIT: Duration = Duration::from_secs(20);

/// What was measured.
#[derive(Default)]
struct Measured {
    seconds: f64,
    /// How many were refused, by their codes.
    refused: BTreeMap<u8, u64>,
    /// Microseconds.
    latencies: Vec<u32>,
    /// Why it ended before its time.
    ended: Option<String>,
}

/// What is asked.
struct Load {
    clients: usize,
    seconds: f64,
    most: u64,
    keys: u64,
}

/// So many clients, each with one request after another, on one connection to the owner of key 0, or to the etcd server
/// at the address of `--etcd`.
pub fn run(options: &Options, target: &Target) -> Result<bool, String> {
    let load = Load {
        clients: options.between("--clients", 64, 1, 1_000_000)?,
        seconds: options.between("--seconds", 5.0, 0.0, 1e9)?,
        most: options.between("--most", u64::MAX, 1, u64::MAX)?,
        keys: options.between("--keys", 10_000, 1, 1 << 63)?,
    };
    let table = options.get("--table", 1)?;
    let etcd = options.given("--etcd");
    let most_bytes = if etcd.is_some() { 1 << 20 } else { 1024 };
    let size = options.between("--size", 100, 0, most_bytes)?;
    let op = match options.given("--op").unwrap_or("put") {
        "put" => Op::Put,
        "get" => Op::Get,
        "put-if" => Op::PutIf,
        other => return Err(format!("--op is put, get or put-if, and not {other}")),
    };
    let value = vec![b'v'; if op == Op::Get { 0 } else { size }];
    let mut talk: Box<dyn Talk> = if let Some(etcd) = etcd {
        Box::new(Etcd::connect(etcd, value).map_err(|error| format!("{etcd}: {error}"))?)
    } else {
        match connect(target, table) {
            Ok(connection) => Box::new(Host::new(connection, op, table, value)),
            Err(missing) => return crate::not_done(&target.told(missing, table)),
        }
    };
    let pids = options.given("--processes");
    let spent = || pids.and_then(|pids| pids.split(',').map(processor_seconds).sum::<Option<f64>>());
    let before = spent();
    if let Some(pids) = pids.filter(|_| before.is_none()) {
        return Err(format!("--processes has numbers of processes, with commas between them, and not {pids}"));
    }
    let measured = ask_all(talk.as_mut(), &load);
    let used = spent().zip(before).map(|(now, before)| now - before);
    Ok(tell(measured, load.clients, used))
}

/// A connection to who owns key 0.
fn connect(target: &Target, table: u32) -> Result<Connection, Missing> {
    let mut client = Client::new(target.clone());
    let owner = client.await_owner(table, 0)?;
    let connection = Connection::open(target, owner).and_then(|mut connection| {
        connection.set_wait(WAIT)?;
        Ok(connection)
    });
    connection.map_err(|refused| match refused {
        Refused::Broken(_) => Missing::Host(owner),
        Refused::NotLetIn(why) => Missing::NotLetIn(owner, why),
    })
}

/// Tells what was measured, with the processor time that was used, and says whether it went to its end.
fn tell(mut measured: Measured, clients: usize, used: Option<f64>) -> bool {
    measured.latencies.sort_unstable();
    let count = measured.latencies.len();
    let at = |part: f64| measured.latencies.get((count as f64 * part) as usize).copied().unwrap_or(0);
    let refused: u64 = measured.refused.values().sum();
    let each = used.map(|used| format!(", {:.1} us of server time each", used * 1e6 / count.max(1) as f64));
    say!(
        "{clients} clients: {:.0} a second, p50 {} us, p99 {} us, {count} done, {refused} refused{}",
        count as f64 / measured.seconds,
        at(0.5),
        at(0.99),
        each.unwrap_or_default()
    );
    for (code, count) in &measured.refused {
        let hint = if *code == NOT_OWNER { "; only who owns key 0 is asked" } else { "" };
        match *code {
            UNKNOWN => say!("{count} refused: unknown: the host was replaced meanwhile"),
            MISMATCH => say!("{count} refused: another version was there"),
            code => say!("{count} refused: {}{hint}", Refusal::of(code)),
        }
    }
    if let Some(why) = &measured.ended {
        eprintln!("sevunthi: after {:.1} s: {why}", measured.seconds);
    }
    0 < count && measured.ended.is_none()
}

/// Requests that are not answered yet, by their numbers, each with when it was asked. They are answered nearly in
/// order.
#[derive(Default)]
struct Asked {
    /// How many were taken away at the front.
    first: u64,
    at: VecDeque<Option<Instant>>,
}

impl Asked {
    /// How many were asked so far: the next one's number.
    fn count(&self) -> u64 {
        self.first + self.at.len() as u64
    }

    /// When the request of this number was asked, which is answered now.
    fn take(&mut self, number: u64) -> Option<Instant> {
        let since = self.at.get_mut(usize::try_from(number.checked_sub(self.first)?).ok()?)?.take();
        while self.at.front().is_some_and(Option::is_none) {
            self.at.pop_front();
            self.first += 1;
        }
        since
    }
}

fn ask_all(talk: &mut dyn Talk, load: &Load) -> Measured {
    let mut asked = Asked::default();
    let ask = |talk: &mut dyn Talk, asked: &mut Asked, now: Instant| {
        talk.ask(asked.count(), asked.count() % load.keys);
        asked.at.push_back(Some(now));
        asked.count() < load.most
    };
    let began = Instant::now();
    let mut goes_on = true;
    for _ in 0..load.clients {
        goes_on = goes_on && ask(talk, &mut asked, began);
    }
    let (mut measured, mut answers) = (Measured::default(), Vec::new());
    while !asked.at.is_empty() {
        let waited = talk.wait(&mut answers);
        let now = Instant::now();
        goes_on = goes_on && (now - began).as_secs_f64() < load.seconds;
        for (number, code) in answers.drain(..) {
            let Some(since) = asked.take(number) else { continue };
            match code {
                DONE => measured.latencies.push((now - since).as_micros() as u32),
                code => *measured.refused.entry(code).or_default() += 1,
            }
            goes_on = goes_on && ask(talk, &mut asked, now);
        }
        if let Err(error) = waited {
            measured.ended = Some(match error.kind() {
                ErrorKind::WouldBlock | ErrorKind::TimedOut => "the server does not answer".to_string(),
                ErrorKind::UnexpectedEof => "the server has gone".to_string(),
                ErrorKind::InvalidData => error.to_string(),
                _ => format!("the server has gone: {error}"),
            });
            break;
        }
    }
    measured.seconds = began.elapsed().as_secs_f64();
    measured
}

/// The processor time that a process has used so far, if it is there.
fn processor_seconds(process: &str) -> Option<f64> {
    let process: u32 = process.parse().ok()?;
    let text = fs::read_to_string(format!("/proc/{process}/stat")).ok()?;
    let words: Vec<f64> = text.rsplit(") ").next()?.split(' ').filter_map(|word| word.parse().ok()).collect();
    Some((words.get(10)? + words.get(11)?) / 100.0)
}

#[cfg(test)]
mod tests {
    use super::*;
    use crate::protocol::Reply;
    use std::io::Write;
    use std::net::{TcpListener, TcpStream};

    /// A server that does one request, refuses the next, and goes.
    #[test]
    fn what_was_measured_is_kept_where_the_server_goes() -> io::Result<()> {
        let listener = TcpListener::bind("127.0.0.1:0")?;
        let connection = Connection::of(TcpStream::connect(listener.local_addr()?)?)?;
        let (mut server, _) = listener.accept()?;
        let mut out = Vec::new();
        Reply::bare(DONE, 0).put(&mut out);
        Reply::bare(NOT_OWNER, 1).put(&mut out);
        server.write_all(&out)?;
        server.shutdown(std::net::Shutdown::Write)?;
        let load = Load { clients: 2, seconds: 60.0, most: u64::MAX, keys: 10 };
        let mut talk = Host::new(connection, Op::Get, 1, Vec::new());
        let measured = ask_all(&mut talk, &load);
        assert_eq!((measured.latencies.len(), measured.refused), (1, BTreeMap::from([(NOT_OWNER, 1)])));
        assert_eq!(measured.ended.as_deref(), Some("the server has gone"));
        Ok(())
    }
}
