//! Asking etcd, by the JSON gateway of its API v3: POSTs by plain HTTP/1.1, over one connection at a time. Where one
//! endpoint does not answer, the next one is asked.

use super::json::{Json, to_base64};
use crate::addresses;
use crate::log::tell;
use std::fmt::{self, Display, Formatter, Write as _};
use std::io::{self, ErrorKind, Read, Write};
use std::net::TcpStream;
use std::sync::Arc;
use std::sync::atomic::{AtomicU64, Ordering};
use std::thread;
use std::time::{Duration, Instant};

/// So long one endpoint is waited for, before the next is asked: an answer, and a connection.
const PATIENCE: Duration = Duration::from_millis(500);
const CONNECTING: Duration = Duration::from_millis(250);

/// Between attempts in vain; and where etcd has no space left, which somebody has to see to.
const PAUSE: Duration = Duration::from_millis(10);
const LONG_PAUSE: Duration = Duration::from_secs(1);

/// That etcd does not answer is told when that has lasted so long, and then again with each minute.
const LASTS: Duration = Duration::from_secs(1);
const AGAIN: Duration = Duration::from_secs(60);

/// The longest head of an answer, and the longest answer.
const MOST_HEAD: usize = 64 << 10;
const MOST_ANSWER: usize = 64 << 20;

/// What etcd says where its space is used up.
const NO_SPACE: &str = "database space exceeded";

/// What was counted by all who ask.
#[derive(Debug, Default)]
pub struct Counts {
    /// Transactions that were done.
    pub done: AtomicU64,
    /// Attempts without an answer: nobody knew whether it was done.
    pub lost: AtomicU64,
    /// Transactions of which that was recognised: they had been done.
    pub recognised: AtomicU64,
    /// Attempts that were refused since etcd has no space left.
    pub no_space: AtomicU64,
    /// How often history was compacted.
    pub compactions: AtomicU64,
}

/// Counts one more.
pub fn count(counter: &AtomicU64) {
    counter.fetch_add(1, Ordering::Relaxed);
}

/// One thing that has to hold: a key has this value, or is not there.
#[derive(Clone, Copy, Debug)]
pub struct Compare<'a> {
    /// The key.
    pub key: &'a str,
    /// Its value.
    pub is: Option<&'a [u8]>,
}

/// What a transaction does.
#[derive(Clone, Debug)]
pub enum Act<'a> {
    /// A key gets a value.
    Put(&'a str, &'a [u8]),
    /// All keys from the one up to the other go.
    Delete(String, String),
    /// What the key has then is wanted.
    Get(&'a str),
}

/// What keys have, in the order in which they were asked for.
pub type Got = Vec<Option<Vec<u8>>>;

/// What a transaction has come to. A value is there for each act, or for each comparison, if the key has one.
#[derive(Debug, PartialEq, Eq)]
pub enum Came {
    /// All held, and it was done: with what was got.
    Done(Got),
    /// Something does not hold, and nothing was done: what the keys have that were compared.
    Differs(Got),
}

/// Why there is no answer.
#[derive(Debug)]
pub enum Trouble {
    /// None came, or one that says nothing: nobody knows whether it was done.
    NoAnswer(String),
    /// It was not done: etcd has no space left.
    NoSpace,
}

impl Display for Trouble {
    fn fmt(&self, out: &mut Formatter<'_>) -> fmt::Result {
        match self {
            Trouble::NoAnswer(why) => write!(out, "{why}"),
            Trouble::NoSpace => write!(
                out,
                "it has no space left, and no coordinator leads until it has: compact and defragment it, and disarm \
                 its alarm (etcdctl defrag, etcdctl alarm disarm)"
            ),
        }
    }
}

impl From<io::Error> for Trouble {
    fn from(error: io::Error) -> Trouble {
        match error.kind() {
            ErrorKind::WouldBlock | ErrorKind::TimedOut => Trouble::NoAnswer("nothing came in time".to_string()),
            _ => Trouble::NoAnswer(error.to_string()),
        }
    }
}

/// A value, with the revision at which it was put.
pub type Value = (Vec<u8>, String);

/// A key with its value.
pub type Row = (String, Vec<u8>);

/// Who asks etcd.
pub struct Gateway {
    endpoints: Vec<String>,
    at: usize,
    stream: Option<TcpStream>,
    /// What begins each key of this cluster.
    prefix: String,
    /// The store's revision, as it was told last.
    pub revision: u64,
    /// What was counted.
    pub counts: Arc<Counts>,
    /// Since when nothing was answered, and when that was told.
    since: Option<Instant>,
    told: Option<Instant>,
}

impl Clone for Gateway {
    /// The same, with a connection of its own.
    fn clone(&self) -> Gateway {
        let (endpoints, prefix, counts) = (self.endpoints.clone(), self.prefix.clone(), Arc::clone(&self.counts));
        Gateway { endpoints, at: 0, stream: None, prefix, revision: self.revision, counts, since: None, told: None }
    }
}

impl Gateway {
    /// One to these endpoints, each a name or a number with a port. Which keys are this cluster's its name says.
    pub fn new(endpoints: &[String], name: &str) -> Gateway {
        Gateway {
            endpoints: endpoints.to_vec(),
            at: 0,
            stream: None,
            prefix: format!("sevunthi/{name}/"),
            revision: 0,
            counts: Arc::default(),
            since: None,
            told: None,
        }
    }

    fn key(&self, key: &str) -> String {
        to_base64(format!("{}{key}", self.prefix).as_bytes())
    }

    /// Asks one endpoint once; after an error the next one is next.
    fn ask_once(&mut self, path: &str, body: &str) -> Result<Json, Trouble> {
        let asked = self.try_once(path, body);
        match &asked {
            Ok(json) => {
                let revision = json.get("header").map_or("", |header| header.word("revision"));
                self.revision = revision.parse().unwrap_or(self.revision);
                self.end_silence();
            }
            Err(Trouble::NoSpace) => count(&self.counts.no_space),
            Err(Trouble::NoAnswer(_)) => {
                count(&self.counts.lost);
                self.at = (self.at + 1) % self.endpoints.len();
            }
        }
        asked
    }

    fn try_once(&mut self, path: &str, body: &str) -> Result<Json, Trouble> {
        let endpoint = &self.endpoints[self.at];
        let mut stream = match self.stream.take() {
            Some(stream) => stream,
            None => {
                let stream = addresses::connect(endpoint, CONNECTING)?;
                stream.set_nodelay(true)?;
                stream.set_read_timeout(Some(PATIENCE))?;
                stream.set_write_timeout(Some(PATIENCE))?;
                stream
            }
        };
        let length = body.len();
        let head = format!("POST {path} HTTP/1.1\r\nHost: {endpoint}\r\nContent-Type: application/json\r\n");
        stream.write_all(format!("{head}Content-Length: {length}\r\n\r\n{body}").as_bytes())?;
        let (status, answer) = read_answer(&mut stream)?;
        let text = || String::from_utf8_lossy(&answer).trim().chars().take(200).collect::<String>();
        if status != 200 {
            let text = text();
            return Err(if text.contains(NO_SPACE) {
                Trouble::NoSpace
            } else {
                Trouble::NoAnswer(format!("it says {status}: {text}"))
            });
        }
        let json = Json::read(&answer).ok_or_else(|| Trouble::NoAnswer(format!("it says {}", text())))?;
        self.stream = Some(stream);
        Ok(json)
    }

    /// Tells that nothing is answered, where that lasts.
    fn tell(&mut self, trouble: &Trouble) {
        let now = Instant::now();
        let since = *self.since.get_or_insert(now);
        if LASTS <= now - since && self.told.is_none_or(|told| AGAIN <= now - told) {
            self.told = Some(now);
            tell(format_args!("etcd at {} does not take what is asked: {trouble}", self.endpoints[self.at]));
        }
    }

    fn end_silence(&mut self) {
        if let (Some(since), Some(_)) = (self.since.take(), self.told.take()) {
            tell(format_args!("etcd answers again, after {} s", since.elapsed().as_secs()));
        }
    }

    /// Asks until somebody answers. Says whether an answer was lost before.
    fn ask(&mut self, path: &str, body: &str) -> (Json, bool) {
        let mut was_lost = false;
        loop {
            match self.ask_once(path, body) {
                Ok(json) => return (json, was_lost),
                Err(trouble) => {
                    was_lost |= matches!(trouble, Trouble::NoAnswer(_));
                    self.tell(&trouble);
                    thread::sleep(if matches!(trouble, Trouble::NoSpace) { LONG_PAUSE } else { PAUSE });
                }
            }
        }
    }

    fn body(&self, compares: &[Compare], acts: &[Act]) -> String {
        let compares_text: Vec<String> = compares.iter().map(|compare| self.compare_text(compare)).collect();
        let acts_text: Vec<String> = acts.iter().map(|act| self.act_text(act)).collect();
        let gets: Vec<String> = compares.iter().map(|compare| self.act_text(&Act::Get(compare.key))).collect();
        let mut body = String::new();
        let (compares, acts, gets) = (compares_text.join(","), acts_text.join(","), gets.join(","));
        let _ = write!(body, "{{\"compare\":[{compares}],\"success\":[{acts}],\"failure\":[{gets}]}}");
        body
    }

    fn compare_text(&self, compare: &Compare) -> String {
        let key = self.key(compare.key);
        match compare.is {
            Some(value) => {
                let value = to_base64(value);
                format!("{{\"key\":\"{key}\",\"target\":\"VALUE\",\"result\":\"EQUAL\",\"value\":\"{value}\"}}")
            }
            None => {
                format!("{{\"key\":\"{key}\",\"target\":\"CREATE\",\"result\":\"EQUAL\",\"createRevision\":\"0\"}}")
            }
        }
    }

    fn act_text(&self, act: &Act) -> String {
        match act {
            Act::Put(key, value) => {
                format!("{{\"requestPut\":{{\"key\":\"{}\",\"value\":\"{}\"}}}}", self.key(key), to_base64(value))
            }
            Act::Get(key) => format!("{{\"requestRange\":{{\"key\":\"{}\"}}}}", self.key(key)),
            Act::Delete(from, to) => {
                let (from, to) = (self.key(from), self.key(to));
                format!("{{\"requestDeleteRange\":{{\"key\":\"{from}\",\"rangeEnd\":\"{to}\"}}}}")
            }
        }
    }

    /// A transaction, asked for until somebody answers. Says whether an answer was lost before.
    pub fn transact(&mut self, compares: &[Compare], acts: &[Act]) -> (Came, bool) {
        let body = self.body(compares, acts);
        let (json, was_lost) = self.ask("/v3/kv/txn", &body);
        count(&self.counts.done);
        (came(&json), was_lost)
    }

    /// A transaction that is asked for once.
    pub fn try_transact(&mut self, compares: &[Compare], acts: &[Act]) -> Result<Came, Trouble> {
        let body = self.body(compares, acts);
        let json = self.ask_once("/v3/kv/txn", &body);
        if let Err(trouble) = &json {
            self.tell(trouble);
        }
        json.map(|json| {
            count(&self.counts.done);
            came(&json)
        })
    }

    /// The keys from one up to another, so many at most, with their values: a read that is linearizable.
    pub fn range(&mut self, from: &str, to: &str, most: usize) -> Option<Vec<Row>> {
        let (from, to) = (self.key(from), self.key(to));
        let body = format!("{{\"key\":\"{from}\",\"rangeEnd\":\"{to}\",\"limit\":\"{most}\"}}");
        let (json, _) = self.ask("/v3/kv/range", &body);
        let row = |row: &Json| {
            let key = String::from_utf8(row.bytes("key")?).ok()?;
            Some((key.strip_prefix(&self.prefix)?.to_string(), row.bytes("value")?))
        };
        json.list("kvs").iter().map(row).collect()
    }

    /// What these keys have at one moment, with the revision at which each was put last; asked for once.
    pub fn look<const N: usize>(&mut self, keys: [&str; N]) -> Result<[Option<Value>; N], Trouble> {
        let body = self.body(&[], &keys.map(Act::Get));
        let json = self.ask_once("/v3/kv/txn", &body);
        if let Err(trouble) = &json {
            self.tell(trouble);
        }
        let json = json?;
        let mut found = json.list("responses").iter().map(|one| {
            let row = one.get("response_range")?.list("kvs").first()?;
            Some((row.bytes("value")?, row.word("mod_revision").to_string()))
        });
        Ok(keys.map(|_| found.next().flatten()))
    }

    /// Has etcd forget its history up to this revision. What it refuses is of no importance.
    pub fn compact(&mut self, revision: u64) {
        if self.ask_once("/v3/kv/compaction", &format!("{{\"revision\":\"{revision}\"}}")).is_ok() {
            count(&self.counts.compactions);
        }
    }
}

fn came(json: &Json) -> Came {
    let value = |one: &Json| one.get("response_range")?.list("kvs").first()?.bytes("value");
    let values = json.list("responses").iter().map(value).collect();
    if json.get("succeeded") == Some(&Json::Truth(true)) { Came::Done(values) } else { Came::Differs(values) }
}

/// Adds what has come to `bytes`.
fn read_more(stream: &mut impl Read, bytes: &mut Vec<u8>) -> io::Result<()> {
    let mut room = [0; 16 << 10];
    match stream.read(&mut room)? {
        0 => Err(ErrorKind::UnexpectedEof.into()),
        _ if MOST_ANSWER < bytes.len() => Err(ErrorKind::InvalidData.into()),
        count => {
            bytes.extend_from_slice(&room[..count]);
            Ok(())
        }
    }
}

/// The status and the body of an answer, which says its length, or comes in pieces that do.
fn read_answer(stream: &mut impl Read) -> io::Result<(u16, Vec<u8>)> {
    let mut bytes = Vec::new();
    let end = loop {
        if let Some(end) = bytes.windows(4).position(|four| four == b"\r\n\r\n") {
            break end;
        }
        if MOST_HEAD < bytes.len() {
            return Err(ErrorKind::InvalidData.into());
        }
        read_more(stream, &mut bytes)?;
    };
    let mut rest = bytes.split_off(end + 4);
    let head = String::from_utf8_lossy(&bytes).to_ascii_lowercase();
    let status = head.split(' ').nth(1).and_then(|word| word.parse().ok()).ok_or(ErrorKind::InvalidData)?;
    let length = head.lines().find_map(|line| line.strip_prefix("content-length:"));
    let Some(length) = length.and_then(|length| length.trim().parse::<usize>().ok()) else {
        return Ok((status, read_chunks(stream, rest)?));
    };
    if MOST_ANSWER < length {
        return Err(ErrorKind::InvalidData.into());
    }
    while rest.len() < length {
        read_more(stream, &mut rest)?;
    }
    rest.truncate(length);
    Ok((status, rest))
}

/// A body in pieces, each behind its length in hexadecimal, of which these bytes have come.
fn read_chunks(stream: &mut impl Read, mut rest: Vec<u8>) -> io::Result<Vec<u8>> {
    let mut answer = Vec::new();
    loop {
        let Some(line) = rest.windows(2).position(|two| two == b"\r\n") else {
            read_more(stream, &mut rest)?;
            continue;
        };
        let length = std::str::from_utf8(&rest[..line]).ok();
        let length = length.and_then(|word| usize::from_str_radix(word.trim(), 16).ok());
        let length = length.filter(|length| answer.len() + length <= MOST_ANSWER).ok_or(ErrorKind::InvalidData)?;
        while rest.len() < line + 2 + length + 2 {
            read_more(stream, &mut rest)?;
        }
        answer.extend_from_slice(&rest[line + 2..line + 2 + length]);
        rest.drain(..line + 2 + length + 2);
        if length == 0 {
            return Ok(answer);
        }
    }
}

/// The endpoints of `etcd=URL,..`.
///
/// # Errors
///
/// What is wrong with these words.
pub fn endpoints(words: &str) -> Result<Vec<String>, String> {
    let list = words.strip_prefix("etcd=");
    let list = list.ok_or(format!("--store is `file`, or one such as etcd=http://127.0.0.1:2379, and not {words}"))?;
    list.split(',')
        .map(|url| {
            let at = url.strip_prefix("http://").ok_or(format!("{url} does not begin with http://"))?;
            let at = at.trim_end_matches('/');
            addresses::check(at).map(|()| at.to_string())
        })
        .collect()
}

#[cfg(test)]
mod tests {
    use super::*;

    #[test]
    fn an_answer_has_a_length_or_pieces() -> io::Result<()> {
        let read = |text: &str| read_answer(&mut text.as_bytes());
        assert_eq!(read("HTTP/1.1 200 OK\r\nContent-Length: 5\r\n\r\nhello")?, (200, b"hello".to_vec()));
        let pieces = "HTTP/1.1 503 X\r\nTransfer-Encoding: chunked\r\n\r\n3\r\nhel\r\n2\r\nlo\r\n0\r\n\r\n";
        assert_eq!(read(pieces)?, (503, b"hello".to_vec()));
        for wrong in [
            "HTTP/1.1 200 OK\r\nContent-Length: 6\r\n\r\nhello",
            "HTTP/1.1 200 OK\r\nContent-Length: 99999999999\r\n\r\nhello",
            "HTTP/1.1 200 OK\r\n\r\nffffffffffff\r\nhello",
            "HTTP/1.1 200 OK\r\n\r\nx\r\n",
            "nonsense\r\n\r\n",
            "",
        ] {
            assert!(read(wrong).is_err(), "{wrong}");
        }
        assert!(read(&"a".repeat(2 * MOST_HEAD)).is_err());
        Ok(())
    }

    #[test]
    fn a_store_is_a_list_of_urls() {
        let two = vec!["10.0.0.1:2379".to_string(), "etcd-b:2379".to_string()];
        assert_eq!(endpoints("etcd=http://10.0.0.1:2379,http://etcd-b:2379/"), Ok(two));
        for (wrong, why) in [
            ("etcd", "--store is `file`, or one such as etcd=http://127.0.0.1:2379, and not etcd"),
            ("etcd=https://a:1", "https://a:1 does not begin with http://"),
            ("etcd=http://a", "a has no port"),
        ] {
            assert_eq!(endpoints(wrong), Err(why.to_string()));
        }
    }
}
