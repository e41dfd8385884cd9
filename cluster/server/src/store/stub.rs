//! For tests: as much of etcd as a coordinator asks of it, in this process, with its faults.

use super::gateway::Gateway;
use super::json::{Json, from_base64, to_base64};
use crate::disk;
use std::collections::BTreeMap;
use std::io::{self, BufRead, BufReader, Write};
use std::net::{TcpListener, TcpStream};
use std::path::PathBuf;
use std::sync::{Arc, Mutex, MutexGuard};
use std::thread;
use std::time::Duration;

/// What the cluster's keys begin with.
const NAME: &str = "a-cluster";

/// A store that listens on loopback.
#[derive(Clone)]
pub struct Stub {
    address: String,
    state: Arc<Mutex<State>>,
}

#[derive(Default)]
struct State {
    /// Each key with its value, and the revision at which it was put.
    rows: BTreeMap<String, (Vec<u8>, u64)>,
    revision: u64,
    /// The next answer is lost, after it was done, or before.
    lost: Option<bool>,
    /// So many requests that put something are refused for want of space.
    lacks_space: u32,
    /// Nothing is answered.
    stands_still: bool,
    /// Up to where history was compacted.
    compacted: Option<u64>,
}

/// A folder for a test.
pub fn empty_folder(name: &str) -> PathBuf {
    let folder = std::env::temp_dir().join(format!("sevunthi-store-{name}-{}", std::process::id()));
    let _ = std::fs::remove_dir_all(&folder);
    disk::make_folder(&folder).expect("there is room for a folder");
    folder
}

impl Stub {
    /// One that has nothing.
    pub fn start() -> io::Result<Stub> {
        let listener = TcpListener::bind("127.0.0.1:0")?;
        let stub = Stub { address: listener.local_addr()?.to_string(), state: Arc::default() };
        let serving = stub.clone();
        thread::spawn(move || {
            for stream in listener.incoming().flatten() {
                let stub = serving.clone();
                thread::spawn(move || stub.serve(stream));
            }
        });
        Ok(stub)
    }

    /// Where it listens.
    pub fn address(&self) -> &str {
        &self.address
    }

    /// Who asks it.
    pub fn gateway(&self) -> Gateway {
        Gateway::new(std::slice::from_ref(&self.address), NAME)
    }

    fn lock(&self) -> MutexGuard<'_, State> {
        self.state.lock().expect("nobody has panicked with it")
    }

    /// The key as it stands in the store.
    fn whole(key: &str) -> String {
        format!("sevunthi/{NAME}/{key}")
    }

    /// What a key has.
    pub fn value(&self, key: &str) -> Option<Vec<u8>> {
        self.lock().rows.get(&Stub::whole(key)).map(|(value, _)| value.clone())
    }

    /// Whoever has the store gives a key a value.
    pub fn put(&self, key: &str, value: &[u8]) {
        self.lock().put(Stub::whole(key), value.to_vec());
    }

    /// Or takes it away.
    pub fn remove(&self, key: &str) {
        self.lock().rows.remove(&Stub::whole(key));
    }

    /// Up to where history was compacted.
    pub fn compacted(&self) -> Option<u64> {
        self.lock().compacted
    }

    /// How many keys begin so.
    pub fn count(&self, prefix: &str) -> usize {
        let prefix = Stub::whole(prefix);
        self.lock().rows.keys().filter(|key| key.starts_with(&prefix)).count()
    }

    /// All that it has.
    pub fn all(&self) -> BTreeMap<String, (Vec<u8>, u64)> {
        self.lock().rows.clone()
    }

    /// The next answer is lost, after what was asked was done, or before.
    pub fn lose_answer(&self, is_done: bool) {
        self.lock().lost = Some(is_done);
    }

    /// So many requests that put something are refused.
    pub fn lack_space(&self, count: u32) {
        self.lock().lacks_space = count;
    }

    /// From now on nothing is answered, or all is.
    pub fn stand_still(&self, stands_still: bool) {
        self.lock().stands_still = stands_still;
    }

    fn serve(&self, stream: TcpStream) -> io::Result<()> {
        let (mut reader, mut writer) = (BufReader::new(stream.try_clone()?), stream);
        loop {
            let (path, body) = read_request(&mut reader)?;
            while self.lock().stands_still {
                thread::sleep(Duration::from_millis(10));
            }
            let lost = self.lock().lost.take();
            if lost == Some(false) {
                return Ok(());
            }
            let (status, answer) = self.lock().answer(&path, &Json::read(&body).expect("it is JSON"));
            if lost == Some(true) {
                return Ok(());
            }
            write!(writer, "HTTP/1.1 {status} X\r\nContent-Length: {}\r\n\r\n{answer}", answer.len())?;
        }
    }
}

fn read_request(reader: &mut impl BufRead) -> io::Result<(String, Vec<u8>)> {
    let (mut path, mut length) = (String::new(), 0);
    loop {
        let mut line = String::new();
        if reader.read_line(&mut line)? == 0 {
            return Err(io::ErrorKind::UnexpectedEof.into());
        }
        if let Some(rest) = line.strip_prefix("POST ") {
            path = rest.split(' ').next().unwrap_or_default().to_string();
        }
        if let Some(rest) = line.strip_prefix("Content-Length: ") {
            length = rest.trim().parse().map_err(io::Error::other)?;
        }
        if line == "\r\n" {
            let mut body = vec![0; length];
            reader.read_exact(&mut body)?;
            return Ok((path, body));
        }
    }
}

fn name(json: &Json, field: &str) -> String {
    String::from_utf8(from_base64(json.word(field)).expect("it is base64")).expect("keys are texts")
}

impl State {
    fn put(&mut self, key: String, value: Vec<u8>) {
        self.revision += 1;
        self.rows.insert(key, (value, self.revision));
    }

    fn answer(&mut self, path: &str, asked: &Json) -> (u16, String) {
        let answer = match path {
            "/v3/kv/txn" => {
                let puts = asked.list("success").iter().any(|act| act.get("requestPut").is_some());
                if puts && 0 < self.lacks_space {
                    self.lacks_space -= 1;
                    return (400, "{\"error\":\"etcdserver: mvcc: database space exceeded\",\"code\":8}".to_string());
                }
                self.transact(asked)
            }
            "/v3/kv/range" => self.range(asked),
            _ => {
                self.compacted = asked.word("revision").parse().ok();
                String::new()
            }
        };
        let comma = if answer.is_empty() { "" } else { "," };
        (200, format!("{{\"header\":{{\"revision\":\"{}\"}}{comma}{answer}}}", self.revision))
    }

    fn holds(&self, compare: &Json) -> bool {
        let row = self.rows.get(&name(compare, "key"));
        match compare.word("target") {
            "VALUE" => row.is_some_and(|(value, _)| Some(value) == from_base64(compare.word("value")).as_ref()),
            _ => row.is_none(),
        }
    }

    fn transact(&mut self, asked: &Json) -> String {
        let succeeded = asked.list("compare").iter().all(|compare| self.holds(compare));
        let acts = asked.list(if succeeded { "success" } else { "failure" });
        let answers: Vec<String> = acts.iter().map(|act| self.act(act)).collect();
        let truth = if succeeded { "\"succeeded\":true," } else { "" };
        format!("{truth}\"responses\":[{}]", answers.join(","))
    }

    fn act(&mut self, act: &Json) -> String {
        if let Some(put) = act.get("requestPut") {
            self.put(name(put, "key"), from_base64(put.word("value")).expect("it is base64"));
            "{\"response_put\":{}}".to_string()
        } else if let Some(range) = act.get("requestRange") {
            format!("{{\"response_range\":{{{}}}}}", self.range(range))
        } else {
            let range = act.get("requestDeleteRange").expect("there are three kinds");
            let (from, to) = (name(range, "key"), name(range, "rangeEnd"));
            self.rows.retain(|key, _| *key < from || to <= *key);
            "{\"response_delete_range\":{}}".to_string()
        }
    }

    fn range(&self, range: &Json) -> String {
        let (from, to) = (name(range, "key"), name(range, "rangeEnd"));
        let most = range.word("limit").parse().unwrap_or(usize::MAX);
        let is_in = |key: &String| if to.is_empty() { *key == from } else { from <= *key && *key < to };
        let rows = self.rows.iter().filter(|(key, _)| is_in(key)).take(most).map(|(key, (value, revision))| {
            let (key, value) = (to_base64(key.as_bytes()), to_base64(value));
            format!("{{\"key\":\"{key}\",\"mod_revision\":\"{revision}\",\"value\":\"{value}\"}}")
        });
        format!("\"kvs\":[{}]", rows.collect::<Vec<_>>().join(","))
    }
}
