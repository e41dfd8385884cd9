//! A work queue with leases, by conditional writes, while owners end: each job is taken at least once, and done once.
//!
//! `queue PORT HOSTS SECONDS PRODUCERS WORKERS`: so many clients put jobs into table 5, of a cluster on this machine, and
//! so many take them. A job stands at a *position*: 1, 2, 3 and so on, each written first under version 0, so none is
//! used twice, and none is left out. A worker takes a job until a time, its *lease*; after that another one takes it, so
//! the clocks of all have to agree. The version of that write is its token. It is done by a write under the token, with
//! the result: so of all who have taken a job one does it, and its result is the effect. Now and then a worker sleeps
//! until its lease is over. A job is one word of its own, as is a result. A position that was done is not taken away.
//!
//! 1. A job is a key, its position. Its value says what the job is, and whether it waits, who has taken it and until
//!    when, or what came of it.
//! 2. It is put at the first position that nobody has used, by `put_if` under version 0. A mismatch says that the
//!    position is in use, also where what stood there was deleted: then the next one is tried.
//! 3. The first job that waits, or whose lease is over, is taken by `put_if` under its version.
//! 4. Done is a `put_if` under the token. If another one has taken the job since, it is a mismatch, and does not count.
//! 5. A write that is unknown is asked for once more under the same version: it is done once at most, and where a
//!    mismatch shows one's own value, it was done. So each job has a name of its own.
//! 6. At key 0 stands a position before which all jobs are done. It may be old, and one looks at more positions then.
//!
//! Where clocks do not agree, a job is taken too early, and done once all the same. A worker reads each job from the
//! first one that is not done, but for those that it knows to be done: it gets slower with the jobs that others took.

use sevunthi_client::{Client, Error, Found, Target};
use std::collections::{BTreeMap, BTreeSet};
use std::fmt::{self, Display, Formatter};
use std::process::ExitCode;
use std::sync::Arc;
use std::sync::atomic::{AtomicBool, Ordering};
use std::thread;
use std::time::{Duration, SystemTime, UNIX_EPOCH};

const TABLE: u32 = 5;
/// At this key stands a position before which all jobs are done, written now and then: there one begins to look.
const BEGIN: u64 = 0;
/// A worker writes that after so many jobs.
const OFTEN: u64 = 64;
/// For so many milliseconds a job is taken.
const LEASE: u64 = 400;
/// For so many milliseconds workers go on, after no more jobs are put.
const PATIENCE: u64 = 30_000;
/// So often a write is asked for again whose answer was lost: under one version it is done once at most.
const SETTLING: usize = 5;

/// Milliseconds since 1970.
fn now() -> u64 {
    SystemTime::now().duration_since(UNIX_EPOCH).map_or(0, |since| since.as_millis() as u64)
}

/// How far a job is.
#[derive(Clone, Debug, PartialEq, Eq)]
enum State {
    Waiting,
    Taken { by: String, until: u64 },
    Done { by: String, result: String },
}

/// What stands at a position.
#[derive(Clone, Debug, PartialEq, Eq)]
struct Job {
    name: String,
    state: State,
}

impl Display for Job {
    fn fmt(&self, out: &mut Formatter<'_>) -> fmt::Result {
        match &self.state {
            State::Waiting => write!(out, "{} waits", self.name),
            State::Taken { by, until } => write!(out, "{} taken {by} {until}", self.name),
            State::Done { by, result } => write!(out, "{} done {by} {result}", self.name),
        }
    }
}

impl Job {
    /// The job of these bytes, as they are written.
    fn of(found: &Found) -> Option<Job> {
        let text = std::str::from_utf8(found.value.as_deref()?).ok()?;
        let words: Vec<&str> = text.split(' ').collect();
        let (name, state) = match words[..] {
            [name, "waits"] => (name, State::Waiting),
            [name, "taken", by, until] => (name, State::Taken { by: by.to_string(), until: until.parse().ok()? }),
            [name, "done", by, result] => (name, State::Done { by: by.to_string(), result: result.to_string() }),
            _ => return None,
        };
        Some(Job { name: name.to_string(), state })
    }

    /// Whether somebody may take it.
    fn is_open(&self) -> bool {
        match self.state {
            State::Waiting => true,
            State::Taken { until, .. } => until < now(),
            State::Done { .. } => false,
        }
    }
}

/// A job that one has taken.
struct Taken {
    position: u64,
    token: u64,
    name: String,
}

/// A queue, as one client uses it.
struct Queue {
    client: Client,
    who: String,
    /// Before it all jobs are done.
    first: u64,
    /// Of those behind it that are known to be done: they stay so, and are not read again.
    done: BTreeSet<u64>,
    /// Before it all positions are in use.
    free: u64,
}

impl Queue {
    /// Looks where the queue begins.
    fn open(client: Client, who: String) -> Result<Queue, Error> {
        let mut queue = Queue { client, who, first: 1, done: BTreeSet::new(), free: 1 };
        queue.first = queue.begin()?.1;
        queue.free = queue.first;
        Ok(queue)
    }

    /// The version of what stands at the beginning, and the position.
    fn begin(&mut self) -> Result<(u64, u64), Error> {
        let Found { version, value } = self.client.get(TABLE, BEGIN)?;
        let position = value.and_then(|value| String::from_utf8(value).ok()?.parse().ok());
        Ok((version, position.unwrap_or(1)))
    }

    /// Writes a job under a version. Gives its version, or what is there of others.
    fn write(&mut self, position: u64, version: u64, job: &Job) -> Result<Result<u64, Found>, Error> {
        let text = job.to_string().into_bytes();
        let mut is_lost = false;
        for _ in 0..=SETTLING {
            match self.client.put_if(TABLE, position, version, &text) {
                Ok(version) => return Ok(Ok(version)),
                Err(Error::Mismatch(found)) if found.value.as_ref() == Some(&text) => return Ok(Ok(found.version)),
                Err(Error::Mismatch(found)) => return Ok(Err(found)),
                Err(Error::Unknown) => is_lost = true,
                Err(error) if !is_lost => return Err(error),
                Err(_) => {}
            }
        }
        Err(Error::Unknown)
    }

    /// Puts a job of this name, which no other one may have, and gives its position.
    fn put(&mut self, name: &str) -> Result<u64, Error> {
        let job = Job { name: name.to_string(), state: State::Waiting };
        loop {
            match self.write(self.free, 0, &job)? {
                Ok(_) => return Ok(self.free),
                // the answer was lost, and somebody has taken it since
                Err(found) if Job::of(&found).is_some_and(|there| there.name == name) => return Ok(self.free),
                Err(_) => self.free += 1,
            }
        }
    }

    /// Takes the first job that may be taken, if there is one.
    fn take(&mut self) -> Result<Option<Taken>, Error> {
        for position in self.first.. {
            if self.done.contains(&position) {
                continue;
            }
            let found = self.client.get(TABLE, position)?;
            if found.version == 0 {
                self.free = position;
                break;
            }
            // (what was deleted was done)
            let job = Job::of(&found).filter(|job| !matches!(job.state, State::Done { .. }));
            let Some(job) = job else {
                self.note_done(position);
                continue;
            };
            if job.is_open() {
                let mine = Job { state: State::Taken { by: self.who.clone(), until: now() + LEASE }, ..job };
                if let Ok(token) = self.write(position, found.version, &mine)? {
                    return Ok(Some(Taken { position, token, name: mine.name }));
                }
            }
        }
        Ok(None)
    }

    fn note_done(&mut self, position: u64) {
        self.done.insert(position);
        while self.done.remove(&self.first) {
            self.first += 1;
        }
    }

    /// Whether all jobs were done that were there when one looked for one in vain.
    fn is_done(&self) -> bool {
        self.first == self.free
    }

    /// Says that a job is done, with its result. True is where this has counted: nobody has taken it since.
    fn done(&mut self, taken: &Taken, result: &str) -> Result<bool, Error> {
        let state = State::Done { by: self.who.clone(), result: result.to_string() };
        let has_counted = self.write(taken.position, taken.token, &Job { name: taken.name.clone(), state })?.is_ok();
        if has_counted {
            self.note_done(taken.position);
        }
        if taken.position.is_multiple_of(OFTEN) {
            let (version, position) = self.begin()?;
            if position < self.first {
                // (where another one has written it, or nobody knows, the next one does)
                let _ = self.client.put_if(TABLE, BEGIN, version, self.first.to_string().as_bytes());
            }
        }
        Ok(has_counted)
    }
}

/// What a client has seen.
#[derive(Default)]
struct Seen {
    /// The names of jobs that were put, by their positions.
    put: BTreeMap<u64, String>,
    /// Those of which nobody knows.
    unknown_puts: BTreeSet<String>,
    taken: u64,
    /// Results that have counted, by their positions.
    done: Vec<(u64, String)>,
    late: u64,
    unknown: u64,
    failed: u64,
}

impl Seen {
    fn note(&mut self, error: &Error) {
        if *error == Error::Unknown { self.unknown += 1 } else { self.failed += 1 }
    }
}

/// Puts jobs until the end.
fn produce(mut queue: Queue, end: u64) -> Seen {
    let mut seen = Seen::default();
    for count in 0.. {
        if end < now() {
            break;
        }
        let name = format!("{}-job-{count}", queue.who);
        match queue.put(&name) {
            Ok(position) => _ = seen.put.insert(position, name),
            Err(error) => {
                seen.unknown_puts.extend((error == Error::Unknown).then_some(name));
                seen.note(&error);
            }
        }
        thread::sleep(Duration::from_millis(20));
    }
    seen
}

/// Takes jobs and does them, until all are done, or it is too late.
fn work(mut queue: Queue, is_over: &AtomicBool, end: u64) -> Seen {
    let mut seen = Seen::default();
    for count in 1.. {
        if end < now() {
            break;
        }
        // (read before it looks: what was put before is found)
        let is_last = is_over.load(Ordering::SeqCst);
        match queue.take() {
            Ok(Some(taken)) => {
                seen.taken += 1;
                if count % 40 == 0 {
                    thread::sleep(Duration::from_millis(2 * LEASE));
                }
                let result = format!("{}-{count}", queue.who);
                match queue.done(&taken, &result) {
                    Ok(true) => seen.done.push((taken.position, result)),
                    Ok(false) => seen.late += 1,
                    Err(error) => seen.note(&error),
                }
            }
            Ok(None) if is_last && queue.is_done() => break,
            Ok(None) => thread::sleep(Duration::from_millis(5)),
            Err(error) => seen.note(&error),
        }
    }
    seen
}

/// Compares what was seen with what stands there, and says whether each job was done once.
fn is_right(client: &mut Client, all: &[Seen]) -> Result<bool, Error> {
    let put: BTreeMap<_, _> = all.iter().flat_map(|seen| &seen.put).collect();
    let unknown_puts: BTreeSet<_> = all.iter().flat_map(|seen| &seen.unknown_puts).collect();
    let counted: Vec<_> = all.iter().flat_map(|seen| &seen.done).collect();
    let (mut names, mut results, mut wrong) = (BTreeSet::new(), BTreeMap::new(), 0);
    for position in 1.. {
        let found = client.get(TABLE, position)?;
        if found.version == 0 {
            break;
        }
        let Some(Job { name, state: State::Done { result, .. } }) = Job::of(&found) else {
            wrong += 1;
            continue;
        };
        wrong += u64::from(put.get(&position).map_or(!unknown_puts.contains(&name), |put| **put != name));
        wrong += u64::from(!names.insert(name));
        results.insert(position, result);
    }
    let lost = put.keys().filter(|position| !results.contains_key(position)).count();
    // each result that has counted is the one that stands there, and counts once
    let twice = counted.len() - counted.iter().map(|(position, _)| position).collect::<BTreeSet<_>>().len();
    let other = counted.iter().filter(|(position, result)| results.get(position) != Some(result)).count();
    let sum = |count: fn(&Seen) -> u64| all.iter().map(count).sum::<u64>();
    let (taken, late) = (sum(|seen| seen.taken), sum(|seen| seen.late));
    let (unknown, failed) = (sum(|seen| seen.unknown), sum(|seen| seen.failed));
    println!(
        "{} jobs were put and {} done, after {taken} takes; {late} were done too late, which did not count; {twice} \
         twice, {lost} lost, {other} with another result, {wrong} wrong; {unknown} unknown, {failed} failed",
        put.len(),
        results.len()
    );
    Ok(!results.is_empty() && twice == 0 && lost == 0 && other == 0 && wrong == 0)
}

fn main() -> Result<ExitCode, Error> {
    let words: Vec<u64> = std::env::args().skip(1).filter_map(|word| word.parse().ok()).collect();
    let &[port, hosts, seconds, producers, workers] = &words[..] else {
        eprintln!("usage: queue PORT HOSTS SECONDS PRODUCERS WORKERS");
        return Ok(ExitCode::from(2));
    };
    let target = Target::on("127.0.0.1", port as u16, hosts as u8);
    let (end, is_over) = (now() + 1000 * seconds, Arc::new(AtomicBool::new(false)));
    let open = |who| Queue::open(Client::new(target.clone()), who);
    let mut producing = Vec::new();
    for number in 0..producers {
        let queue = open(format!("producer-{number}"))?;
        producing.push(thread::spawn(move || produce(queue, end)));
    }
    let mut working = Vec::new();
    for number in 0..workers {
        let (queue, is_over) = (open(format!("worker-{number}"))?, Arc::clone(&is_over));
        working.push(thread::spawn(move || work(queue, &is_over, end + PATIENCE)));
    }
    let mut all: Vec<Seen> = producing.into_iter().filter_map(|thread| thread.join().ok()).collect();
    is_over.store(true, Ordering::SeqCst);
    all.extend(working.into_iter().filter_map(|thread| thread.join().ok()));
    let is_right = is_right(&mut Client::new(target), &all)?;
    Ok(if is_right { ExitCode::SUCCESS } else { ExitCode::FAILURE })
}
