//! `examples/lockd` while its processes are killed: no token is given twice, and nobody has a lock while another one has
//! it.

use sevunthi_runtime::sockets::Call;
use std::collections::HashMap;
use std::fs;
use std::io;
use std::net::SocketAddr;
use std::path::{Path, PathBuf};
use std::process::{Child, Command, Stdio};
use std::sync::atomic::{AtomicBool, AtomicU64, Ordering};
use std::thread;
use std::time::{Duration, Instant};

const HOSTS: usize = 4;
const LOCKS: u64 = 3;
const CLIENTS: u64 = 6;

/// For so long a lock is held at most.
const TIME: Duration = Duration::from_millis(1500);

/// Between two kills so many locks are taken, and as many behind the last one.
const BETWEEN: u64 = 30;

/// So long they may take on a machine that has much else to do.
const PATIENCE: Duration = Duration::from_secs(60);

const DONE: u8 = 0;
const ELSEWHERE: u8 = 3;

/// The processes, each by its place; the coordinator is the last one.
struct Cluster {
    folder: PathBuf,
    port: u16,
    processes: Vec<Child>,
}

impl Drop for Cluster {
    fn drop(&mut self) {
        for process in &mut self.processes {
            let _ = process.kill();
            let _ = process.wait();
        }
        let _ = fs::remove_dir_all(&self.folder);
    }
}

fn begin(folder: &Path, port: u16, place: usize) -> io::Result<Child> {
    let tests = std::env::current_exe()?;
    let built = tests.parent().and_then(Path::parent).ok_or(io::ErrorKind::NotFound)?;
    let mut command = Command::new(built.join("examples/lockd"));
    let index = place.to_string();
    match place {
        HOSTS => command.arg("coordinator").arg(folder.join("coordinator")),
        _ => command.args(["host", &index]).arg(folder.join(&index)),
    };
    let log = fs::OpenOptions::new().create(true).append(true).open(folder.join(format!("log{place}")))?;
    command.arg(folder.join("secret")).arg(port.to_string()).arg(HOSTS.to_string());
    command.stdin(Stdio::null()).stderr(log).spawn()
}

impl Cluster {
    fn new() -> io::Result<Cluster> {
        let folder = std::env::temp_dir().join(format!("sevunthi-lockd-{}", std::process::id()));
        fs::create_dir_all(&folder)?;
        fs::write(folder.join("secret"), [7; 32])?;
        let port = 22_000 + (std::process::id() % 300) as u16 * 10;
        let processes = (0..=HOSTS).map(|place| begin(&folder, port, place)).collect::<io::Result<_>>()?;
        Ok(Cluster { folder, port, processes })
    }

    fn address(&self, place: usize) -> SocketAddr {
        ([127, 0, 0, 1], self.port + place as u16).into()
    }

    fn begin_anew(&mut self, place: usize) -> io::Result<()> {
        self.processes[place].kill()?;
        self.processes[place].wait()?;
        self.processes[place] = begin(&self.folder, self.port, place)?;
        Ok(())
    }

    /// Who owns the locks.
    fn owner(&self) -> Option<usize> {
        let look = Client { client: 0, number: 0, calls: HashMap::new() }.code(false, u64::MAX, 0);
        (0..HOSTS).find(|host| {
            let said = Call::open(self.address(*host), Duration::from_secs(1)).and_then(|mut call| call.ask(&look));
            said.is_ok_and(|said| said.first() != Some(&ELSEWHERE))
        })
    }
}

/// Somebody had a lock, from then to then.
struct Had {
    lock: u64,
    token: u64,
    from: Instant,
    to: Instant,
}

struct Client {
    client: u64,
    number: u64,
    calls: HashMap<usize, Call>,
}

impl Client {
    fn code(&self, locks: bool, argument: u64, lock: u64) -> Vec<u8> {
        let numbers = [self.client, self.number, argument].into_iter().flat_map(u64::to_le_bytes);
        [u8::from(locks)].into_iter().chain(numbers).chain(format!("lock-{lock}").into_bytes()).collect()
    }

    /// Asks a host once.
    fn ask_at(&mut self, address: SocketAddr, host: usize, request: &[u8]) -> Option<(u8, u64)> {
        let call = self.calls.remove(&host).map_or_else(|| Call::open(address, Duration::from_secs(2)), Ok);
        let mut call = call.ok()?;
        let said = call.ask(request).ok()?;
        self.calls.insert(host, call);
        Some((*said.first()?, u64::from_le_bytes(said.get(1..9)?.try_into().ok()?)))
    }

    /// Asks until it is done, or nobody is to ask any more: a lock that another one has is waited for.
    fn ask(
        &mut self,
        addresses: &[SocketAddr],
        ends: &AtomicBool,
        locks: bool,
        argument: u64,
        lock: u64,
    ) -> Option<u64> {
        self.number += 1;
        let request = self.code(locks, argument, lock);
        for turn in self.client as usize.. {
            let host = turn % HOSTS;
            match self.ask_at(addresses[host], host, &request) {
                Some((DONE, token)) => return Some(token),
                Some((2, _)) => return None,
                _ if ends.load(Ordering::Relaxed) => return None,
                _ => thread::sleep(Duration::from_millis(1)),
            }
        }
        None
    }

    fn live(mut self, addresses: &[SocketAddr], ends: &AtomicBool, count: &AtomicU64) -> Vec<Had> {
        let (mut had, lock) = (Vec::new(), self.client % LOCKS);
        while !ends.load(Ordering::Relaxed) {
            let until = Instant::now() + TIME;
            let Some(token) = self.ask(addresses, ends, true, TIME.as_millis() as u64, lock) else { continue };
            let from = Instant::now();
            thread::sleep(Duration::from_millis(3));
            had.push(Had { lock, token, from, to: Instant::now().min(until) });
            count.fetch_add(1, Ordering::Relaxed);
            self.ask(addresses, ends, false, token, lock);
        }
        had
    }
}

/// Waits until so many locks more were taken.
fn await_more(count: &AtomicU64, more: u64) {
    let (began, before) = (Instant::now(), count.load(Ordering::Relaxed));
    while count.load(Ordering::Relaxed) < before + more {
        assert!(began.elapsed() < PATIENCE, "no locks are taken");
        thread::sleep(Duration::from_millis(5));
    }
}

#[test]
fn no_token_is_given_twice_and_nobody_has_a_lock_at_once_with_another() -> io::Result<()> {
    let mut cluster = Cluster::new()?;
    let addresses: Vec<SocketAddr> = (0..HOSTS).map(|place| cluster.address(place)).collect();
    let (ends, count) = (AtomicBool::new(false), AtomicU64::new(0));
    let mut had = thread::scope(|scope| -> io::Result<Vec<Had>> {
        let clients: Vec<_> = (1..=CLIENTS)
            .map(|client| Client { client, number: 0, calls: HashMap::new() })
            .map(|client| scope.spawn(|| client.live(&addresses, &ends, &count)))
            .collect();
        let killed = (0..3).try_for_each(|turn| {
            await_more(&count, BETWEEN);
            if turn == 1 {
                cluster.begin_anew(HOSTS)?;
            }
            cluster.owner().map_or(Ok(()), |owner| cluster.begin_anew(owner))
        });
        await_more(&count, BETWEEN);
        ends.store(true, Ordering::Relaxed);
        killed?;
        Ok(clients.into_iter().flat_map(|client| client.join().expect("a client ends")).collect())
    })?;
    had.sort_unstable_by_key(|had| (had.lock, had.token));
    assert!(4 * BETWEEN <= had.len() as u64);
    for pair in had.windows(2).filter(|pair| pair[0].lock == pair[1].lock) {
        assert!(pair[0].token < pair[1].token, "token {} twice", pair[0].token);
        assert!(pair[0].to <= pair[1].from || pair[1].to <= pair[1].from, "two at once, {}", pair[0].token);
    }
    Ok(())
}
