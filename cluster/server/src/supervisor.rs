//! Starting nodes: one in this process, or a whole cluster of processes.

use crate::addresses::{self, Listed};
use crate::client::Target;
use crate::core::{Config, tell};
use crate::members::Members;
use crate::metrics;
use crate::options::Options;
use crate::secret::{self, CLIENTS, OPERATOR, PEERS, SecretFile, Secrets};
use crate::store::{gateway, name};
use crate::{coordinator, disk, host, version};
use std::collections::BTreeMap;
use std::ffi::OsString;
use std::fs::{File, TryLockError};
use std::io::{ErrorKind, Read, Seek, SeekFrom};
use std::net::TcpListener;
use std::ops::Range;
use std::path::{Path, PathBuf};
use std::process::{Child, Command, ExitStatus, Stdio};
use std::thread;
use std::time::{Duration, Instant};

/// A node takes and frees as many pieces of memory of a size as it is given messages at once. Where there is no
/// mimalloc the C library keeps but seven of them at hand for a thread, unless it is told otherwise. Queues hand pieces
/// of 1,000 bytes to threads that would only gather them.
const TUNABLES: (&str, &str) = ("GLIBC_TUNABLES", "glibc.malloc.tcache_count=8000:glibc.malloc.tcache_max=900");

/// Runs one node; with `--supervised` until its input ends: whoever started it has then ended.
pub fn serve(options: &Options) -> Result<(), String> {
    let folder: PathBuf = options.needed("--folder")?.into();
    let secrets = Secrets::of(options)?;
    let target = crate::target(options)?;
    let index = match options.given("--index") {
        Some(_) => Some(options.between("--index", 0, 0, target.hosts - 1)?),
        None => None,
    };
    if index.is_some() && options.given("--coordinator").is_some() {
        return Err("--index is a host's, and --coordinator another's".to_string());
    }
    if secrets.peers.is_none() {
        stays_on_loopback(options, &target)?;
    }
    let mut config = config(options, target, folder, index, secrets)?;
    if !config.store.is_empty() && index.is_none() {
        let secret = options.given("--secret").map(SecretFile::new);
        config.store_name = name::name(&config.folder, options.given("--store-name"), secret.as_ref())?;
    }
    tell("starts");
    for file in config.secrets.open_files() {
        tell(format_args!("{} can be read by others than who runs this: `chmod 600` ends that", file.path().display()));
    }
    config.members.watch();
    if options.has("--supervised") {
        thread::spawn(|| {
            let mut input = std::io::stdin();
            while !matches!(input.read(&mut [0; 64]), Ok(0) | Err(_)) {}
            std::process::exit(0);
        });
    }
    let run = if config.index.is_some() { host::run } else { coordinator::run };
    run(config).map_err(|error| error.to_string())
}

/// Without security nobody is on another machine.
fn stays_on_loopback(options: &Options, target: &Target) -> Result<(), String> {
    let listens = options.given("--listen").map(String::from);
    let all = (0..target.places()).map(|place| target.at(place)).chain(listens);
    match all.into_iter().find(|at| !secret::is_on_loopback(at)) {
        Some(at) => Err(format!("--insecure is for loopback alone, and {at} is not there")),
        None => Ok(()),
    }
}

/// Where etcd listens, where the coordinators' journal is there.
fn store(options: &Options) -> Result<Vec<String>, String> {
    match options.given("--store") {
        None | Some("file") => Ok(Vec::new()),
        Some(words) => gateway::endpoints(words),
    }
}

/// How a node is to run by these options.
pub fn config(
    options: &Options,
    target: Target,
    folder: PathBuf,
    index: Option<u8>,
    secrets: Secrets,
) -> Result<Config, String> {
    let Target { hosts, coordinators, .. } = target;
    let store = store(options)?;
    if store.is_empty() && coordinators != 1 && index.is_none() {
        return Err("several coordinators have their journal in etcd: --store etcd=URL,.. says where that is".into());
    }
    Ok(Config {
        index,
        members: Members::new(target),
        coordinators,
        coordinator: options.between("--coordinator", 0, 0, coordinators - 1)?,
        store,
        store_name: String::new(),
        listen: options.given("--listen").map(String::from),
        folder,
        secrets,
        factor: options.between("--factor", 2, 1, 5)?,
        segment: options.between("--segment", 1024, 1, 1024)?,
        tick: options.between("--tick", 200, 1, 60_000)?,
        silence: options.between("--silence", 1000, 1, 3_600_000)?,
        slow: options.between("--slow", 30_000, 0, 3_600_000)?,
        long: options.between("--long", 256 << 20, 1, usize::MAX)?,
        beside: options.between("--beside", 24, 0, u64::MAX)?,
        reserve: options.between("--reserve", 256 << 20, 0, u64::MAX)?,
        hear: match options.given("--hear") {
            Some(_) => Some(options.between("--hear", 1, 1, hosts)?),
            None => None,
        },
        record: options.has("--record"),
        faults: options.has("--faults"),
    })
}

/// The file of a cluster's folder that says who listens where.
pub const CLUSTER: &str = "cluster";

/// Who has to prove what in a cluster of processes on this machine.
#[derive(Clone, Copy, Debug, PartialEq, Eq)]
pub enum Safety {
    /// Nobody: all is said in clear, on loopback.
    None,
    /// Peers, and who operates the cluster. Clients of this machine are taken in clear.
    Peers,
    /// All.
    All,
}

impl Safety {
    /// What is asked for; where nothing is, all that others can reach is safe.
    pub fn of(options: &Options, target: &Target) -> Result<Safety, String> {
        match (options.has("--insecure"), options.has("--secure")) {
            (true, true) => Err("--insecure and --secure exclude one another".to_string()),
            (true, false) => stays_on_loopback(options, target).map(|()| Safety::None),
            (false, true) => Ok(Safety::All),
            (false, false) => {
                let is_alone = (0..target.places()).all(|place| secret::is_on_loopback(&target.at(place)));
                Ok(if is_alone { Safety::Peers } else { Safety::All })
            }
        }
    }
}

/// The cluster of this file, where it was made for the same first port and address: hosts may have come and gone since.
/// Else the file is made anew.
fn listed_in(file: &Path, target: Target) -> std::io::Result<Target> {
    let first = format!("# {}\n", target.at(0));
    let text = std::fs::read_to_string(file).unwrap_or_default();
    let kept = Target::of_file(file).ok().filter(|kept| {
        text.starts_with(&first) && kept.hosts == target.hosts && kept.coordinators == target.coordinators
    });
    if let Some(kept) = kept {
        return Ok(kept);
    }
    let all: Vec<String> = (0..target.places()).map(|place| target.at(place)).collect();
    let listed = Listed { all, coordinators: target.coordinators, ..Listed::default() };
    disk::write_whole(file, (first + &addresses::file_of(&listed)).as_bytes())?;
    Ok(target)
}

/// A cluster of processes on this machine.
pub struct Cluster {
    /// Where it is.
    pub target: Target,
    folder: PathBuf,
    safety: Safety,
    /// The program as it was started. An upgrade puts another file in its place, and the next process is of that.
    program: PathBuf,
    more: Vec<String>,
    /// What only one process is given, by its place.
    pub own: BTreeMap<usize, Vec<String>>,
    children: Vec<Option<Child>>,
    /// Nobody else runs a cluster in the folder.
    _lock: File,
}

impl Cluster {
    /// A cluster in this folder, of which nothing runs yet, and which nobody else may run meanwhile. The first one
    /// there makes the secrets.
    pub fn new(target: Target, folder: &Path, safety: Safety, more: Vec<String>) -> Result<Cluster, String> {
        let told = |error: std::io::Error| format!("{}: {error}", folder.display());
        disk::make_folder(folder).map_err(told)?;
        let folder = folder.canonicalize().map_err(told)?;
        let lock = disk::own_file().create(true).append(true).open(folder.join("lock")).map_err(told)?;
        lock.try_lock().map_err(|error| match error {
            TryLockError::WouldBlock => format!("{}: a cluster runs in this folder already", folder.display()),
            TryLockError::Error(error) => told(error),
        })?;
        disk::close_folder(&folder).and_then(|()| version::check(&folder)).map_err(told)?;
        [PEERS, OPERATOR, CLIENTS].iter().try_for_each(|name| secret::draw(&folder.join(name))).map_err(told)?;
        let target = match safety {
            Safety::None | Safety::Peers => target,
            Safety::All => target.with_secret(SecretFile::new(folder.join(CLIENTS))),
        };
        let target = listed_in(&folder.join(CLUSTER), target).map_err(told)?;
        let program = std::env::current_exe().map_err(told)?;
        let children = (0..target.places()).map(|_| None).collect();
        Ok(Cluster { target, folder, safety, program, more, own: BTreeMap::new(), children, _lock: lock })
    }

    /// Takes what the folder's file says now. Gives the places of hosts that have come.
    pub fn follow(&mut self) -> Range<usize> {
        let before = usize::from(self.target.hosts);
        let file = self.folder.join(CLUSTER);
        let secret = self.target.secret.clone();
        if let Ok(later) = Target::of_file(&file)
            && self.target.hosts <= later.hosts
            && self.target.coordinators == later.coordinators
        {
            self.target = Target { secret, ..later };
        }
        let came = before..usize::from(self.target.hosts);
        came.clone().for_each(|place| self.children.insert(place, None));
        let own = std::mem::take(&mut self.own).into_iter();
        self.own =
            own.map(|(place, words)| (if before <= place { place + came.len() } else { place }, words)).collect();
        came
    }

    /// Whether the host of this place has left.
    pub fn is_gone(&self, place: usize) -> bool {
        u8::try_from(place).is_ok_and(|place| self.target.is_gone(place))
    }

    /// The places of those that are there.
    pub fn there(&self) -> impl DoubleEndedIterator<Item = usize> {
        (0..self.places()).filter(|place| !self.is_gone(*place))
    }

    /// How many processes it has: the hosts, and the coordinators, which have the last places.
    pub fn places(&self) -> usize {
        self.children.len()
    }

    /// The folder of all.
    pub fn whole_folder(&self) -> &Path {
        &self.folder
    }

    /// The folder of a node.
    pub fn folder(&self, place: usize) -> PathBuf {
        let name = metrics::label(place, usize::from(self.target.hosts));
        self.folder.join(if place < usize::from(self.target.hosts) { format!("host{name}") } else { name })
    }

    /// Tries whether all ports are free. Processes that end just now are waited for.
    pub fn try_ports(&self) -> Result<(), String> {
        let end = Instant::now() + Duration::from_secs(2);
        for place in self.there() {
            let at = self.target.at(place as u8);
            while let Err(error) = TcpListener::bind(&at) {
                let is_used = error.kind() == ErrorKind::AddrInUse;
                if !is_used || end < Instant::now() {
                    let hint = if is_used { "; --port names the first of others" } else { "" };
                    return Err(format!("nobody can listen at {at}: {error}{hint}"));
                }
                thread::sleep(Duration::from_millis(50));
            }
        }
        Ok(())
    }

    /// The last line of a node's log.
    pub fn last_line(&self, place: usize) -> String {
        let end = File::open(self.folder(place).join("log")).and_then(|mut log| {
            let length = log.metadata()?.len();
            log.seek(SeekFrom::Start(length.saturating_sub(4096)))?;
            let mut end = Vec::new();
            log.read_to_end(&mut end).map(|_| end)
        });
        String::from_utf8_lossy(&end.unwrap_or_default()).lines().last().unwrap_or_default().to_string()
    }

    /// Starts the process of a node.
    pub fn start(&mut self, place: usize) -> Result<(), String> {
        let folder = self.folder(place);
        let told = |error: std::io::Error| format!("{}: {error}", folder.display());
        disk::make_folder(&folder).map_err(told)?;
        // a disk that has no room for a log is no reason to stand still
        let log = disk::own_file().create(true).append(true).open(folder.join("log"));
        let log = log.map_or(Stdio::null(), Stdio::from);
        let index = match place.checked_sub(usize::from(self.target.hosts)) {
            None => ["--index".to_string(), place.to_string()],
            Some(number) => ["--coordinator".to_string(), number.to_string()],
        };
        let file = |name: &str| self.folder.join(name).into_os_string();
        let mut words: Vec<OsString> = vec!["--secret".into(), file(PEERS), "--operator".into(), file(OPERATOR)];
        match self.safety {
            Safety::None => words.push("--insecure".into()),
            Safety::Peers => {}
            Safety::All => words.extend(["--client-secret".into(), file(CLIENTS)]),
        }
        let tunables = std::env::var(TUNABLES.0).unwrap_or_else(|_| TUNABLES.1.to_string());
        let child = Command::new(&self.program)
            .env(TUNABLES.0, tunables)
            .args(["serve", "--supervised", "--cluster"])
            .arg(self.folder.join(CLUSTER))
            .args(&index)
            .arg("--folder")
            .arg(&folder)
            .args(words)
            .args(&self.more)
            .args(self.own.get(&place).into_iter().flatten())
            .stdin(Stdio::piped())
            .stdout(Stdio::null())
            .stderr(log)
            .spawn()
            .map_err(|error| format!("{}: {error}", self.program.display()))?;
        self.children[place] = Some(child);
        Ok(())
    }

    /// Starts all.
    pub fn start_all(&mut self) -> Result<(), String> {
        let there: Vec<usize> = self.there().collect();
        there.into_iter().rev().try_for_each(|place| self.start(place))
    }

    /// Those whose process has ended, with how.
    pub fn ended(&mut self) -> Vec<(usize, ExitStatus)> {
        let mut ended = Vec::new();
        for (place, child) in self.children.iter_mut().enumerate() {
            if let Some(Ok(Some(status))) = child.as_mut().map(Child::try_wait) {
                ended.push((place, status));
                *child = None;
            }
        }
        ended
    }

    /// Ends a process at once.
    pub fn kill(&mut self, place: usize) {
        if let Some(mut child) = self.children[place].take() {
            let _ = child.kill();
            let _ = child.wait();
        }
    }

    /// Sends a signal to a process.
    pub fn signal(&self, place: usize, signal: &str) {
        if let Some(child) = &self.children[place] {
            let _ = Command::new("kill").arg(signal).arg(child.id().to_string()).status();
        }
    }

    /// The process's number.
    pub fn process(&self, place: usize) -> Option<u32> {
        self.children[place].as_ref().map(Child::id)
    }
}

impl Drop for Cluster {
    fn drop(&mut self) {
        (0..self.places()).for_each(|place| self.kill(place));
    }
}
