//! The members of an etcd of a storm's own, and the cables between each coordinator and them, which can be cut.

use crate::dice::Dice;
use crate::disk;
use std::fs::File;
use std::io::{self, Read, Write};
use std::net::{Shutdown, TcpListener, TcpStream};
use std::path::{Path, PathBuf};
use std::process::{Child, Command, Stdio};
use std::sync::Arc;
use std::sync::atomic::{AtomicBool, Ordering};
use std::thread;
use std::time::{Duration, Instant};

/// So many members there are: two of them are a majority.
const MEMBERS: u16 = 3;

/// Where the ports begin behind the first one of the storm: of members for clients, of members for one another, and of
/// cables.
const OF_CLIENTS: u16 = 12;
const OF_MEMBERS: u16 = 15;
const OF_CABLES: u16 = 18;

/// An etcd, and the cables of so many coordinators.
pub struct Stores {
    folder: PathBuf,
    port: u16,
    members: Vec<Option<Child>>,
    /// Of each coordinator, whether its cables are cut.
    cut: Vec<Arc<AtomicBool>>,
}

impl Stores {
    /// Starts all, on ports behind this one.
    pub fn start(folder: &Path, port: u16, coordinators: u8) -> Result<Stores, String> {
        let folder = folder.join("etcd");
        disk::make_folder(&folder).map_err(|error| error.to_string())?;
        let members = (0..MEMBERS).map(|_| None).collect();
        let mut stores = Stores { folder, port, members, cut: Vec::new() };
        (0..MEMBERS).try_for_each(|member| stores.start_member(member, "new"))?;
        for coordinator in 0..coordinators {
            let cut = Arc::new(AtomicBool::new(false));
            for member in 0..MEMBERS {
                let (from, to) = (stores.cable(coordinator, member), stores.client_port(member));
                lay_cable(from, to, Arc::clone(&cut)).map_err(|error| format!("port {from}: {error}"))?;
            }
            stores.cut.push(cut);
        }
        Ok(stores)
    }

    fn client_port(&self, member: u16) -> u16 {
        self.port + OF_CLIENTS + member
    }

    fn cable(&self, coordinator: u8, member: u16) -> u16 {
        self.port + OF_CABLES + u16::from(coordinator) * MEMBERS + member
    }

    /// The store of this coordinator, as `--store` names it.
    pub fn option(&self, coordinator: u8) -> String {
        let urls = (0..MEMBERS).map(|member| format!("http://127.0.0.1:{}", self.cable(coordinator, member)));
        format!("etcd={}", urls.collect::<Vec<_>>().join(","))
    }

    fn start_member(&mut self, member: u16, state: &str) -> Result<(), String> {
        let at = |port: u16| format!("http://127.0.0.1:{port}");
        let peer = |member: u16| at(self.port + OF_MEMBERS + member);
        let all: Vec<String> = (0..MEMBERS).map(|member| format!("m{member}={}", peer(member))).collect();
        let told = |error: io::Error| format!("etcd does not start: {error}");
        let log = File::options().create(true).append(true).open(self.folder.join(format!("log{member}")));
        let child = Command::new("etcd")
            .args(["--name", &format!("m{member}"), "--log-level", "error", "--logger", "zap"])
            .arg("--data-dir")
            .arg(self.folder.join(format!("m{member}")))
            .args(["--listen-client-urls", &at(self.client_port(member))])
            .args(["--advertise-client-urls", &at(self.client_port(member))])
            .args(["--listen-peer-urls", &peer(member), "--initial-advertise-peer-urls", &peer(member)])
            .args(["--initial-cluster", &all.join(","), "--initial-cluster-state", state])
            .stdin(Stdio::null())
            .stdout(Stdio::null())
            .stderr(log.map_or(Stdio::null(), Stdio::from))
            .spawn()
            .map_err(told)?;
        self.members[usize::from(member)] = Some(child);
        Ok(())
    }

    /// A member is killed, and started again after a while.
    pub fn kill_member(&mut self, dice: &mut Dice) -> Result<String, String> {
        let member = dice.below(u64::from(MEMBERS)) as u16;
        if let Some(mut child) = self.members[usize::from(member)].take() {
            let _ = child.kill();
            let _ = child.wait();
        }
        let pause = dice.between(0, 1500);
        thread::sleep(Duration::from_millis(pause));
        self.start_member(member, "existing")?;
        Ok(format!("member {member} of etcd was killed, and is started after {pause} ms"))
    }

    fn signal(&self, member: usize, signal: &str) {
        if let Some(child) = &self.members[member] {
            let _ = Command::new("kill").arg(signal).arg(child.id().to_string()).status();
        }
    }

    /// Members stand still for a while: one of them, or all.
    pub fn stop_members(&self, all: bool, dice: &mut Dice) -> String {
        let one = dice.below(u64::from(MEMBERS)) as usize;
        let which = if all { 0..usize::from(MEMBERS) } else { one..one + 1 };
        let pause = dice.between(500, if all { 1500 } else { 3000 });
        which.clone().for_each(|member| self.signal(member, "-STOP"));
        thread::sleep(Duration::from_millis(pause));
        which.clone().for_each(|member| self.signal(member, "-CONT"));
        let what = if all { "all members".to_string() } else { format!("member {one}") };
        format!("{what} of etcd stood still for {pause} ms")
    }

    /// A coordinator is cut off from etcd, or no more.
    pub fn cut(&self, coordinator: usize, is_cut: bool) {
        if let Some(cut) = self.cut.get(coordinator) {
            cut.store(is_cut, Ordering::Relaxed);
        }
    }
}

impl Drop for Stores {
    fn drop(&mut self) {
        for child in self.members.iter_mut().flatten() {
            let _ = child.kill();
            let _ = child.wait();
        }
    }
}

/// Carries what comes at a port to another, but while it is cut: then nothing comes, and nothing is lost.
fn lay_cable(from: u16, to: u16, cut: Arc<AtomicBool>) -> io::Result<()> {
    let listener = listen(from)?;
    thread::spawn(move || {
        for one in listener.incoming().flatten() {
            let Ok(other) = TcpStream::connect(("127.0.0.1", to)) else { continue };
            let (Ok(one_again), Ok(other_again)) = (one.try_clone(), other.try_clone()) else { continue };
            let (here, there) = (Arc::clone(&cut), Arc::clone(&cut));
            thread::spawn(move || carry(one, other, &here));
            thread::spawn(move || carry(other_again, one_again, &there));
        }
    });
    Ok(())
}

/// Connections of an earlier storm may stand in the way for a moment.
fn listen(port: u16) -> io::Result<TcpListener> {
    let began = Instant::now();
    loop {
        match TcpListener::bind(("127.0.0.1", port)) {
            Err(_) if began.elapsed() < Duration::from_secs(2) => thread::sleep(Duration::from_millis(50)),
            bound => return bound,
        }
    }
}

fn carry(mut from: TcpStream, mut to: TcpStream, cut: &AtomicBool) {
    let mut room = [0; 16 << 10];
    let _ = to.set_nodelay(true);
    while let Ok(count @ 1..) = from.read(&mut room) {
        while cut.load(Ordering::Relaxed) {
            thread::sleep(Duration::from_millis(5));
        }
        if to.write_all(&room[..count]).is_err() {
            break;
        }
    }
    let _ = from.shutdown(Shutdown::Both);
    let _ = to.shutdown(Shutdown::Both);
}
