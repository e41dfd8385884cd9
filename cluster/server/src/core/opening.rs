//! How a node comes back from its folder, or a coordinator that takes the lead from etcd.

use super::Config;
use crate::faults::Failing;
use crate::guard::{COORDINATOR, Guard, Position};
use crate::journal::Journal;
use crate::log::{failed, must_not_start};
use crate::moving::MOVING;
use crate::store::Store;
use crate::store::head::{Head, SEEN};
use sevunthi::{Fault, Node, Ready, Shape};
use sevunthi_runtime::kept::{Kept, NotOpened};
use std::fs::File;
use std::io::{self, ErrorKind, Read};

/// A node that was opened: all that its journal has is safe, but for what is still to be added.
pub struct Opened {
    pub kept: Kept<Store>,
    pub guard: Guard,
    /// Whatever the node knows came no later.
    pub clock: u64,
}

/// The node of this folder, with its journal there.
pub fn open_in_folder(config: &Config) -> io::Result<Opened> {
    let kept = open_node(config)?;
    let guard = open_guard(config, kept.log.found)?;
    Ok(Opened { kept: kept.with(|journal| Store::File(Box::new(journal))), guard, clock: 0 })
}

/// The coordinator that comes back from these bytes, which are all that `head` names. What it has to add to them is
/// asked for like all that follows.
pub fn coordinator_of(bytes: &[u8], head: Head) -> (Node, Ready) {
    let mut node = Node::come_back(bytes, bytes.len()).unwrap_or_else(|fault| match fault {
        Fault::NoSave | Fault::TooShort => must_not_start(format_args!("of the journal in etcd: {fault}")),
        other => failed("the node can't come back", other),
    });
    if node.good() != bytes.len() || bytes.len() as u64 != head.bytes {
        must_not_start("the journal in etcd ends with what is no record: it was changed by another");
    }
    let mut ready = Ready::default();
    let taken = node.take_journal(&mut ready.journal).and_then(|()| node.synced(bytes.len()));
    taken.unwrap_or_else(|fault| failed("the node can't come back", fault));
    (node, ready)
}

/// The node that comes back from the folder, or a new one, and its journal, of which all is safe.
fn open_node(config: &Config) -> io::Result<Kept<Journal>> {
    if config.index.is_none() && config.folder.join(SEEN).try_exists()? {
        must_not_start("this coordinator's journal is in etcd: give it --store, or `sevunthi move file`");
    }
    if config.index.is_none() && config.folder.join(MOVING).try_exists()? {
        must_not_start("this coordinator's journal is being moved: end that, by the same `sevunthi move`");
    }
    let failing = if config.faults { Failing::in_folder(&config.folder) } else { Failing::default() };
    match Kept::open(&config.folder, failing, || new_node(config)) {
        Ok(kept) => Ok(kept),
        Err(NotOpened::MustNotStart(why)) => must_not_start(why),
        Err(NotOpened::Failed(error)) => Err(error),
    }
}

/// The guard of the node's folder, of which a thread makes safe what is told.
fn open_guard(config: &Config, found: Position) -> io::Result<Guard> {
    let guard = match Guard::open(&config.folder, config.index.unwrap_or(COORDINATOR), found) {
        Err(error) if error.kind() == ErrorKind::InvalidData => must_not_start(error),
        guard => guard?,
    };
    guard.sync_beside(|error| failed("what was told can't be synced", error));
    Ok(guard)
}

/// This folder is an older copy; or what etcd has is, unless this is a coordinator that another one has replaced.
pub fn is_older(who: &str, journal: &mut Store) -> ! {
    if let Store::Etcd(remote) = journal {
        remote.end_if_fenced();
    }
    match journal {
        Store::File(_) => must_not_start(format_args!(
            "this folder is an older copy: {who} was told of more than its journal has. Nothing was done by it. Put \
             back the folder that was in use last; or end the cluster, and put back a whole backup, of all its folders"
        )),
        Store::Etcd(_) => must_not_start(format_args!(
            "etcd has an older journal: {who} was told of more. Nothing was done by it. Put back what etcd had last; \
             or end the cluster, and put back a whole backup, of etcd and all folders"
        )),
    }
}

/// Another folder of this host was in use since.
pub fn was_replaced() -> ! {
    must_not_start(
        "this folder is an older one: another one of this host has been in use since. Put that back; or end the \
         cluster, and empty this one",
    )
}

fn new_node(config: &Config) -> Result<Node, Fault> {
    match config.index {
        None => Node::coordinator(),
        Some(index) => Node::host(Shape { index, factor: config.factor, segment: config.segment, free: true }),
    }
}

/// Nanoseconds since the machine was started, and some more, so that a process that comes back is ahead of where it
/// was.
pub fn since_boot() -> u64 {
    let mut text = String::new();
    let read = File::open("/proc/uptime").and_then(|mut file| file.read_to_string(&mut text));
    let seconds = text.split(' ').next().and_then(|word| word.parse::<f64>().ok()).unwrap_or(0.0);
    if read.is_err() { 0 } else { ((seconds + 0.02) * 1e9) as u64 }
}
