//! Where a node's journal is: in files of its folder, or, of a coordinator among several, in etcd.

pub mod gateway;
pub mod head;
mod json;
pub mod lead;
pub mod ledger;
pub mod name;
pub mod remote;
#[cfg(test)]
pub mod stub;
pub mod told;

use crate::faults::Failing;
use crate::guard::Position;
use crate::journal::{Journal, Synced};
use remote::Remote;
use sevunthi_runtime::kept::Log;
use std::io;
use std::time::Duration;

/// Where a node's journal is.
pub enum Store {
    /// In files of its folder.
    File(Box<Journal>),
    /// In etcd. Its transactions are not syncs that one waits for.
    Etcd(Box<Remote>),
}

fn no_file() -> io::Error {
    io::Error::other("the journal is in etcd, and not in a file")
}

impl Store {
    /// The journal in files.
    fn file(&mut self) -> io::Result<&mut Journal> {
        match self {
            Store::File(journal) => Ok(journal),
            Store::Etcd(_) => Err(no_file()),
        }
    }

    /// How far it has come, of what is safe.
    pub fn position(&self) -> Position {
        match self {
            Store::File(journal) => journal.position(),
            Store::Etcd(remote) => remote.position(),
        }
    }

    /// How often it was made safe.
    pub fn syncs(&self) -> u64 {
        match self {
            Store::File(journal) => journal.syncs,
            Store::Etcd(remote) => remote.syncs,
        }
    }

    /// What is to fail, where a test asks for it.
    pub fn failing(&mut self) -> &mut Failing {
        match self {
            Store::File(journal) => &mut journal.failing,
            Store::Etcd(remote) => &mut remote.failing,
        }
    }

    /// See [`Journal::is_stuck`].
    pub fn is_stuck(&self, most: Duration) -> bool {
        match self {
            Store::File(journal) => journal.is_stuck(most),
            Store::Etcd(_) => false,
        }
    }
}

/// Of a journal in etcd this says only how it is: what is written there goes by [`Remote::begin`].
impl Log for Store {
    fn grown(&self) -> usize {
        match self {
            Store::File(journal) => journal.grown(),
            Store::Etcd(remote) => remote.length().saturating_sub(remote.saved),
        }
    }

    fn under_way(&self) -> usize {
        match self {
            Store::File(journal) => journal.under_way(),
            Store::Etcd(remote) => usize::from(remote.is_busy()),
        }
    }

    fn add(&mut self, bytes: &[u8]) -> io::Result<()> {
        self.file()?.add(bytes)
    }

    fn sync(&mut self) -> io::Result<Synced> {
        self.file()?.sync()
    }

    fn begin_sync(&mut self, bytes: Vec<u8>, is_of_roll: bool) -> io::Result<()> {
        self.file()?.begin_sync(bytes, is_of_roll)
    }

    fn poll_sync(&mut self) -> io::Result<Option<Synced>> {
        match self {
            Store::File(journal) => journal.poll_sync(),
            Store::Etcd(_) => Ok(None),
        }
    }

    fn wait_sync(&mut self) -> io::Result<Option<Synced>> {
        self.file()?.wait_sync()
    }

    fn make_spare(&mut self, length: usize) {
        if let Store::File(journal) = self {
            journal.make_spare(length);
        }
    }

    fn replace(&mut self, save: &[u8]) -> io::Result<()> {
        self.file()?.replace(save)
    }
}
