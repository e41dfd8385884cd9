//! A node with its journal: what it writes down is made safe, and what it sends leaves when it may.

use crate::failing::Failing;
use crate::journal::{self, Journal, Synced};
use crate::sectors::Content;
use sevunthi::{Fault, Node, Ready, Work};
use std::io::{self, ErrorKind};
use std::path::Path;

/// Where a node's journal is: in files of its folder, as [`Journal`] has it, or elsewhere. After an error of any of
/// these the process has to end: a sync that failed may say Ok the next time.
pub trait Log {
    /// By how many bytes it has grown since it was last shortened.
    fn grown(&self) -> usize;

    /// How many syncs were begun and are not ended.
    fn under_way(&self) -> usize;

    /// Adds bytes at its end, while no sync is under way.
    ///
    /// # Errors
    ///
    /// That they can't be written.
    fn add(&mut self, bytes: &[u8]) -> io::Result<()>;

    /// Makes all its bytes safe.
    ///
    /// # Errors
    ///
    /// That they may not be.
    fn sync(&mut self) -> io::Result<Synced>;

    /// Has bytes added and all made safe beside, perhaps for a roll, behind what is under way.
    ///
    /// # Errors
    ///
    /// That nobody does it, or that it has failed before.
    fn begin_sync(&mut self, bytes: Vec<u8>, is_of_roll: bool) -> io::Result<()>;

    /// What came of the sync that was begun first, if it has ended.
    ///
    /// # Errors
    ///
    /// That it has failed.
    fn poll_sync(&mut self) -> io::Result<Option<Synced>>;

    /// The same, and waits for it.
    ///
    /// # Errors
    ///
    /// That it has failed.
    fn wait_sync(&mut self) -> io::Result<Option<Synced>>;

    /// Gets ready for a save of so many bytes, if that makes it faster.
    fn make_spare(&mut self, length: usize);

    /// A save takes its place, whole and safe, while no sync is under way.
    ///
    /// # Errors
    ///
    /// That it may not have done so.
    fn replace(&mut self, save: &[u8]) -> io::Result<()>;
}

impl Log for Journal {
    fn grown(&self) -> usize {
        self.length - self.saved
    }

    fn under_way(&self) -> usize {
        Journal::under_way(self)
    }

    fn add(&mut self, bytes: &[u8]) -> io::Result<()> {
        Journal::add(self, bytes)
    }

    fn sync(&mut self) -> io::Result<Synced> {
        Journal::sync(self)
    }

    fn begin_sync(&mut self, bytes: Vec<u8>, is_of_roll: bool) -> io::Result<()> {
        Journal::begin_sync(self, bytes, is_of_roll)
    }

    fn poll_sync(&mut self) -> io::Result<Option<Synced>> {
        Journal::poll_sync(self)
    }

    fn wait_sync(&mut self) -> io::Result<Option<Synced>> {
        Journal::wait_sync(self)
    }

    fn make_spare(&mut self, length: usize) {
        Journal::make_spare(self, length);
    }

    fn replace(&mut self, save: &[u8]) -> io::Result<()> {
        Journal::replace(self, save)
    }
}

/// Why a node was not opened.
#[derive(Debug)]
pub enum NotOpened {
    /// It has forgotten what others know, or its folder is of another version: it must not start.
    MustNotStart(String),
    /// Something else, which may pass.
    Failed(io::Error),
}

impl From<io::Error> for NotOpened {
    fn from(error: io::Error) -> NotOpened {
        match error.kind() {
            ErrorKind::NotFound | ErrorKind::Unsupported => NotOpened::MustNotStart(error.to_string()),
            _ => NotOpened::Failed(error),
        }
    }
}

impl From<Fault> for NotOpened {
    fn from(fault: Fault) -> NotOpened {
        match fault {
            Fault::NoSave | Fault::TooShort => NotOpened::MustNotStart(fault.to_string()),
            Fault::NoMemory | Fault::Malformed | Fault::Refused | Fault::UsedUp | Fault::OutOfRange => {
                NotOpened::Failed(io::Error::other(fault))
            }
        }
    }
}

/// A node with its journal. It does five of the duties of whoever has a node:
///
/// 1. *Write what you are given*: [`make_safe_now`](Kept::make_safe_now) and [`begin_sync`](Kept::begin_sync) write what
///    the node has written down at the journal's end, in that order, and nothing else.
/// 2. *Say what is safe, and no more*: after a sync they tell the node how many bytes are.
/// 3. *Cut on coming back*: [`open`](Kept::open) cuts the file where its good bytes end, adds what the node adds, and
///    syncs before it says that anything is safe.
/// 4. *Lock*: `open` locks the folder before it reads it. The lock is the journal's, until that is dropped.
/// 5. *Keep elsewhere how many bytes were safe*: the [`Journal`] notes it beside, and `open` passes it on.
///
/// The sixth is the caller's: [`leave`](Kept::leave) gives what may leave, and only that is sent.
pub struct Kept<L> {
    /// The node. What it is given by other calls than those here has the same effect, and is not counted.
    pub node: Node,
    /// Its journal.
    pub log: L,
    /// How many works and messages it took.
    pub works: u64,
    /// Nanoseconds in syncs.
    pub syncing: u64,
    ready: Ready,
    /// How much was taken when the last sync began.
    synced_at: u64,
}

impl Kept<Journal> {
    /// The node that comes back from the folder, or the new one that `make` makes where there is none; all that its
    /// journal has is safe.
    ///
    /// # Errors
    ///
    /// That it must not start, or what has failed.
    pub fn open(
        folder: &Path,
        failing: Failing,
        make: impl FnOnce() -> Result<Node, Fault>,
    ) -> Result<Kept<Journal>, NotOpened> {
        let found = journal::find(folder)?;
        let mut ready = Ready::default();
        let (mut node, journal) = match &found.journal {
            Some(Content { bytes, .. }) => {
                let mut node = Node::come_back(bytes, found.known)?;
                let good = node.good();
                node.ready(&mut ready)?;
                let mut journal = Journal::open(folder, found, good, failing)?;
                journal.add(&ready.journal)?;
                journal.sync()?;
                (node, journal)
            }
            None => {
                let mut node = make()?;
                node.ready(&mut ready)?;
                (node, Journal::create(folder, found, &ready.journal, failing)?)
            }
        };
        node.synced(journal.length)?;
        ready.journal.clear();
        Ok(Kept::new(node, journal, ready))
    }
}

impl<L> Kept<L> {
    /// A node that was opened. What `ready` has belongs to its journal, and may leave.
    pub fn new(node: Node, log: L, ready: Ready) -> Kept<L> {
        Kept { node, log, works: 0, syncing: 0, ready, synced_at: 0 }
    }

    /// The same with its journal as what `of` makes of it.
    pub fn with<M>(self, of: impl FnOnce(L) -> M) -> Kept<M> {
        let Kept { node, log, works, syncing, ready, synced_at } = self;
        Kept { node, log: of(log), works, syncing, ready, synced_at }
    }

    /// Gives the node a work.
    ///
    /// # Errors
    ///
    /// Why it was not taken: nothing has changed.
    pub fn step(&mut self, work: Work) -> Result<(), Fault> {
        self.works += 1;
        self.node.step(work)
    }

    /// Delivers a coded message, which has to be for this node: what the node's own kind and index is, the caller looks
    /// at. After [`Fault::UsedUp`] this node takes no step any more; after all else the message may be dropped.
    ///
    /// # Errors
    ///
    /// Why it was not taken: nothing has changed.
    pub fn deliver(&mut self, message: &[u8]) -> Result<(), Fault> {
        self.works += 1;
        self.node.deliver(message)
    }

    /// Takes what may leave, each message behind its length: it may be sent at once, to whom it is for. What stands in
    /// `messages` is dropped first.
    ///
    /// # Errors
    ///
    /// That memory was refused. What was taken is to be sent all the same; the rest leaves later.
    pub fn leave(&mut self, messages: &mut Vec<u8>) -> Result<(), Fault> {
        std::mem::swap(&mut self.ready.messages, messages);
        self.ready.messages.clear();
        let left = self.node.ready(&mut self.ready);
        std::mem::swap(&mut self.ready.messages, messages);
        left
    }

    /// Takes what the node has written down, but leaves what may leave.
    ///
    /// # Errors
    ///
    /// That memory was refused.
    pub fn collect_written(&mut self) -> Result<(), Fault> {
        self.node.take_journal(&mut self.ready.journal)
    }

    /// Whether something was taken of the node that its journal does not have yet.
    pub fn has_written(&self) -> bool {
        !self.ready.journal.is_empty()
    }

    /// What was taken of the node, for a journal that is not written by this.
    pub fn take_written(&mut self) -> Vec<u8> {
        let next = Vec::with_capacity(self.ready.journal.len());
        std::mem::replace(&mut self.ready.journal, next)
    }

    /// Whether something that was sent waits until what the node has written down is safe.
    pub fn is_waiting(&self) -> bool {
        self.ready.waits
    }

    /// How much was taken since the last sync began.
    pub fn since_sync(&self) -> u64 {
        self.works - self.synced_at
    }
}

impl<L: Log> Kept<L> {
    /// Where something waits until what the node has written down is safe, has that written and synced beside, while
    /// more is taken, but where so many syncs are under way. Says whether one is: what comes meanwhile has to wait.
    ///
    /// # Errors
    ///
    /// That the journal can't be written. The process has to end.
    pub fn begin_sync(&mut self, most: usize, is_of_roll: bool) -> io::Result<bool> {
        if self.log.under_way() < most && self.ready.waits {
            self.synced_at = self.works;
            let bytes = self.take_written();
            self.log.begin_sync(bytes, is_of_roll)?;
        }
        Ok(0 < self.log.under_way())
    }

    /// Syncs that were begun may have ended.
    ///
    /// # Errors
    ///
    /// That one has failed. The process has to end.
    pub fn end_sync(&mut self) -> io::Result<()> {
        while let Some(synced) = self.log.poll_sync()? {
            self.note_synced(synced);
        }
        Ok(())
    }

    fn note_synced(&mut self, synced: Synced) -> bool {
        self.syncing += synced.took.as_nanos() as u64;
        self.node.synced(synced.safe).is_ok()
    }

    /// Writes what the node has written down; and where something waits for that, makes it safe. Says whether it did
    /// so: more may leave then.
    ///
    /// # Errors
    ///
    /// That the journal can't be written or synced. The process has to end.
    pub fn make_safe_now(&mut self) -> io::Result<bool> {
        while let Some(synced) = self.log.wait_sync()? {
            self.note_synced(synced);
        }
        if self.has_written() {
            let bytes = self.take_written();
            self.log.add(&bytes)?;
        }
        if !self.ready.waits {
            return Ok(false);
        }
        self.synced_at = self.works;
        let synced = self.log.sync()?;
        Ok(self.note_synced(synced))
    }

    /// Makes a journal short that has grown by so many bytes, where nothing is under way. One that is on its way there
    /// gets its next file before that. Says whether a save has taken its place.
    ///
    /// # Errors
    ///
    /// That a save can't be written. The process has to end.
    pub fn shorten(&mut self, long: usize) -> io::Result<bool> {
        if long / 16 <= self.log.grown() {
            self.log.make_spare(long);
        }
        if self.log.grown() < long || 0 < self.log.under_way() || self.has_written() {
            return Ok(false);
        }
        match self.node.save() {
            Ok(save) => {
                self.log.replace(&save)?;
                self.node.saved().map_err(io::Error::other)?;
                Ok(true)
            }
            Err(fault) => {
                crate::log::tell(format_args!("a save was refused: {fault}"));
                Ok(false)
            }
        }
    }
}

#[cfg(test)]
mod tests {
    use super::*;
    use sevunthi::Shape;
    use sevunthi::message::framed;

    const SHAPE: Shape = Shape { index: 3, factor: 1, segment: 8, free: true };

    fn open(folder: &Path) -> Result<Kept<Journal>, NotOpened> {
        Kept::open(folder, Failing::default(), || Node::host(SHAPE))
    }

    #[test]
    fn nobody_is_told_of_a_start_that_is_not_safe() -> Result<(), NotOpened> {
        let folder = std::env::temp_dir().join(format!("sevunthi-kept-{}", std::process::id()));
        let _ = std::fs::remove_dir_all(&folder);
        for generation in 1..4 {
            let (mut kept, mut messages) = (open(&folder)?, Vec::new());
            assert!(matches!(open(&folder), Err(NotOpened::Failed(_))), "the folder is locked");
            kept.node.start()?;
            kept.leave(&mut messages)?;
            assert!(messages.is_empty() && kept.is_waiting() && kept.has_written());
            assert!(kept.make_safe_now()?);
            kept.leave(&mut messages)?;
            assert_eq!(framed(&messages).count(), 1);
            assert_eq!(kept.node.info().server.generation, generation);
            assert!(kept.shorten(1)?);
        }
        std::fs::remove_file(folder.join("journal"))?;
        assert!(matches!(open(&folder), Err(NotOpened::MustNotStart(_))));
        Ok(std::fs::remove_dir_all(&folder)?)
    }
}
