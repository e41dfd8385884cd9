//! A node in its process, with its disk.

use crate::dice::Dice;
use crate::disk::{Disk, Stage};
use crate::kept::Kept;
use sevunthi::{Fault, Info, Node, Shape, Tablet, Work};

/// A journal that has so many bytes behind its save is long.
const LONG: usize = 1_024;

/// A node: its process, unless that has ended; what is to be written; its disk; and how many bytes of its journal are
/// known elsewhere to be safe.
pub struct Process {
    node: Option<Node>,
    pending: Vec<u8>,
    disk: Disk,
    known: usize,
    saved: usize,
}

/// Whether it was done. What can't be done now is dropped.
///
/// # Errors
///
/// Memory was refused.
fn done(answer: Result<(), Fault>) -> Result<bool, Fault> {
    match answer {
        Ok(()) => Ok(true),
        Err(Fault::NoMemory) => Err(Fault::NoMemory),
        Err(_) => Ok(false),
    }
}

impl Process {
    /// The coordinator, set up.
    pub fn coordinator() -> Result<Process, Fault> {
        Process::set_up(Node::coordinator()?)
    }

    /// A host, set up: with small segments, so that heads roll, which are freed once they are dead.
    pub fn host(index: u8) -> Result<Process, Fault> {
        Process::set_up(Node::host(Shape { index, factor: 2, segment: 4, free: true })?)
    }

    /// The node is set up: its journal is the save of a new node, and that is safe.
    fn set_up(mut node: Node) -> Result<Process, Fault> {
        let mut save = Vec::new();
        node.take_journal(&mut save)?;
        let mut disk = Disk::new();
        disk.write(&save);
        disk.sync_first();
        node.synced(save.len())?;
        Ok(Process { node: Some(node), pending: Vec::new(), disk, known: save.len(), saved: save.len() })
    }

    /// Whether no process has the node now.
    pub fn is_down(&self) -> bool {
        self.node.is_none()
    }

    /// The node at a glance, where a process has it.
    pub fn info(&mut self) -> Option<Info> {
        self.node.as_mut().map(Node::info)
    }

    /// The coordinator's tablets; none where no process has it.
    pub fn tablets(&mut self) -> Result<Vec<Tablet>, Fault> {
        self.node.as_mut().map_or(Ok(Vec::new()), Node::tablets)
    }

    /// How many bytes its journal has.
    pub fn journal_len(&self) -> usize {
        self.disk.journal().len()
    }

    /// How many bytes of its journal are not on the disk.
    pub fn unsynced(&self) -> usize {
        self.disk.unsynced()
    }

    /// Has the node do something, of which the record is to be written. Says whether it was done.
    fn do_it(&mut self, it: impl FnOnce(&mut Node) -> Result<(), Fault>) -> Result<bool, Fault> {
        let Some(node) = &mut self.node else {
            return Ok(false);
        };
        let is_done = done(it(node))?;
        node.take_journal(&mut self.pending)?;
        Ok(is_done)
    }

    /// Gives the node a work.
    pub fn give(&mut self, work: Work) -> Result<bool, Fault> {
        self.do_it(|node| node.step(work))
    }

    /// Gives the node a message as it has come.
    pub fn deliver(&mut self, message: &[u8]) -> Result<bool, Fault> {
        self.do_it(|node| node.deliver(message))
    }

    /// Starts a host's server, with all open replicas that it has, unless one runs.
    pub fn start(&mut self) -> Result<bool, Fault> {
        if self.info().is_none_or(|info| info.runs) {
            return Ok(false);
        }
        self.do_it(Node::start)
    }

    /// Writes what is to be written.
    pub fn write(&mut self) {
        self.disk.write(&self.pending);
        self.pending.clear();
    }

    /// Begins to sync what was written, and gives how many bytes that are.
    pub fn sync_first(&mut self) -> usize {
        self.disk.sync_first();
        self.journal_len()
    }

    /// Goes on with that: the same in the second file, where there is one.
    pub fn sync_second(&mut self) {
        self.disk.sync_second();
    }

    /// Both are on the disk, so the node is told so. Says whether it knows of so many bytes.
    pub fn note_synced(&mut self, count: usize) -> bool {
        let Some(node) = &mut self.node else {
            return true;
        };
        let is_known = node.synced(count).is_ok();
        if is_known && self.disk.stage() == Stage::Idle {
            self.known = count;
        }
        is_known
    }

    /// What one step has sent and may leave, each message behind its length.
    pub fn leave(&mut self) -> Result<Option<Vec<u8>>, Fault> {
        let mut messages = Vec::new();
        let may = match &mut self.node {
            Some(node) => node.leave(&mut messages)?,
            None => false,
        };
        Ok(may.then_some(messages))
    }

    /// Whether a save is under way, or the journal has become long since the last one.
    pub fn wants_saving(&self) -> bool {
        let behind = self.journal_len().saturating_sub(self.saved);
        self.node.is_some() && (self.disk.stage() != Stage::Idle || behind > LONG)
    }

    /// The next step of a save, which is done after the fourth; says whether this was the last.
    pub fn go_on_saving(&mut self) -> Result<bool, Fault> {
        match self.disk.stage() {
            Stage::Idle => self.begin_save()?,
            Stage::Written => self.disk.sync_second(),
            Stage::Synced => self.disk.rename(),
            Stage::Renamed => {
                self.end_save()?;
                return Ok(true);
            }
        }
        Ok(false)
    }

    /// All that is to be written is written, and then a save to the second file. Until this has taken the journal's
    /// place, as much is known to be safe as either file has.
    fn begin_save(&mut self) -> Result<(), Fault> {
        self.write();
        if let Some(node) = &mut self.node {
            let save = node.save()?;
            self.known = self.known.min(save.len());
            self.disk.begin_second(save);
        }
        Ok(())
    }

    /// The second file has taken the journal's place for good.
    fn end_save(&mut self) -> Result<(), Fault> {
        self.disk.sync_folder();
        if let Some(node) = &mut self.node {
            node.saved()?;
            self.known = node.info().safe;
        }
        self.saved = self.journal_len();
        Ok(())
    }

    /// The process ends, and with it what it had not written.
    pub fn end(&mut self) {
        self.node = None;
        self.pending.clear();
    }

    /// The power is cut, and what was not synced goes too.
    pub fn cut_power(&mut self, dice: &mut Dice) {
        self.end();
        self.disk.cut_power(dice);
    }

    /// A new process has the node: it has come back from its journal, which is cut off where its good bytes end. What
    /// was read and what is to be written counts as safe once it is synced. Says whether it has come back: it has not
    /// where the journal has lost what was safe.
    pub fn come_back(&mut self) -> Result<bool, Fault> {
        self.disk.sync_folder();
        self.disk.forget_second();
        match Node::come_back(self.disk.journal(), self.known) {
            Ok(mut node) => {
                self.disk.cut(node.good());
                node.take_journal(&mut self.pending)?;
                self.node = Some(node);
                Ok(true)
            }
            Err(Fault::NoMemory) => Err(Fault::NoMemory),
            Err(_) => Ok(false),
        }
    }

    /// What a node keeps that comes back from this journal, as the save of another one says that does so, too.
    pub fn kept(&self) -> Result<Option<Kept>, Fault> {
        let mut copy = Node::come_back(self.disk.journal(), self.known)?;
        copy.take_journal(&mut Vec::new())?;
        Ok(Kept::read(&copy.save()?))
    }
}
