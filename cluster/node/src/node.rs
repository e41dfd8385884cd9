//! A node of the protocol.

use crate::fault::Fault;
use crate::message::{Id, framed, u32_at, u64_at};
use crate::raw::{self, RawInfo, RawNode, Take};
use crate::work::{Due, Work};

/// What a host is made with.
#[derive(Clone, Copy, Debug, PartialEq, Eq)]
pub struct Shape {
    /// The host's index, 0 to 63.
    pub index: u8,
    /// How many replicas each segment has, 1 to 5.
    pub factor: u8,
    /// How many entries a segment takes, 1 to 1,024.
    pub segment: u16,
    /// Whether segments that have become wholly dead are freed.
    pub free: bool,
}

/// A node at a glance. What only a host or its server has is 0, or does not hold, of another node.
#[derive(Clone, Copy, Debug, PartialEq, Eq)]
pub struct Info {
    /// The server of the host's last start; generation 0 where it was never started.
    pub server: Id,
    /// Whether a server runs on the host.
    pub runs: bool,
    /// Whether that has learnt that the coordinator holds it for dead.
    pub is_deposed: bool,
    /// The newest segment of its log.
    pub head: u16,
    /// How many entries that has: the place of the next one.
    pub entries: u64,
    /// How many bytes the journal has, with those that were not taken yet.
    pub written: usize,
    /// How many of them are known to be safe.
    pub safe: usize,
    /// How many of them were not taken yet.
    pub untaken: usize,
    /// Whether something is held back until more is safe, or was not taken.
    pub is_waiting: bool,
    /// Whether a save was begun that has not taken the journal's place.
    pub is_saving: bool,
    /// Whether the node's numbers suffice for one more step.
    pub has_room: bool,
}

/// A tablet, as the coordinator knows it.
#[derive(Clone, Copy, Debug, PartialEq, Eq)]
pub struct Tablet {
    /// The table.
    pub table: u32,
    /// The first key.
    pub lo: u64,
    /// The last key.
    pub hi: u64,
    /// Who owns it, or owned it when it crashed.
    pub owner: Id,
    /// The term of this ownership.
    pub term: u32,
    /// Whether the owner has crashed and nobody has it since.
    pub crashed: bool,
}

/// What a node wants after works and messages: first `journal` is added to the journal's file (and to the second file
/// while a save takes its place); `messages` may be sent at once; and where `waits`, others may once the file was
/// synced and [`Node::synced`] was told so.
#[derive(Debug, Default)]
pub struct Ready {
    /// What has to be added to the journal's file.
    pub journal: Vec<u8>,
    /// What may leave, each message behind its length in four bytes.
    pub messages: Vec<u8>,
    /// Whether more may leave once all that was written is safe.
    pub waits: bool,
}

impl Ready {
    /// The messages that may leave, coded.
    pub fn messages(&self) -> impl Iterator<Item = &[u8]> {
        framed(&self.messages)
    }
}

/// A node of the protocol: a host with its backup and its master, or the coordinator. It reads and writes nothing.
///
/// Whoever has one has five duties: it writes what [`Ready`] says at the end of the journal's file; it says what is
/// safe, and no more; it cuts the file when it comes back; it lets no other process at the file; and it keeps elsewhere
/// how many bytes were safe. A node stays on the thread that made it.
pub struct Node {
    raw: RawNode,
    room: Vec<u8>,
}

impl Drop for Node {
    fn drop(&mut self) {
        raw::sevunthi_free(&mut self.raw);
    }
}

impl Node {
    fn made(make: impl FnOnce(&mut RawNode) -> u32) -> Result<Node, Fault> {
        let mut node = Node { raw: RawNode::empty(), room: vec![0; LEAST_ROOM] };
        Fault::of(make(&mut node.raw))?;
        Ok(node)
    }

    /// The coordinator, before anything has happened. It is made once, when the cluster is set up: its [`Ready`] has
    /// the journal's file to begin with, which has to be safe before the node is given anything.
    pub fn coordinator() -> Result<Node, Fault> {
        Node::made(|raw| raw::sevunthi_coordinator(raw))
    }

    /// A host that was never started. Its file begins as the coordinator's does.
    pub fn host(shape: Shape) -> Result<Node, Fault> {
        let Shape { index, factor, segment, free } = shape;
        Node::made(|raw| raw::sevunthi_host(raw, index, factor, segment, free))
    }

    /// The node that comes back from its file, of which `known` bytes were known to be safe. A host is stopped. The
    /// file has to be cut to [`Node::good`] bytes; then what [`Ready`] says is added, and all is synced.
    pub fn come_back(file: &[u8], known: usize) -> Result<Node, Fault> {
        // SAFETY: the pointer and the length are the slice's
        Node::made(|raw| unsafe { raw::sevunthi_come_back(raw, file.as_ptr(), file.len(), known) })
    }

    /// How many bytes of the journal were taken from the node, or were good when it came back.
    pub fn good(&mut self) -> usize {
        let info = self.info();
        info.written - info.untaken
    }

    /// Gives the node a work.
    pub fn step(&mut self, work: Work) -> Result<(), Fault> {
        let code = work.code();
        // SAFETY: the pointer and the length are the vector's
        Fault::of(unsafe { raw::sevunthi_step(&mut self.raw, code.as_ptr(), code.len()) })
    }

    /// Delivers a coded message, which has to be for this node.
    pub fn deliver(&mut self, message: &[u8]) -> Result<(), Fault> {
        // SAFETY: the pointer and the length are the slice's
        Fault::of(unsafe { raw::sevunthi_deliver(&mut self.raw, message.as_ptr(), message.len()) })
    }

    /// Starts the host's server anew: stops it, if it runs, and starts it with all open replicas that the host has.
    /// Where it fails the server may be stopped: [`Info::runs`] says whether it is.
    pub fn start(&mut self) -> Result<(), Fault> {
        Fault::of(raw::sevunthi_start(&mut self.raw))
    }

    /// Adds to `ready` what the node wants now.
    pub fn ready(&mut self, ready: &mut Ready) -> Result<(), Fault> {
        self.take_journal(&mut ready.journal)?;
        while self.leave(&mut ready.messages)? {}
        ready.waits = self.info().is_waiting;
        Ok(())
    }

    /// Adds to `journal` what has to be added to the journal's file. [`Node::ready`] does this, and what follows.
    pub fn take_journal(&mut self, journal: &mut Vec<u8>) -> Result<(), Fault> {
        Fault::of(self.take(raw::sevunthi_take_journal, journal))
    }

    /// Adds to `messages` what one step has sent and may leave, each message behind its length; says whether something
    /// may.
    pub fn leave(&mut self, messages: &mut Vec<u8>) -> Result<bool, Fault> {
        match self.take(raw::sevunthi_leave, messages) {
            8 => Ok(false),
            number => Fault::of(number).map(|()| true),
        }
    }

    /// So many bytes of the journal's file are safe.
    pub fn synced(&mut self, count: usize) -> Result<(), Fault> {
        Fault::of(raw::sevunthi_synced(&mut self.raw, count))
    }

    /// Begins a save, which is the second file. From now on what [`Ready`] has for the journal belongs at the end of
    /// both.
    pub fn save(&mut self) -> Result<Vec<u8>, Fault> {
        Fault::of(raw::sevunthi_save(&mut self.raw))?;
        let mut second = Vec::new();
        Fault::of(self.take(raw::sevunthi_take_second, &mut second))?;
        Ok(second)
    }

    /// The second file has taken the journal's place, and that is safe.
    pub fn saved(&mut self) -> Result<(), Fault> {
        Fault::of(raw::sevunthi_saved(&mut self.raw))
    }

    /// The node at a glance.
    pub fn info(&mut self) -> Info {
        let mut info = RawInfo::default();
        raw::sevunthi_info(&mut self.raw, &mut info);
        Info {
            server: Id { index: info.index, generation: info.generation },
            runs: info.runs,
            is_deposed: info.is_deposed,
            head: info.head,
            entries: info.entries as u64,
            written: info.written,
            safe: info.safe,
            untaken: info.untaken,
            is_waiting: info.is_waiting,
            is_saving: info.is_saving,
            has_room: info.has_room,
        }
    }

    /// The coordinator's tablets, in order of table and first key.
    pub fn tablets(&mut self) -> Result<Vec<Tablet>, Fault> {
        let mut code = Vec::new();
        Fault::of(self.take(raw::sevunthi_tablets, &mut code))?;
        Ok(code[8..].chunks_exact(30).filter_map(tablet).collect())
    }

    /// The coordinator's servers in the order of enlisting, each with whether it is up.
    pub fn servers(&mut self) -> Result<Vec<(Id, bool)>, Fault> {
        let mut code = Vec::new();
        Fault::of(self.take(raw::sevunthi_servers, &mut code))?;
        Ok(code[8..].chunks_exact(6).filter_map(|row| Some((Id::read(row)?, row[5] == 1))).collect())
    }

    /// What is due at the coordinator, for who was heard lately, who was silent for longer than one waits, and which
    /// owners are stuck.
    pub fn dues(&mut self, heard: &[Id], silent: &[Id], stuck: &[Id]) -> Result<Vec<Due>, Fault> {
        let (heard, silent, stuck) = (ids_code(heard), ids_code(silent), ids_code(stuck));
        let mut code = Vec::new();
        let Node { raw, room } = self;
        // SAFETY: each pointer stands before the length of its own vector, and `to` before that of the room
        let number = fill(room, &mut code, |to, room, needed| unsafe {
            raw::sevunthi_dues(
                raw,
                heard.as_ptr(),
                heard.len(),
                silent.as_ptr(),
                silent.len(),
                stuck.as_ptr(),
                stuck.len(),
                to,
                room,
                needed,
            )
        });
        Fault::of(number)?;
        Ok(code.chunks_exact(7).filter_map(Due::read).collect())
    }

    fn take(&mut self, take: Take, to: &mut Vec<u8>) -> u32 {
        let Node { raw, room } = self;
        // SAFETY: the pointer and the length are the room's
        fill(room, to, |at, room, needed| unsafe { take(raw, at, room, needed) })
    }
}

/// How many bytes of room a node has at least, and at most between calls.
const LEAST_ROOM: usize = 4096;
const MOST_ROOM: usize = 1 << 20;

/// Adds what a call gives to `to`: it stands in the room first, which grows as the call asks for.
fn fill(room: &mut Vec<u8>, to: &mut Vec<u8>, mut call: impl FnMut(*mut u8, usize, &mut usize) -> u32) -> u32 {
    loop {
        let mut needed = 0;
        match call(room.as_mut_ptr(), room.len(), &mut needed) {
            0 => {
                to.extend_from_slice(&room[..needed]);
                if MOST_ROOM < room.len() {
                    *room = vec![0; LEAST_ROOM];
                }
                return 0;
            }
            6 => room.resize(needed.next_power_of_two(), 0),
            number => return number,
        }
    }
}

fn ids_code(ids: &[Id]) -> Vec<u8> {
    let mut code = (ids.len() as u64).to_le_bytes().to_vec();
    for id in ids {
        code.extend_from_slice(&id.code());
    }
    code
}

fn tablet(code: &[u8]) -> Option<Tablet> {
    Some(Tablet {
        table: u32_at(code, 0)?,
        lo: u64_at(code, 4)?,
        hi: u64_at(code, 12)?,
        owner: Id::read(&code[20..])?,
        term: u32_at(code, 25)?,
        crashed: code[29] == 1,
    })
}

/// HMAC with SHA-256: a sum over a message that only who has the key can make.
pub fn mac(key: &[u8], message: &[u8]) -> [u8; 32] {
    let mut sum = [0; 32];
    // SAFETY: the pointers and the lengths are those of the two slices and of the array
    unsafe { raw::sevunthi_mac(key.as_ptr(), key.len(), message.as_ptr(), message.len(), sum.as_mut_ptr(), sum.len()) };
    sum
}
