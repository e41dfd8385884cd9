//! All nodes, and what is on its way between them.

use crate::client::Client;
use crate::dice::Dice;
use crate::network::Network;
use crate::outcome::Counts;
use crate::process::Process;
use crate::told::{Attempts, Told};
use sevunthi::message::{framed, kind, u16_at, u32_at};
use sevunthi::{Address, Answer, Envelope, Fault, Id, Work};

/// How many hosts there are. They have the first places.
pub const HOSTS: usize = 3;

/// The coordinator's place.
pub const COORDINATOR: usize = 3;

/// How many nodes there are that have a process.
pub const NODES: usize = 4;

/// The place of the outside, which has none.
pub const OUTSIDE: usize = 4;

/// So many moments long a process that has come back is the more likely to end.
const SHAKY: u8 = 12;

/// A node as whoever looks on sees it: its process, what it has told, and for how many moments the process is the more
/// likely to end.
struct Seat {
    process: Process,
    told: Told,
    shaky: u8,
}

impl Seat {
    fn of(process: Process) -> Seat {
        Seat { process, told: Told::default(), shaky: 0 }
    }
}

/// Four nodes in processes of their own, and the outside. What one knows of another has come as bytes. `sent` and
/// `counts` are of whoever looks on: all messages that have ever left, for the audit, and what has happened.
pub struct Cluster {
    seats: [Seat; NODES],
    network: Network,
    generations: [u32; HOSTS],
    attempts: Attempts,
    pub client: Client,
    pub dice: Dice,
    pub is_calm: bool,
    pub sent: Vec<Vec<u8>>,
    pub counts: Counts,
}

impl Cluster {
    /// All nodes, set up.
    pub fn new(seed: u64) -> Result<Cluster, Fault> {
        let host = |index| Process::host(index).map(Seat::of);
        Ok(Cluster {
            seats: [host(0)?, host(1)?, host(2)?, Seat::of(Process::coordinator()?)],
            network: Network::default(),
            generations: [0; HOSTS],
            attempts: Attempts::new(),
            client: Client::default(),
            dice: Dice::of(seed),
            is_calm: true,
            sent: Vec::new(),
            counts: Counts::default(),
        })
    }

    fn process(&mut self, place: usize) -> &mut Process {
        &mut self.seats[place].process
    }

    /// One work of one node, and what follows. A work that the node can't be given now is dropped.
    pub fn give(&mut self, place: usize, work: Work) -> Result<(), Fault> {
        let is_done = self.process(place).give(work)?;
        self.follow(place, is_done)
    }

    /// What follows a work that was given, or refused: the record is written and synced, at once or later, and what may
    /// leave leaves.
    fn follow(&mut self, place: usize, is_done: bool) -> Result<(), Fault> {
        if !is_done {
            return Ok(());
        }
        self.counts.works += 1;
        self.leave(place)?;
        if (self.is_calm || !self.dice.once_in(4)) && !self.falls(place) {
            self.process(place).write();
        }
        if self.is_calm || self.dice.once_in(2) {
            self.sync(place)?;
        }
        if self.process(place).wants_saving() {
            self.save(place)?;
        }
        Ok(())
    }

    /// Whether the process ends right now, as few do, but some of those that have just come back: it is killed, or the
    /// power is cut.
    fn falls(&mut self, place: usize) -> bool {
        let shaky = &mut self.seats[place].shaky;
        let times = if *shaky > 0 { 40 } else { 600 };
        *shaky = shaky.saturating_sub(1);
        let falls = !self.is_calm && self.dice.once_in(times);
        if falls {
            self.crash(place);
        }
        falls
    }

    /// What was written is synced, and what may leave then leaves.
    pub fn sync(&mut self, place: usize) -> Result<(), Fault> {
        if self.falls(place) {
            return Ok(());
        }
        let count = self.process(place).sync_first();
        if self.falls(place) {
            return Ok(());
        }
        self.process(place).sync_second();
        if self.falls(place) {
            return Ok(());
        }
        if !self.process(place).note_synced(count) {
            self.counts.damaged += 1;
        }
        self.leave(place)
    }

    /// What may leave leaves, and is noted.
    fn leave(&mut self, place: usize) -> Result<(), Fault> {
        while !self.falls(place) {
            let Some(batch) = self.process(place).leave()? else {
                break;
            };
            for message in framed(&batch) {
                self.look_on(place, message);
                self.send(message);
            }
        }
        Ok(())
    }

    /// A message leaves.
    pub fn send(&mut self, message: &[u8]) {
        self.network.send(message);
        self.sent.push(message.to_vec());
    }

    /// Whoever looks on notes what a message of a node says.
    fn look_on(&mut self, place: usize, message: &[u8]) {
        let Some(envelope) = Envelope::read(message) else {
            self.counts.damaged += 1;
            return;
        };
        if envelope.kind == kind::GATHER {
            let master = envelope.body.get(4..).and_then(Id::read);
            self.attempts.extend(u32_at(envelope.body, 0).zip(master));
        }
        if let Some(Answer::Written { key, version, .. }) = envelope.answer() {
            self.client.note_told(key, version);
        }
        if self.seats[place].told.note(&envelope, &self.attempts).is_none() {
            self.counts.damaged += 1;
        }
    }

    /// A save goes on: to its end where all is calm, else by a step or a few.
    fn save(&mut self, place: usize) -> Result<(), Fault> {
        while !self.falls(place) {
            if self.process(place).go_on_saving()? {
                self.counts.saves += 1;
                break;
            }
            if !self.is_calm && self.dice.once_in(2) {
                break;
            }
        }
        Ok(())
    }

    /// One of the messages on their way arrives, if there is one; or it is lost, or it arrives and will once more.
    pub fn deliver(&mut self) -> Result<(), Fault> {
        let Some((place, message)) = self.network.take(&mut self.dice) else {
            return Ok(());
        };
        if !self.is_calm && self.dice.once_in(40) {
            self.counts.lost += 1;
            return Ok(());
        }
        if !self.is_calm && self.dice.once_in(40) {
            self.counts.repeated += 1;
            self.network.repeat(place, &message);
        }
        self.counts.delivered += 1;
        self.arrive(place, &message)
    }

    /// This message comes to a node, or to the outside.
    fn arrive(&mut self, place: usize, message: &[u8]) -> Result<(), Fault> {
        let Some(envelope) = Envelope::read(message) else {
            return Ok(());
        };
        if place == OUTSIDE {
            self.client.notice(&envelope);
            return Ok(());
        }
        let is_done = self.process(place).deliver(message)?;
        if let (true, kind::FREE, Address::Server(master)) = (is_done, envelope.kind, envelope.from) {
            // a backup need not know a segment that was freed
            if let Some(segment) = u16_at(envelope.body, 0) {
                self.seats[place].told.free(master, segment);
            }
        }
        self.follow(place, is_done)
    }

    /// The process of a node is killed, or its power is cut, also where no process has it.
    pub fn crash(&mut self, place: usize) {
        let process = &mut self.seats[place].process;
        if self.dice.once_in(2) {
            self.counts.power_cuts += 1;
            self.counts.unsynced += process.unsynced() as u64;
            process.cut_power(&mut self.dice);
        } else if !process.is_down() {
            self.counts.kills += 1;
            process.end();
        }
    }

    /// A process comes back whose node is down, and has to know all that it told. A host is started with the open
    /// replicas that it still has; now and then it is said to have lost them.
    pub fn come_back(&mut self, place: usize) -> Result<(), Fault> {
        let seat = &mut self.seats[place];
        if !seat.process.is_down() {
            return Ok(());
        }
        if !seat.process.come_back()? {
            self.counts.damaged += 1;
            return Ok(());
        }
        seat.shaky = SHAKY;
        match seat.process.kept()? {
            Some(kept) if seat.told.is_known_to(&kept) => {}
            Some(_) => self.counts.forgotten += 1,
            None => self.counts.damaged += 1,
        }
        if place < HOSTS { self.start(place) } else { Ok(()) }
    }

    /// A host is started, unless it runs.
    pub fn start(&mut self, place: usize) -> Result<(), Fault> {
        let keeps = self.is_calm || !self.dice.once_in(40);
        let Seat { process, told, .. } = &mut self.seats[place];
        let is_done = if keeps { process.start()? } else { process.give(Work::StartWithoutOpen)? };
        if is_done {
            told.restart(keeps);
        }
        if let Some(info) = process.info() {
            let newest = &mut self.generations[place];
            *newest = info.server.generation.max(*newest);
        }
        self.follow(place, is_done)
    }

    /// The newest server of a host.
    pub fn newest(&self, host: usize) -> Id {
        Id { index: host as u8, generation: self.generations[host] }
    }

    /// Whether no process has the node of this place.
    pub fn is_down(&self, place: usize) -> bool {
        self.seats[place].process.is_down()
    }

    /// The owners of tablets that have crashed, as the coordinator has them.
    pub fn crashed_owners(&mut self) -> Result<Vec<Id>, Fault> {
        let tablets = self.process(COORDINATOR).tablets()?;
        Ok(tablets.iter().filter(|tablet| tablet.crashed).map(|tablet| tablet.owner).collect())
    }

    /// How many messages are on their way.
    pub fn flying(&self) -> usize {
        self.network.len()
    }

    /// How many bytes all journals have.
    pub fn journals(&self) -> usize {
        self.seats.iter().map(|seat| seat.process.journal_len()).sum()
    }
}
