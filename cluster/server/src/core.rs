//! What hosts and the coordinator have in common: a node with its journal, its peers and its clients.

mod opening;
mod transacting;

use crate::awake::Awake;
use crate::dialer::Dialer;
use crate::door::{self, Door, Opening};
use crate::events::{self, Event, EventReceiver, EventSender};
use crate::faults::{Failing, Mangle, Wrong};
use crate::guard::{COORDINATOR, Guard, Position, Shown, Standing, WORD, Word};
use crate::hello::{Hello, Role};
pub use crate::log::{failed, must_not_start, tell};
use crate::members::{COORDINATORS, Members};
use crate::metrics::{self, Kind, Metrics};
use crate::net::{PeerWriter, Writer};
use crate::pace::Pace;
use crate::protocol::Reply;
use crate::reasons::name;
use crate::record::Record;
use crate::room::Room;
use crate::secret::Secrets;
use crate::segments::Segments;
use crate::store::Store;
use crate::superseded::without_superseded;
use crate::waits::Waits;
use crate::wire::{HEARTBEAT, NOT_UP, frames};
pub use opening::{Opened, coordinator_of};
use sevunthi::message::{Stored, framed, kind, u16_at, u64_at};
use sevunthi::{Address, Answer, Envelope, Fault, Id};
use sevunthi_runtime::kept::{Kept, Log};
use std::collections::{BTreeMap, VecDeque};
use std::io;
use std::ops::Range;
use std::path::PathBuf;
use std::sync::Arc;
use std::time::{Duration, Instant};
pub use transacting::{add_counts, add_fenced};

/// How a process of the cluster is to run.
#[derive(Clone, Debug)]
pub struct Config {
    /// The host's index; none is the coordinator.
    pub index: Option<u8>,
    /// Who is of the cluster, and where each listens.
    pub members: Members,
    /// How many coordinators there are, of which one leads; and which of them this is.
    pub coordinators: u8,
    pub coordinator: u8,
    /// Where etcd listens, if the coordinators' journal is there.
    pub store: Vec<String>,
    /// And what keys of this cluster begin with there.
    pub store_name: String,
    /// Where this process listens, where that is not where others reach it.
    pub listen: Option<String>,
    /// The node's folder.
    pub folder: PathBuf,
    /// Who has to prove what to this process.
    pub secrets: Secrets,
    /// How many replicas each segment has.
    pub factor: u8,
    /// How many entries a segment takes.
    pub segment: u16,
    /// Milliseconds between timers of the node.
    pub tick: u64,
    /// Milliseconds of silence before a server is suspected.
    pub silence: u64,
    /// Milliseconds for which a backup may be slow before it is given up; 0 where it never is.
    pub slow: u64,
    /// How many bytes a journal grows before it is made short.
    pub long: usize,
    /// When a host has taken so much since the last sync, or has writes of its own under way, the next one is left to a
    /// thread, and the host goes on.
    pub beside: u64,
    /// So many bytes are to be left on the disk.
    pub reserve: u64,
    /// How many hosts a coordinator that begins has to hear before it acts; all but `factor` where it is not said.
    pub hear: Option<u8>,
    /// Whether each message is recorded.
    pub record: bool,
    /// Whether faults can be asked for.
    pub faults: bool,
}

impl Config {
    /// This process's place among all: the hosts have the first ones.
    pub fn place(&self) -> usize {
        self.index.map_or(COORDINATORS + usize::from(self.coordinator), usize::from)
    }

    /// The places of the coordinators.
    fn coordinator_places(&self) -> Range<usize> {
        COORDINATORS..COORDINATORS + usize::from(self.coordinators)
    }

    /// Whether a coordinator has this place.
    fn is_coordinator(&self, place: usize) -> bool {
        self.coordinator_places().contains(&place)
    }

    /// The name that metrics have for who has this place.
    pub fn label(&self, place: usize) -> String {
        metrics::label(place, COORDINATORS)
    }

    /// Where whoever has this place listens.
    pub fn at(&self, place: usize) -> String {
        self.members.at(place)
    }

    /// Opens this process's port.
    pub fn open_door(&self, events: EventSender) -> io::Result<Arc<Door>> {
        let opening = Opening {
            place: self.place() as u8,
            places: usize::from(self.members.hosts()) + usize::from(self.coordinators),
            name: self.label(self.place()),
            secrets: self.secrets.clone(),
            folder: self.folder.clone(),
        };
        door::open(&self.listen.clone().unwrap_or_else(|| self.at(self.place())), opening, events)
    }

    fn dialer(&self, place: usize) -> Dialer {
        let hello = Hello { role: Role::Peer, from: self.place() as u8, to: place as u8 };
        Dialer::new(hello, self.members.clone(), self.secrets.peers.clone())
    }
}

/// Where the segment stands in the subject of a Stored, behind its sender and its addressee.
const STORED_SEGMENT: usize = 14;

/// For so many bytes of answers to a client there is room at once. The thread that sends them frees this; it is more
/// than the C library would keep at hand for that thread.
const ANSWERS: usize = 2048;

/// A node with its journal, its peers and its clients.
pub struct Core {
    pub config: Config,
    pub kept: Kept<Store>,
    /// What leaves just now.
    leaving: Vec<u8>,
    pub guard: Guard,
    pub room: Room,
    pub counts: Counts,
    /// How many answers had each code.
    codes: BTreeMap<u8, u64>,
    clock: u64,
    began: Instant,
    base: u64,
    /// By their places: those to whom something was said.
    peers: Vec<Option<PeerWriter>>,
    outs: Vec<Vec<u8>>,
    /// How far this node had come, as each peer was told last.
    said: Vec<Position>,
    clients: BTreeMap<u64, Writer>,
    answers: BTreeMap<u64, Vec<u8>>,
    pub local: VecDeque<Vec<u8>>,
    record: Option<Record>,
    door: Arc<Door>,
    pub mangle: Mangle,
    pub awake: Awake,
    pub waits: Waits,
    /// At the coordinator: too few hosts have room.
    pub is_scarce: bool,
    pub pace: Pace,
    pub segments: Segments,
    /// When an Append of another came last, in the time of `awake`.
    appended_at: Option<Duration>,
}

/// What was counted.
#[derive(Clone, Copy, Debug, Default)]
pub struct Counts {
    /// Messages that left.
    pub messages: u64,
    /// Frames that came.
    pub frames: u64,
    /// Saves.
    pub saves: u64,
    /// Writes acknowledged, and reads answered.
    pub answered: u64,
    /// Answers for clients that had gone.
    pub lost_answers: u64,
}

/// A host to which an Append came within this time is one that keeps entries of others.
const LATELY: Duration = Duration::from_millis(50);

/// How often a server says that it lives, and what a node shows is made anew.
pub const BEAT: Duration = Duration::from_millis(100);

impl Core {
    /// Opens the folder, makes the node or has it come back, and listens.
    pub fn open(config: Config) -> io::Result<(Core, EventReceiver)> {
        let mut opened = opening::open_in_folder(&config)?;
        let (events, from) = events::channel();
        let done = events.clone();
        let ended = |is_of_roll| if is_of_roll { Event::RollSynced } else { Event::Synced };
        if let Store::File(journal) = &mut opened.kept.log {
            journal.sync_beside(move |is_of_roll| _ = done.send(ended(is_of_roll)));
        }
        let door = config.open_door(events)?;
        Ok((Core::new(config, opened, door)?, from))
    }

    /// A node that was opened, whose port is open.
    pub fn new(config: Config, opened: Opened, door: Arc<Door>) -> io::Result<Core> {
        let Opened { kept, guard, clock } = opened;
        let places = 0..config.coordinator_places().end;
        let record = config.record.then(|| Record::open(&config.folder)).transpose()?;
        let mut core = Core {
            kept,
            leaving: Vec::new(),
            guard,
            room: Room::new(&config.folder, config.reserve),
            counts: Counts::default(),
            codes: BTreeMap::new(),
            clock: record.as_ref().map_or(0, Record::noted).max(clock),
            began: Instant::now(),
            base: opening::since_boot(),
            peers: places.clone().map(|_| None).collect(),
            said: places.clone().map(|_| Position::default()).collect(),
            outs: places.map(|_| Vec::new()).collect(),
            clients: BTreeMap::new(),
            answers: BTreeMap::new(),
            local: VecDeque::new(),
            record,
            door,
            mangle: Mangle::default(),
            awake: Awake::default(),
            waits: Waits::default(),
            is_scarce: false,
            pace: Pace::default(),
            segments: Segments::default(),
            appended_at: None,
            config,
        };
        core.tick_clock();
        Ok(core)
    }

    /// The clock rises with each use, and with time where that is ahead.
    fn tick_clock(&mut self) {
        self.clock = self.clock.saturating_add(1).max(self.base + self.began.elapsed().as_nanos() as u64);
    }

    /// Takes the frames of a batch: gives each message, and each heartbeat with its id, to `take`.
    pub fn each_frame(&mut self, batch: &[u8], mut take: impl FnMut(&mut Core, Frame<'_>)) {
        for (clock, message) in frames(batch) {
            self.counts.frames += 1;
            self.clock = self.clock.max(clock.saturating_add(1));
            match message.split_first() {
                Some((&WORD, _)) => self.take_word(message),
                Some((&HEARTBEAT, ids)) => {
                    let mut ids = ids.chunks_exact(5).filter_map(Id::read);
                    if let Some(id) = ids.next() {
                        take(self, Frame::Heartbeat(id, ids.collect()));
                    }
                }
                Some((&NOT_UP, id)) => {
                    if let Some(id) = Id::read(id) {
                        take(self, Frame::NotUp(id));
                    }
                }
                _ => take(self, Frame::Message(message)),
            }
        }
    }

    /// What the coordinator and a host have of each other's folders. Where this one's is an older copy, it ends.
    pub fn take_word(&mut self, bytes: &[u8]) {
        let Some(word) = Word::read(bytes) else { return };
        let before = self.guard.standing(word.from);
        let shown = self.guard.take(&word);
        let shown = shown.unwrap_or_else(|error| failed("what was told can't be kept", error));
        let who = if word.from == COORDINATOR { "the coordinator".to_string() } else { format!("host {}", word.from) };
        match shown {
            Shown::IsOlder => opening::is_older(&who, &mut self.kept.log),
            Shown::WasReplaced => opening::was_replaced(),
            Shown::Nothing => {}
        }
        let standing = self.guard.standing(word.from);
        if standing == Standing::Good {
            self.room.hear(word.from, word.lacks_room);
        }
        if standing != before {
            match standing {
                Standing::Older => tell(format_args!("{who} speaks of less than before: nothing of it is taken")),
                Standing::Foreign => tell(format_args!("{who} is of another cluster: nothing of it is taken")),
                Standing::Unheard | Standing::New | Standing::Good => {}
            }
        }
    }

    /// Says to whoever has this place how far this node has come, and what it was told.
    pub fn say_word(&mut self, place: usize) {
        if self.mangle.is_deaf(place) {
            return;
        }
        let to = if self.config.is_coordinator(place) { COORDINATOR } else { place as u8 };
        let lacks_room = if self.config.index.is_some() { self.room.lacks() } else { self.is_scarce };
        let position = self.kept.log.position();
        let word = self.guard.word(to, position, lacks_room).code();
        if let (Some(out), Some(said)) = (self.outs.get_mut(place), self.said.get_mut(place)) {
            self.mangle.put(self.clock, &word, out);
            *said = position;
        }
    }

    /// Whether a word is said to whoever has this place: between the coordinator and hosts.
    fn is_between(&self, place: usize) -> bool {
        self.config.index.is_none() || self.config.is_coordinator(place)
    }

    /// A batch that has what became safe behind its first word ends with another: nobody is sent more than it is told.
    fn say_last_words(&mut self) {
        for place in 0..self.outs.len() {
            if !self.outs[place].is_empty() && self.is_between(place) && self.said[place] < self.kept.log.position() {
                self.say_word(place);
            }
        }
    }

    /// Says it to each host that has spoken, where nothing else is said to it just now.
    pub fn greet(&mut self) {
        for host in 0..COORDINATORS {
            if self.guard.standing(host as u8) != Standing::Unheard && self.outs[host].is_empty() {
                self.say_word(host);
            }
        }
    }

    /// Delivers a message, if it is for this node, and of one that is listened to. Gives back its front where the node
    /// has taken it.
    pub fn deliver<'a>(&mut self, message: &'a [u8]) -> Option<Envelope<'a>> {
        let envelope = Envelope::read(message)?;
        if !self.guard.hears(envelope.from) {
            return None;
        }
        let index = match envelope.to {
            Address::Coordinator => None,
            Address::Server(id) => Some(id.index),
            Address::Outside => return None,
        };
        if index != self.config.index {
            return None;
        }
        match (envelope.kind, envelope.from) {
            (kind::STORED, Address::Server(from)) => self.note_stored(from, message),
            (kind::DATA, Address::Server(from)) => self.waits.answered(from),
            (kind::APPEND, _) => self.appended_at = Some(self.awake.now()),
            _ => {}
        }
        match self.kept.deliver(message) {
            Ok(()) => Some(envelope),
            Err(Fault::UsedUp) => failed("the node's numbers are used up", Fault::UsedUp),
            Err(_) => None,
        }
    }

    /// What may leave now is put together for each peer; what is for clients is handed to `answer`.
    pub fn route(&mut self, mut answer: impl FnMut(Answer)) {
        let mut messages = std::mem::take(&mut self.leaving);
        if let Err(fault) = self.kept.leave(&mut messages) {
            tell(fault);
        }
        self.tick_clock();
        for message in without_superseded(framed(&messages)) {
            self.send(message, &mut answer);
        }
        self.leaving = messages;
    }

    fn send(&mut self, message: &[u8], answer: &mut impl FnMut(Answer)) {
        let Some(envelope) = Envelope::read(message) else { return };
        self.counts.messages += 1;
        if let Some(record) = &mut self.record {
            record.add(self.clock, message);
        }
        match envelope.to {
            Address::Outside => envelope.answer().into_iter().for_each(answer),
            Address::Coordinator => self.post_to_coordinators(message),
            Address::Server(id) => {
                if matches!(envelope.kind, kind::PLACE | kind::APPEND | kind::CLOSE | kind::FETCH) {
                    self.waits.asked(id, self.awake.now());
                }
                self.note_segment(id, &envelope);
                self.post(usize::from(id.index), message);
            }
        }
    }

    /// What a message that leaves tells of a segment of the server's log.
    fn note_segment(&mut self, to: Id, envelope: &Envelope<'_>) {
        let Some(segment) = u16_at(envelope.body, 0) else { return };
        match envelope.kind {
            kind::PLACE => self.segments.placed(to, segment),
            kind::FREE => self.segments.freed(segment),
            kind::APPEND => {
                if let Some(offset) = u64_at(envelope.body, 2) {
                    self.pace.asked(to, segment, offset, self.awake.now());
                }
            }
            _ => {}
        }
    }

    /// A backup has told what it has of a segment.
    fn note_stored(&mut self, from: Id, message: &[u8]) {
        self.waits.answered(from);
        let Some(stored) = Stored::read(message) else { return };
        let Some(segment) = u16_at(stored.subject, STORED_SEGMENT) else { return };
        self.segments.stored(from, segment);
        if let Some(took) = self.pace.stored(from, segment, stored.length, self.awake.now()) {
            tell(format_args!("backup {from} is slow: its answer took {} ms", took.as_millis()));
        }
    }

    /// Who has answered nothing for as long as one waits, with for how long; and who has been slow for long.
    pub fn waited_for(&mut self) -> Vec<(Id, Duration)> {
        let [silence, tick, slow] =
            [self.config.silence, self.config.tick, self.config.slow].map(Duration::from_millis);
        let now = self.awake.now();
        let mut waits = self.waits.longer_than(silence, (silence / 2).max(2 * tick), now);
        if !slow.is_zero() {
            let slow = self.pace.slow_for(slow, now).into_iter().map(|id| (id, slow));
            waits.extend(slow.filter(|(id, _)| !waits.iter().any(|(other, _)| other == id)).collect::<Vec<_>>());
        }
        waits
    }

    /// Queues a frame for whoever is the coordinator: one of them leads, and the others only listen.
    pub fn post_to_coordinators(&mut self, message: &[u8]) {
        match self.config.index {
            None => self.local.push_back(message.to_vec()),
            Some(_) => self.config.coordinator_places().for_each(|place| self.post(place, message)),
        }
    }

    /// Queues a frame for a peer, or for this node itself.
    pub fn post(&mut self, place: usize, message: &[u8]) {
        if place == self.config.place() {
            self.local.push_back(message.to_vec());
            return;
        }
        if self.mangle.is_deaf(place) || self.config.is_coordinator(place) && self.is_stuck() {
            return;
        }
        if self.is_between(place) && self.outs.get(place).is_some_and(Vec::is_empty) {
            self.say_word(place);
        }
        let Some(out) = self.outs.get_mut(place) else { return };
        self.mangle.put(self.clock, message, out);
    }

    /// Shows these texts from now on: the state, and the metrics.
    pub fn show(&self, status: String, metrics: String) {
        self.door.show(status, metrics);
    }

    /// What either kind of process has to tell.
    pub fn metrics(&mut self) -> Metrics {
        let mut metrics = Metrics::of(&self.config.label(self.config.place()));
        let (info, counts) = (self.kept.node.info(), self.counts);
        for (name, help, value) in [
            ("journal_bytes", "Bytes of the journal.", info.written as u64),
            ("journal_safe_bytes", "Bytes of the journal that are known to be safe.", info.safe as u64),
        ] {
            metrics.add(Kind::Gauge, &format!("sevunthi_{name}"), help, value);
        }
        for (name, help, value) in [
            ("journal_syncs_total", "Syncs of the journal.", self.kept.log.syncs()),
            ("saves_total", "Saves that have replaced a long journal.", counts.saves),
            ("works_total", "Works and messages that the node has taken.", self.kept.works),
            ("messages_sent_total", "Messages that have left.", counts.messages),
            ("frames_taken_total", "Frames that have come of peers.", counts.frames),
            ("answers_lost_total", "Answers for clients that had gone.", counts.lost_answers),
        ] {
            metrics.add(Kind::Counter, &format!("sevunthi_{name}"), help, value);
        }
        let help = "Seconds in syncs of the journal.";
        metrics.add(Kind::Counter, "sevunthi_journal_sync_seconds_total", help, self.kept.syncing as f64 / 1e9);
        let codes = self.codes.iter().map(|(code, count)| (format!("code=\"{}\"", name(*code)), *count));
        let help = "Answers to clients, by what became of the request: done, or why it was refused.";
        metrics.add_rows(Kind::Counter, "sevunthi_answers_total", help, codes);
        let place = self.config.place();
        let hosts = self.config.members.there().into_iter().map(usize::from);
        let others = hosts.chain(self.config.coordinator_places()).filter(|peer| *peer != place);
        let is_open = |peer: usize| self.peers[peer].as_ref().is_some_and(PeerWriter::is_open);
        let rows = others.map(|peer| (format!("peer=\"{}\"", self.config.label(peer)), u8::from(is_open(peer))));
        let help = "1 where there was a connection to this peer when something was last sent to it.";
        metrics.add_rows(Kind::Gauge, "sevunthi_peer_connected", help, rows);
        metrics
    }

    /// Whether a client has proved that it operates the cluster.
    pub fn may_operate(&self, client: u64) -> bool {
        self.clients.get(&client).is_some_and(|writer| writer.may_operate)
    }

    /// Answers a client.
    pub fn answer(&mut self, client: u64, reply: &Reply) {
        self.counts.answered += 1;
        *self.codes.entry(reply.code).or_default() += 1;
        reply.put(self.answers.entry(client).or_insert_with(|| Vec::with_capacity(ANSWERS)));
    }

    /// A client has come, or gone.
    pub fn set_client(&mut self, client: u64, writer: Option<Writer>) {
        match writer {
            Some(writer) => drop(self.clients.insert(client, writer)),
            None => drop(self.clients.remove(&client)),
        }
    }

    /// Whether a sync takes so long that nobody should wait for this node: the coordinator hears nothing from it then.
    fn is_stuck(&self) -> bool {
        self.kept.log.is_stuck(Duration::from_millis(self.config.silence) / 8)
    }

    /// What is recorded has to be noted before what came by then is written.
    fn note_clock(&mut self) {
        if let Some(record) = self.record.as_mut().filter(|_| self.kept.has_written()) {
            record.note(self.clock).unwrap_or_else(|error| failed("the clock can't be noted", error));
        }
    }

    /// Whether an Append of another has come lately.
    pub fn keeps_others(&self) -> bool {
        self.appended_at.is_some_and(|at| self.awake.now() < at + LATELY)
    }

    /// Where something waits until what the node has written down is safe, has it written and synced beside, while more
    /// is taken, but where so many syncs are under way. Says whether one is: what comes meanwhile has to wait, and a
    /// long journal is left alone.
    fn begin_sync(&mut self, most: usize, is_of_roll: bool) -> bool {
        if self.is_long() {
            return 0 < self.kept.log.under_way();
        }
        self.note_clock();
        let begun = self.kept.begin_sync(most, is_of_roll);
        begun.unwrap_or_else(|error| failed("the journal can't be written", error))
    }

    /// Begins a sync beside, where none is under way.
    pub fn begin_sync_beside(&mut self) {
        self.begin_sync(1, false);
    }

    /// Begins one for which a roll waits, behind the one that is under way. Says whether it did so.
    pub fn begin_sync_of_roll(&mut self) -> bool {
        let before = self.kept.log.under_way();
        self.begin_sync(2, true);
        before < self.kept.log.under_way()
    }

    /// Syncs that were begun may have ended.
    pub fn end_sync(&mut self) {
        self.kept.end_sync().unwrap_or_else(|error| failed("the journal can't be synced", error));
    }

    /// Writes what the node has written down; and where something waits for that, makes it safe: beside where much was
    /// taken since the last sync, or writes of its own are under way, else at once. Says whether it did so at once.
    pub fn make_safe(&mut self, has_own_writes: bool) -> bool {
        let is_much = self.config.beside <= self.kept.since_sync();
        if (0 < self.kept.log.under_way() || is_much || has_own_writes) && self.begin_sync(1, false) {
            return false;
        }
        self.make_safe_now()
    }

    /// The same, but always at once.
    pub fn make_safe_now(&mut self) -> bool {
        self.note_clock();
        let safe = self.kept.make_safe_now();
        safe.unwrap_or_else(|error| failed("the journal can't be written and synced", error))
    }

    /// What was queued leaves.
    pub fn flush(&mut self) {
        self.say_last_words();
        if let Some(record) = &mut self.record {
            let written = record.note(self.clock).and_then(|()| record.write());
            written.unwrap_or_else(|error| failed("the record can't be written", error));
        }
        let peers = self.peers.iter_mut().enumerate();
        for (out, (place, peer)) in self.outs.iter_mut().zip(peers).filter(|(out, _)| !out.is_empty()) {
            peer.get_or_insert_with(|| PeerWriter::new(self.config.dialer(place))).send(out);
        }
        for (client, bytes) in std::mem::take(&mut self.answers) {
            match self.clients.get(&client) {
                Some(writer) => writer.send(bytes),
                None => self.counts.lost_answers += framed(&bytes).count() as u64,
            }
        }
    }

    /// Whether the journal is to be made short. A save takes room of its own, and so does its file: where the disk
    /// lacks that, none is made, and nothing waits for it.
    pub fn is_long(&self) -> bool {
        !self.room.lacks() && self.config.long <= self.kept.log.grown()
    }

    /// Looks how much room the disk has.
    pub fn look_for_room(&mut self) {
        if let Some(found) = self.room.look() {
            tell(found);
        }
    }

    /// Makes a long journal short. One that is on its way there gets its next file before that.
    pub fn shorten(&mut self) {
        if self.room.lacks() || self.remote().is_some() {
            return;
        }
        let shortened = self.kept.shorten(self.config.long);
        self.counts.saves += u64::from(shortened.unwrap_or_else(|error| failed("a save can't be written", error)));
    }

    /// Has something go wrong, as a test asks for it.
    pub fn fail(&mut self, what: u32, how: u64) {
        match Wrong::read(what, how) {
            Some(Wrong::Sync) => self.kept.log.failing().sync = true,
            Some(Wrong::EndInSave(step)) => {
                self.kept.log.failing().end_in_save = Some(step);
                self.config.long = 0;
            }
            Some(Wrong::FullInSave) => {
                self.kept.log.failing().full_in_save = true;
                self.config.long = 0;
            }
            Some(Wrong::Deaf(mask)) => self.mangle.deaf = mask,
            Some(Wrong::Mangle(often)) => self.mangle.often = often,
            Some(Wrong::Jump(nanoseconds)) => self.base = self.base.saturating_add_signed(nanoseconds),
            Some(Wrong::DiskStands(milliseconds)) => {
                self.kept.log.failing().stands_until = Instant::now().checked_add(Duration::from_millis(milliseconds));
            }
            Some(Wrong::Nothing) => *self.kept.log.failing() = Failing::in_folder(&self.config.folder),
            None => {}
        }
    }
}

/// What came in a frame.
pub enum Frame<'a> {
    /// A message of the protocol.
    Message(&'a [u8]),
    /// A server lives, and waits for others for too long.
    Heartbeat(Id, Vec<Id>),
    /// The coordinator's list shows this server crashed.
    NotUp(Id),
}
