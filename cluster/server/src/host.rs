//! The process of a host.

use crate::core::{BEAT, Config, Core, Frame, failed, tell};
use crate::events::{Event, EventReceiver, LEAST_PART, TURN, part_of};
use crate::metrics::{Kind, brief};
use crate::protocol::{
    Condition, DONE, MISMATCH, MISMATCH_NO_VALUE, NO_ROOM, NO_VALUE, Op, Reply, Request, UNKNOWN, WRONG,
};
use crate::wire::{HEARTBEAT, is_place};
use sevunthi::message::framed;
use sevunthi::{Address, Answer, Fault, Id, Node, Work};
use sevunthi_client::scan::{Entry, Page, read_wanted};
use sevunthi_runtime::owner::{self, Ground, KEYS, Outcome, Owner, What};
use std::borrow::Cow;
use std::io;
use std::time::{Duration, Instant};

/// Where segments run out, a host begins anew: it has a new log then.
const LAST_HEAD: u16 = 60_000;

/// Within a batch the clock is looked at where the number of works is a multiple of this.
const FEW: u64 = 16;

/// After so much was taken, what that has to say leaves, though more has come of peers.
const MANY: u64 = 128;

/// After so much was taken since the last sync, the next one begins, though more has come.
const MUCH: u64 = 96;

/// Between so many requests, and so many frames of a batch, what a roll waits for is seen to: an owner takes no writes
/// while it rolls its head, and each backup is asked twice meanwhile.
const REQUESTS: usize = 8;
const FRAMES: usize = 32;

/// A request of a client: its connection's number, and the request's.
type Ticket = (u64, u64);

/// A host.
struct Host {
    core: Core,
    owner: Owner<Ticket>,
    is_replaced: bool,
    /// Something that has to be safe for a roll came since a sync was last begun for that.
    roll_waits: bool,
    /// When the coordinator was told last that the server lives, and what the node shows was made.
    beat: Instant,
    shown: Instant,
}

impl Ground for Core {
    type Ticket = Ticket;

    fn node(&mut self) -> &mut Node {
        &mut self.kept.node
    }

    fn give(&mut self, message: &[u8]) -> Result<(), Fault> {
        let taken = self.kept.deliver(message);
        if taken == Err(Fault::UsedUp) {
            failed("the node's numbers are used up", Fault::UsedUp);
        }
        taken
    }

    fn route(&mut self, answer: &mut dyn FnMut(Answer)) {
        Core::route(self, answer);
    }

    fn done(&mut self, (client, number): Ticket, outcome: Outcome) {
        self.answer(client, &reply_of(outcome, number));
    }
}

/// The answer to a request of this number.
fn reply_of(outcome: Outcome, number: u64) -> Reply {
    let bare = |code| Reply::bare(code, number);
    let found = |codes: [u8; 2], version, value: Option<Vec<u8>>| {
        let code = codes[usize::from(value.is_none())];
        Reply { code, number, version, value: value.unwrap_or_default() }
    };
    match outcome {
        Outcome::Written(version) => Reply { version, ..bare(DONE) },
        Outcome::Found(version, value) => found([DONE, NO_VALUE], version, value),
        Outcome::Mismatch(version, value) => found([MISMATCH, MISMATCH_NO_VALUE], version, value),
        Outcome::Page(page) => {
            let entry = |entry: owner::Entry| Entry { key: entry.key, version: entry.version, value: entry.value };
            let entries = page.entries.into_iter().map(entry).collect();
            let (version, value) = Page { entries, next: page.next }.code();
            Reply { code: DONE, number, version, value }
        }
        Outcome::Refused(code) => bare(code),
        Outcome::Unknown => bare(UNKNOWN),
    }
}

/// What is asked of the owner of the request's key, if something is.
fn what_of<'a>(request: &'a Request<'_>) -> Option<What<'a>> {
    let value = || Some(Cow::Borrowed(&*request.value));
    Some(match request.op {
        Op::Put => What::Write(value()),
        Op::Delete => What::Write(None),
        Op::Get => What::Read,
        Op::GetFast => What::ReadFast,
        Op::PutIf | Op::PutIfAbsent | Op::DeleteIf => {
            let (condition, value) = request.condition()?;
            let condition = match condition {
                Condition::Version(version) => owner::Condition::Version(version),
                Condition::Absent => owner::Condition::Absent,
            };
            What::WriteIf(condition, value.map(Cow::Borrowed))
        }
        Op::Scan => {
            let (last, most) = read_wanted(&request.value)?;
            What::Scan { last, most: most as usize }
        }
        Op::Create | Op::Split | Op::Owner | Op::Status | Op::Fail => return None,
    })
}

/// Runs a host for ever.
pub fn run(config: Config) -> io::Result<()> {
    let (core, events) = Core::open(config)?;
    let mut host = Host {
        core,
        owner: Owner::default(),
        is_replaced: false,
        roll_waits: false,
        beat: Instant::now(),
        shown: Instant::now(),
    };
    host.begin();
    host.show();
    host.serve(&events);
    Ok(())
}

impl Host {
    /// Starts the server anew. What was asked of the old one is unknown.
    fn begin(&mut self) {
        if let Err(fault) = self.core.kept.node.start() {
            tell(format_args!("the server did not start: {fault}"));
        }
        self.is_replaced = false;
        self.core.waits.clear();
        self.core.pace.clear();
        self.core.segments.clear();
        let server = self.core.kept.node.info().server;
        self.owner.begin(&mut self.core, server);
        // what the server says waits until its start is safe
        self.route();
        self.core.make_safe_now();
        self.settle();
        tell(format_args!("server {server} begins"));
    }

    fn serve(&mut self, events: &EventReceiver) {
        let mut tick = Instant::now();
        loop {
            let wait = if self.core.local.is_empty() && !self.owner.is_turn() { TURN } else { Duration::ZERO };
            let mut passed_on = self.core.kept.works;
            events.take_turn(wait, |event| {
                let many = most_before(&event);
                self.take(event, events);
                let is_due = passed_on + many <= self.core.kept.works || self.owner.waiting_count() != 0;
                // what is urgent is soon taken, and what that sends leaves in the same batches
                if is_due && !events.has_urgent() {
                    passed_on = self.core.kept.works;
                    self.retry(events);
                    self.pass_on();
                }
                // no sync begins beside until a long journal is short
                !self.core.is_long()
            });
            self.core.awake.turn();
            events.say_keeps_others(self.core.keeps_others());
            if BEAT <= self.beat.elapsed() {
                self.beat = Instant::now();
                send_heartbeat(self.owner.server(), &mut self.core);
            }
            // what takes long tells the coordinator in its middle, and shows nothing
            if BEAT <= self.shown.elapsed() {
                self.shown = Instant::now();
                self.core.look_for_room();
                self.show();
            }
            if Duration::from_millis(self.core.config.tick) <= tick.elapsed() {
                tick = Instant::now();
                let _ = self.core.kept.step(Work::Tick);
            }
            self.retry(events);
            self.owner.confirm(&mut self.core);
            self.settle();
            let info = self.core.kept.node.info();
            if self.is_replaced || info.is_deposed || LAST_HEAD < info.head || !info.runs {
                tell(format_args!(
                    "server {} was replaced, or its log is long, or it has not started: it begins anew",
                    self.owner.server()
                ));
                self.begin();
            }
            self.core.shorten();
        }
    }

    /// What was taken leaves, as far as it may. Where a roll waits, or there is much, all else is made safe beside,
    /// while more is taken.
    fn pass_on(&mut self) {
        self.route();
        if self.roll_waits {
            self.roll_waits = !self.core.begin_sync_of_roll() && self.core.kept.is_waiting();
        } else if MUCH <= self.core.kept.since_sync() {
            self.core.begin_sync_beside();
        }
        self.core.flush();
    }

    /// In the middle of what takes long: takes what a roll waits for, here or at another, and what that sends leaves.
    /// Between the events of peers their next ones are taken too, where one of them closes a segment.
    fn see_to_rolls(&mut self, events: &EventReceiver, is_between: bool) {
        let mut is_due = false;
        while let Some(event) = events.next_of_roll() {
            is_due = true;
            let hurries = is_between && matches!(event, Event::Hurry);
            self.take(event, events);
            while hurries && let Some(event) = events.next_of_peers() {
                self.take(event, events);
            }
        }
        if is_due {
            self.pass_on();
        }
    }

    fn take(&mut self, event: Event, events: &EventReceiver) {
        match event {
            Event::Peer(_, batch) | Event::Urgent(_, batch) => self.take_batch(&batch, events),
            Event::Closing(_, batch) => {
                self.take_batch(&batch, events);
                self.roll_waits = true;
            }
            Event::Roll(_, batch) => {
                self.take_frames(&batch);
                self.roll_waits |= framed(&batch).any(is_place);
            }
            Event::Hurry => {}
            Event::Client(client, bytes) => {
                for (number, request) in framed(&bytes).enumerate() {
                    if number % REQUESTS == 0 {
                        self.see_to_rolls(events, true);
                    }
                    match Request::read(request) {
                        Some(request) => self.ask(client, request),
                        None => self.core.answer(client, &Reply::wrong(request)),
                    }
                }
            }
            Event::ClientUp(client, writer) => self.core.set_client(client, Some(writer)),
            Event::ClientDown(client) => {
                self.core.set_client(client, None);
                self.owner.forget(|(gone, _)| *gone == client);
            }
            Event::PeerDown(_) => {}
            Event::Synced | Event::RollSynced => self.core.end_sync(),
        }
    }

    /// The frames of a peer's batch, in pieces.
    fn take_batch(&mut self, batch: &[u8], events: &EventReceiver) {
        let mut rest = batch;
        while !rest.is_empty() {
            let length = framed(rest).take(FRAMES).map(|frame| 4 + frame.len()).sum();
            let (piece, others) = rest.split_at(length);
            self.take_frames(piece);
            if piece.is_empty() || others.is_empty() {
                return;
            }
            self.see_to_rolls(events, false);
            rest = others;
        }
    }

    fn take_frames(&mut self, frames: &[u8]) {
        let (server, beat, owner) = (self.owner.server(), &mut self.beat, &mut self.owner);
        let mut is_replaced = false;
        self.core.each_frame(frames, |core, frame| match frame {
            Frame::Message(message) => {
                if let Some(envelope) = core.deliver(message) {
                    owner.take(&envelope);
                }
                // a batch may take long
                if core.kept.works.is_multiple_of(FEW) {
                    beat_if_due(beat, server, core);
                }
            }
            Frame::NotUp(id) => {
                let counts = core.guard.hears(Address::Coordinator) || core.guard.is_new();
                is_replaced |= id == server && counts;
            }
            Frame::Heartbeat(..) => {}
        });
        self.is_replaced |= is_replaced;
    }

    /// A client's request.
    fn ask(&mut self, client: u64, request: Request<'_>) {
        let (table, key, number) = (request.table, request.key, request.number);
        let code = match request.op {
            op if op.is_write() && self.core.room.is_refusing() => NO_ROOM,
            Op::Fail if self.core.config.faults => {
                self.core.fail(table, key);
                DONE
            }
            _ => match what_of(&request).filter(|_| key < KEYS) {
                Some(what) => return self.owner.ask(&mut self.core, (client, number), table, key, what),
                None => WRONG,
            },
        };
        self.core.answer(client, &Reply::bare(code, number));
    }

    /// What had to wait for a roll, or for its turn, is asked again.
    fn retry(&mut self, events: &EventReceiver) {
        let part = part_of(self.owner.waiting_count(), self.core.keeps_others());
        for number in 1.. {
            if self.owner.retry(&mut self.core) != Some(false) {
                return;
            }
            if number % part == 0 {
                self.route();
                self.core.flush();
            }
            if number % REQUESTS == 0 {
                self.see_to_rolls(events, true);
            }
        }
    }

    /// What is there is written and made safe, or that begins, and what may leave is sent. For a turn the server takes
    /// what it has to say to itself; the others have to be answered too.
    fn settle(&mut self) {
        let began = Instant::now();
        for _ in 0..64 {
            self.route();
            // a host with writes of its own under way has more to do than to wait
            let was_synced = self.core.make_safe(self.owner.pending_count() != 0);
            if was_synced {
                self.route();
            }
            if self.core.local.is_empty() || TURN <= began.elapsed() {
                break;
            }
            while began.elapsed() < TURN
                && let Some(message) = self.core.local.pop_front()
            {
                self.take_local(&message);
                beat_if_due(&mut self.beat, self.owner.server(), &mut self.core);
            }
        }
        self.core.flush();
    }

    fn take_local(&mut self, message: &[u8]) {
        if let Some(envelope) = self.core.deliver(message) {
            self.owner.take(&envelope);
        }
    }

    fn route(&mut self) {
        self.owner.route(&mut self.core);
    }

    /// What it has to tell who watches it.
    fn metrics(&mut self) -> String {
        let (info, (rolls, in_rolls)) = (self.core.kept.node.info(), self.owner.rolls());
        let mut metrics = self.core.metrics();
        for (name, help, value) in [
            ("server_generation", "How often the host has started a server.", u64::from(info.server.generation)),
            ("server_runs", "1 where the host's server runs.", u64::from(info.runs)),
            ("head_segment", "The newest segment of the server's log.", u64::from(info.head)),
            ("head_entries", "Entries of that segment.", info.entries),
            ("writes_pending", "Writes that are not durable yet.", self.owner.pending_count() as u64),
            ("requests_waiting", "Requests that wait for a roll.", self.owner.waiting_count() as u64),
            ("writes_in_turn", "Writes that wait for another one of their key.", self.owner.in_turn_count() as u64),
            ("disk_lacks_room", "1 where the disk has less room than the reserve.", u64::from(self.core.room.lacks())),
            ("reads_waiting", "Reads that wait to be confirmed.", self.owner.reads_count() as u64),
        ] {
            metrics.add(Kind::Gauge, &format!("sevunthi_{name}"), help, value);
        }
        metrics.add(Kind::Counter, "sevunthi_rolls_total", "Rolls that writes have waited for.", rolls);
        let help = "Seconds for which writes have waited for rolls.";
        metrics.add(Kind::Counter, "sevunthi_roll_wait_seconds_total", help, in_rolls.as_secs_f64());
        let (freed, missing) = (self.core.segments.freed_count() as u64, self.core.segments.missing());
        let live = u64::from(info.head).saturating_sub(freed);
        metrics.add(Kind::Gauge, "sevunthi_segments_live", "Segments of the server's log that are not freed.", live);
        metrics.add(Kind::Gauge, "sevunthi_segments_freed", "Segments of the server's log that are freed.", freed);
        let help = "Replicas of the server's segments that were asked for, and are not there yet.";
        metrics.add(Kind::Gauge, "sevunthi_replicas_missing", help, missing);
        let backups: Vec<_> = self.core.pace.lately(self.core.awake.now()).collect();
        let label = |id: &Id| format!("peer=\"{}\"", id.index);
        let took = backups.iter().map(|(id, took, _)| (label(id), took.as_secs_f64()));
        let help = "How long a backup took last to answer.";
        metrics.add_rows(Kind::Gauge, "sevunthi_backup_answer_seconds", help, took);
        let slow = backups.iter().map(|(id, _, slow)| (label(id), slow.as_secs_f64()));
        let help = "For how long a backup has been slow: each answer took 0.2 seconds or more.";
        metrics.add_rows(Kind::Gauge, "sevunthi_backup_slow_seconds", help, slow);
        let waits = self.core.waited_for();
        let rows = waits.into_iter().map(|(id, wait)| (format!("peer=\"{}\"", id.index), wait.as_secs_f64()));
        let help = "For how long a server has answered nothing that it has to answer, where that is long.";
        metrics.add_rows(Kind::Gauge, "sevunthi_waits_seconds", help, rows);
        metrics.text()
    }

    fn show(&mut self) {
        let metrics = self.metrics();
        self.core.show(brief(&metrics), metrics);
    }
}

/// How much may have been taken, with this event, before what that has to say leaves.
fn most_before(event: &Event) -> u64 {
    match event {
        Event::Synced | Event::RollSynced | Event::Urgent(..) | Event::Roll(..) | Event::Closing(..) => 0,
        Event::Client(..) => LEAST_PART as u64,
        _ => MANY,
    }
}

/// Tells the coordinator that the server lives, if it has not been told lately, in the middle of what takes long.
fn beat_if_due(beat: &mut Instant, server: Id, core: &mut Core) {
    if BEAT <= beat.elapsed() {
        *beat = Instant::now();
        send_heartbeat(server, core);
        core.flush();
    }
}

/// Tells the coordinator that the server lives, and whom it has waited for in vain.
fn send_heartbeat(server: Id, core: &mut Core) {
    let mut beat = vec![HEARTBEAT];
    beat.extend_from_slice(&server.code());
    for (id, _) in core.waited_for() {
        beat.extend_from_slice(&id.code());
    }
    core.post_to_coordinators(&beat);
}
