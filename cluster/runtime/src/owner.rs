//! What an owner of ranges is asked for, and which answer belongs to which request.
//!
//! A node's answers do not name requests. So an [`Owner`] notes which *place* of the log each write was put at, and finds
//! the request of an answer by that; what is answered at once is taken from the node before it is given anything else.

use crate::keys::Keys;
use crate::turns::{Key, Turns};
use sevunthi::message::{self, kind, u32_at, u64_at};
use sevunthi::{Address, Answer, Envelope, Fault, Id, Node};
use std::borrow::Cow;
use std::collections::VecDeque;
use std::time::{Duration, Instant};

/// A place of the log: a segment, and an offset in it.
pub type Place = (u16, u64);

/// F2: no range that was granted holds the key.
pub const NOT_OWNER: u8 = 2;
/// F3: the head is being rolled, so that a write has to wait. An owner asks it again by itself.
pub const ROLLING: u8 = 3;
/// F5: the server was replaced, or can't confirm.
pub const DEPOSED: u8 = 5;

/// Keys are below this: a node's key is twice as great, and those between are the owner's own.
pub const KEYS: u64 = 1 << 63;

/// A page looks at so many keys at most, and has values of so many bytes, or one more.
const LOOKED_AT: usize = 512;
const PAGE: usize = 1 << 15;

/// What has to hold of a key for a conditional write to be done.
#[derive(Clone, Copy, Debug, PartialEq, Eq)]
pub enum Condition {
    /// The version of its newest write is this one; 0 where there was none.
    Version(u64),
    /// There is no value.
    Absent,
}

impl Condition {
    /// Whether it holds where this is found.
    pub fn holds(self, version: u64, value: Option<&[u8]>) -> bool {
        match self {
            Condition::Version(expected) => version == expected,
            Condition::Absent => value.is_none(),
        }
    }
}

/// What an owner is asked for.
#[derive(Clone, Debug, PartialEq, Eq)]
pub enum What<'a> {
    /// Write this value, of 1,024 bytes at most; none deletes.
    Write(Option<Cow<'a, [u8]>>),
    /// The same, if this holds.
    WriteIf(Condition, Option<Cow<'a, [u8]>>),
    /// Read the value. The answer is *confirmed*: it waits until a write that was taken afterwards is on all backups, and
    /// so misses nothing that was acknowledged before it was asked for, by whomever.
    Read,
    /// Read it at once: what later owners have written may be missed.
    ReadFast,
    /// Read the values of the keys from this one up to `last`, at most so many, confirmed. All are read at one moment.
    Scan {
        /// The last key.
        last: u64,
        /// How many values at most, 1 or more.
        most: usize,
    },
}

impl What<'_> {
    fn into_owned(self) -> What<'static> {
        let own = |value: Option<Cow<'_, [u8]>>| value.map(|value| Cow::Owned(value.into_owned()));
        match self {
            What::Write(value) => What::Write(own(value)),
            What::WriteIf(condition, value) => What::WriteIf(condition, own(value)),
            What::Read => What::Read,
            What::ReadFast => What::ReadFast,
            What::Scan { last, most } => What::Scan { last, most },
        }
    }
}

/// One value that stands at a key, with its version.
#[derive(Clone, Debug, PartialEq, Eq)]
pub struct Entry {
    /// The key.
    pub key: u64,
    /// The version of its newest write.
    pub version: u64,
    /// The value.
    pub value: Vec<u8>,
}

/// What was found of a range of keys: all values from the first key asked for up to, and without, `next`.
#[derive(Clone, Debug, Default, PartialEq, Eq)]
pub struct Page {
    /// The values, in order of keys.
    pub entries: Vec<Entry>,
    /// Where to go on; none where all that was asked for was looked at. The key may be another owner's.
    pub next: Option<u64>,
}

/// What has become of a request.
#[derive(Clone, Debug, PartialEq, Eq)]
pub enum Outcome {
    /// The write is durable, and has this version.
    Written(u64),
    /// This was read: the version of the newest write, 0 where there was none, and the value, if there is one.
    Found(u64, Option<Vec<u8>>),
    /// These were.
    Page(Page),
    /// It was not done, since the condition does not hold: this is there, confirmed as by a read.
    Mismatch(u64, Option<Vec<u8>>),
    /// It was not done, by the number behind the F.
    Refused(u8),
    /// It may have been done, or may still be done: the server was replaced before it knew.
    Unknown,
}

/// A range that was granted: of this table, from the first key to the last.
#[derive(Clone, Copy, Debug, PartialEq, Eq)]
pub struct Range {
    /// The table.
    pub table: u32,
    /// The first key.
    pub first: u64,
    /// The last key.
    pub last: u64,
}

/// What an owner stands on: the node of this process, and what leaves it.
pub trait Ground {
    /// By this whoever asked knows a request again.
    type Ticket: Copy;

    /// The node.
    fn node(&mut self) -> &mut Node;

    /// Has the node take a client's message.
    ///
    /// # Errors
    ///
    /// Why it was not taken.
    fn give(&mut self, message: &[u8]) -> Result<(), Fault>;

    /// Sends what may leave, and hands over what is for clients, in order.
    fn route(&mut self, answer: &mut dyn FnMut(Answer));

    /// This has become of a request.
    fn done(&mut self, ticket: Self::Ticket, outcome: Outcome);
}

/// A request, with the node's own key. One without a ticket is the owner's own.
struct Asked<'a, T> {
    ticket: Option<T>,
    point: Key,
    what: What<'a>,
}

impl<T> Asked<'_, T> {
    fn into_owned(self) -> Asked<'static, T> {
        Asked { ticket: self.ticket, point: self.point, what: self.what.into_owned() }
    }
}

/// A write that was taken, with the version that it has to have: that of a conditional write is the next one.
struct Pending<T> {
    ticket: Option<T>,
    point: Key,
    version: Option<u64>,
}

/// What was read, until it is confirmed by a write that the node has taken at this place or behind it.
struct Read<T> {
    place: Place,
    ticket: T,
    point: Key,
    outcome: Outcome,
}

/// The requests that the server of a host was given.
///
/// - *Deliver each of a client's Writes at most once*: [`ask`](Owner::ask) gives the node a write once. Where the head is
///   being rolled the node has refused it, and it is given again; else never.
/// - *No answer names its request*: the head has one entry more where a write was taken, and that is its place.
/// - *A Read is answered in the step that takes it*: so what the node has to say is taken before it is given anything
///   else. [`confirm`](Owner::confirm) has a write made where none follows.
/// - A conditional write waits until no write of its key is under way, is compared with what is durable, and succeeds
///   only where it has the next version.
pub struct Owner<T> {
    server: Id,
    /// Writes that were taken, in order of their places; none are those that were answered before an earlier one.
    pending: VecDeque<(Place, Option<Pending<T>>)>,
    /// Requests that came while the head was being rolled, or that have waited for their turn.
    waiting: VecDeque<Asked<'static, T>>,
    /// Whose turn it is to write a key, and who waits for that.
    turns: Turns<Asked<'static, T>>,
    /// Somebody's turn has come.
    is_turn: bool,
    reads: VecDeque<Read<T>>,
    /// The end of what confirms: a write was taken at the place before.
    next: Place,
    /// Ranges that were granted: table, first and last key of the node's.
    grants: Vec<(u32, u64, u64)>,
    keys: Keys,
    /// Since when writes wait for a roll; how many rolls they have waited for, and for how long.
    rolling: Option<Instant>,
    rolls: u64,
    in_rolls: Duration,
    code: Vec<u8>,
}

impl<T> Default for Owner<T> {
    /// Nothing was asked for, of no server.
    fn default() -> Owner<T> {
        Owner {
            server: Id { index: 0, generation: 0 },
            pending: VecDeque::new(),
            waiting: VecDeque::new(),
            turns: Turns::default(),
            is_turn: false,
            reads: VecDeque::new(),
            next: (0, 0),
            grants: Vec::new(),
            keys: Keys::default(),
            rolling: None,
            rolls: 0,
            in_rolls: Duration::ZERO,
            code: Vec::new(),
        }
    }
}

/// How an owner is.
impl<T> Owner<T> {
    /// The server.
    pub fn server(&self) -> Id {
        self.server
    }

    /// Whether somebody's turn has come: [`retry`](Owner::retry) is due.
    pub fn is_turn(&self) -> bool {
        self.is_turn
    }

    /// How many writes are not durable yet.
    pub fn pending_count(&self) -> usize {
        self.pending.len()
    }

    /// How many requests wait for a roll, or were asked for since.
    pub fn waiting_count(&self) -> usize {
        self.waiting.len()
    }

    /// How many writes wait for another one of their key.
    pub fn in_turn_count(&self) -> usize {
        self.turns.count_waiting()
    }

    /// How many reads wait to be confirmed.
    pub fn reads_count(&self) -> usize {
        self.reads.len()
    }

    /// How many keys are known that may have values.
    pub fn keys_count(&self) -> usize {
        self.keys.count()
    }

    /// How many rolls writes have waited for, and for how long in all.
    pub fn rolls(&self) -> (u64, Duration) {
        (self.rolls, self.in_rolls)
    }

    /// The ranges that were granted, as far as it is known.
    pub fn ranges(&self) -> impl Iterator<Item = Range> {
        self.grants.iter().map(|(table, lo, hi)| Range { table: *table, first: lo / 2, last: hi / 2 })
    }

    /// Those who ask nothing more wait for no turn.
    pub fn forget(&mut self, is_gone: impl Fn(&T) -> bool) {
        self.turns.forget(|asked| asked.ticket.as_ref().is_some_and(&is_gone));
    }

    /// Notes what a message tells that the node has taken: a range that is granted, perhaps again, and keys that a
    /// recovery has brought. Gives the range where it is new.
    pub fn take(&mut self, envelope: &Envelope<'_>) -> Option<Range> {
        if envelope.to != Address::Server(self.server) {
            return None;
        }
        if envelope.kind == kind::DATA {
            self.keys.add_data(envelope.body);
        }
        if envelope.kind != kind::OWN {
            return None;
        }
        let grant = (u32_at(envelope.body, 0)?, u64_at(envelope.body, 4)?, u64_at(envelope.body, 12)?);
        let before = self.grants.len();
        self.grants.retain(|other| *other != grant);
        let is_new = before == self.grants.len();
        self.grants.push(grant);
        is_new.then_some(Range { table: grant.0, first: grant.1 / 2, last: grant.2 / 2 })
    }

    /// The range of the node's keys that holds this one.
    fn grant_of(&self, (table, key): Key) -> Option<(u32, u64, u64)> {
        self.grants.iter().rev().find(|(other, lo, hi)| *other == table && *lo <= key && key <= *hi).copied()
    }

    /// The request of the write at this place.
    fn take_pending(&mut self, place: Place) -> Option<Pending<T>> {
        let at = self.pending.binary_search_by_key(&place, |pending| pending.0).ok()?;
        let asked = self.pending[at].1.take();
        while self.pending.front().is_some_and(|pending| pending.1.is_none()) {
            self.pending.pop_front();
        }
        asked
    }

    /// Whether a client's write of this key is under way.
    fn is_under_way(&mut self, point: Key) -> bool {
        let is_it = |pending: &Pending<T>| pending.ticket.is_some() && pending.point == point;
        self.turns.may_be_under_way(point)
            && self.pending.iter().any(|(_, pending)| pending.as_ref().is_some_and(is_it))
    }

    /// A write of this key is durable. Where it was the last one under way, those that waited for that are asked next.
    fn end_turn(&mut self, point: Key) {
        self.turns.leave(point);
        if self.turns.has_waiting(point) && !self.is_under_way(point) {
            self.is_turn = true;
            self.turns.release(point).into_iter().rev().for_each(|asked| self.waiting.push_front(asked));
        }
    }
}

/// What an owner is asked for. What becomes of it is told by [`Ground::done`], also before these return.
impl<T: Copy> Owner<T> {
    /// This server begins, and has no range. What was asked of the one before it is unknown, but for what was not given
    /// to the node.
    pub fn begin<G: Ground<Ticket = T>>(&mut self, ground: &mut G, server: Id) {
        self.server = server;
        self.grants.clear();
        self.keys.clear();
        self.next = (0, 0);
        self.rolling = None;
        let deposed = self.turns.clear().into_iter().filter_map(|asked| asked.ticket);
        deposed.for_each(|ticket| ground.done(ticket, Outcome::Refused(DEPOSED)));
        let taken = std::mem::take(&mut self.pending).into_iter().filter_map(|(_, pending)| pending?.ticket);
        let waited = std::mem::take(&mut self.waiting).into_iter().filter_map(|asked| asked.ticket);
        taken.chain(waited).for_each(|ticket| ground.done(ticket, Outcome::Unknown));
        self.refuse_reads(ground);
    }

    /// Asks for this at a key below [`KEYS`]: at once, or behind those that wait.
    pub fn ask<G: Ground<Ticket = T>>(&mut self, ground: &mut G, ticket: T, table: u32, key: u64, what: What<'_>) {
        let asked = Asked { ticket: Some(ticket), point: (table, 2 * key), what };
        if self.waiting.is_empty() {
            self.give(ground, asked);
        } else {
            self.waiting.push_back(asked.into_owned());
        }
    }

    /// What had to wait for a roll, or for its turn, is asked for again: one request. Says whether it waits on; none is
    /// where none waits.
    pub fn retry<G: Ground<Ticket = T>>(&mut self, ground: &mut G) -> Option<bool> {
        self.is_turn = false;
        let asked = self.waiting.pop_front()?;
        Some(!self.give(ground, asked))
    }

    /// Sends what may leave, and takes what is for clients.
    pub fn route<G: Ground<Ticket = T>>(&mut self, ground: &mut G) {
        let mut answers = Vec::new();
        ground.route(&mut |answer| answers.push(answer));
        answers.into_iter().for_each(|answer| self.acknowledge(ground, answer));
    }

    /// Where no write was taken since the last read, one is made, to the last key of its range, which is the owner's
    /// own. To be called when all that has come was taken.
    pub fn confirm<G: Ground<Ticket = T>>(&mut self, ground: &mut G) {
        let Some(&Read { place, point, .. }) = self.reads.back() else { return };
        if place < self.next || !self.waiting.is_empty() {
            return;
        }
        let Some((table, _, last)) = self.grant_of(point) else {
            return self.refuse_reads(ground);
        };
        self.give(ground, Asked { ticket: None, point: (table, last), what: What::Write(Some(Cow::default())) });
    }

    /// Gives the node a request, if it has not to wait for its turn. Says whether it is done with.
    fn give<G: Ground<Ticket = T>>(&mut self, ground: &mut G, asked: Asked<'_, T>) -> bool {
        let is_write = matches!(asked.what, What::Write(_) | What::WriteIf(..));
        let is_behind = asked.ticket.is_some() && is_write && self.turns.has_waiting(asked.point);
        if is_behind || matches!(asked.what, What::WriteIf(..)) && self.is_under_way(asked.point) {
            self.turns.wait(asked.point, asked.into_owned());
            return true;
        }
        match asked.what {
            What::Write(_) => self.give_write(ground, asked, None),
            What::WriteIf(condition, _) => self.give_if(ground, asked, condition),
            What::Read | What::ReadFast => self.give_read(ground, asked),
            What::Scan { last, most } => self.give_scan(ground, &asked, last, most),
        }
    }

    /// A conditional write. A read of the node's own says what is there: no write of the key is under way, and none comes
    /// between the read and the write, so that this has the next version. Where the condition does not hold, that is
    /// answered as a read is: it shows a version and a value, and is confirmed as they are.
    fn give_if<G: Ground<Ticket = T>>(&mut self, ground: &mut G, asked: Asked<'_, T>, condition: Condition) -> bool {
        let place = next_place(ground);
        match self.read(ground, asked.point) {
            Some(Answer::Read { version, value, .. }) if condition.holds(version, value.as_deref()) => {
                self.give_write(ground, asked, version.checked_add(1))
            }
            Some(Answer::Read { version, value, .. }) => {
                self.hold(place, &asked, Outcome::Mismatch(version, value));
                true
            }
            said => self.conclude(ground, asked, said),
        }
    }

    /// A write. `version` is the one that a conditional write has to have.
    fn give_write<G: Ground<Ticket = T>>(&mut self, ground: &mut G, asked: Asked<'_, T>, version: Option<u64>) -> bool {
        let place = next_place(ground);
        let ((table, key), server) = (asked.point, self.server);
        let value = match &asked.what {
            What::Write(value) | What::WriteIf(_, value) => value.as_deref(),
            What::Read | What::ReadFast | What::Scan { .. } => None,
        };
        let is_taken = self.ask_node(ground, |code| message::write(server, table, key, value, code));
        // where the head has one entry more, that is the write, and what it sends leaves with all else
        if is_taken && next_place(ground) == (place.0, place.1 + 1) {
            return self.await_durable(place, &asked, version);
        }
        let said = self.said_at_once(ground);
        if is_taken && said.is_none() && place != next_place(ground) {
            return self.await_durable(place, &asked, version);
        }
        self.conclude(ground, asked, said)
    }

    /// A write was taken at this place.
    fn await_durable(&mut self, place: Place, asked: &Asked<'_, T>, version: Option<u64>) -> bool {
        if let Some(since) = self.rolling.take() {
            self.rolls += 1;
            self.in_rolls += since.elapsed();
        }
        self.next = (place.0, place.1 + 1);
        let Asked { ticket, point, .. } = *asked;
        if ticket.is_some() {
            self.turns.enter(point);
        }
        self.pending.push_back((place, Some(Pending { ticket, point, version })));
        true
    }

    fn give_read<G: Ground<Ticket = T>>(&mut self, ground: &mut G, asked: Asked<'_, T>) -> bool {
        let place = next_place(ground);
        match self.read(ground, asked.point) {
            Some(Answer::Read { version, value, .. }) => {
                let found = Outcome::Found(version, value);
                match asked.ticket {
                    Some(ticket) if asked.what == What::ReadFast => ground.done(ticket, found),
                    _ => self.hold(place, &asked, found),
                }
                true
            }
            said => self.conclude(ground, asked, said),
        }
    }

    fn give_scan<G: Ground<Ticket = T>>(
        &mut self,
        ground: &mut G,
        asked: &Asked<'_, T>,
        last: u64,
        most: usize,
    ) -> bool {
        let place = next_place(ground);
        match self.page(ground, asked.point, last, most) {
            Ok(page) => self.hold(place, asked, Outcome::Page(page)),
            Err(outcome) => asked.ticket.into_iter().for_each(|ticket| ground.done(ticket, outcome.clone())),
        }
        true
    }

    /// What is durable of a range of keys at this moment, not confirmed: all that was acknowledged to whoever asked this
    /// owner, or an owner before it that this one has recovered from.
    ///
    /// # Errors
    ///
    /// That this server does not own the first key ([`Outcome::Refused`]), or does not answer.
    pub fn entries<G: Ground<Ticket = T>>(
        &mut self,
        ground: &mut G,
        table: u32,
        keys: std::ops::RangeInclusive<u64>,
        most: usize,
    ) -> Result<Page, Outcome> {
        self.page(ground, (table, 2 * keys.start()), *keys.end(), most)
    }

    fn page<G: Ground<Ticket = T>>(
        &mut self,
        ground: &mut G,
        (table, first): Key,
        last: u64,
        most: usize,
    ) -> Result<Page, Outcome> {
        // this takes note of all that is durable, and says whether the key is this server's
        match self.read(ground, (table, first)) {
            Some(Answer::Read { .. }) => {}
            Some(Answer::Refused(code)) => return Err(Outcome::Refused(code)),
            Some(Answer::Written { .. }) | None => return Err(Outcome::Unknown),
        }
        let (_, _, end) = self.grant_of((table, first)).ok_or(Outcome::Refused(NOT_OWNER))?;
        let wanted = last.min(KEYS - 1);
        let end = end.min(2 * wanted + 1);
        let keys: Vec<u64> = self.keys.within(table, first, end).take(LOOKED_AT + 1).collect();
        let (mut page, mut length, most) = (Page::default(), 0, most.max(1));
        for (number, key) in keys.iter().enumerate() {
            if number == LOOKED_AT || most <= page.entries.len() || PAGE <= length {
                page.next = Some(key / 2);
                return Ok(page);
            }
            match self.read(ground, (table, *key)) {
                Some(Answer::Read { version, value: Some(value), .. }) => {
                    length += value.len();
                    page.entries.push(Entry { key: key / 2, version, value });
                }
                Some(Answer::Read { value: None, .. }) => self.keys.remove(table, *key),
                Some(Answer::Refused(code)) => return Err(Outcome::Refused(code)),
                Some(Answer::Written { .. }) | None => return Err(Outcome::Unknown),
            }
        }
        page.next = (end / 2 < wanted).then(|| end / 2 + 1);
        Ok(page)
    }

    /// Has the node take a client's message. Says whether it has.
    fn ask_node<G: Ground<Ticket = T>>(&mut self, ground: &mut G, put: impl FnOnce(&mut Vec<u8>)) -> bool {
        put(&mut self.code);
        ground.give(&self.code).is_ok()
    }

    /// What the node has to say of a key.
    fn read<G: Ground<Ticket = T>>(&mut self, ground: &mut G, (table, key): Key) -> Option<Answer> {
        let server = self.server;
        self.ask_node(ground, |code| message::read(server, table, key, code));
        self.said_at_once(ground)
    }

    /// Takes what the node has to say. Gives what it has answered to the last message, if it has.
    fn said_at_once<G: Ground<Ticket = T>>(&mut self, ground: &mut G) -> Option<Answer> {
        let (mut said, mut answers) = (None, Vec::new());
        ground.route(&mut |answer| answers.push(answer));
        for answer in answers {
            match answer {
                written @ Answer::Written { .. } => self.acknowledge(ground, written),
                other => said = Some(other),
            }
        }
        said
    }

    /// What was read waits until it is confirmed.
    fn hold(&mut self, place: Place, asked: &Asked<'_, T>, outcome: Outcome) {
        let Asked { ticket, point, .. } = *asked;
        self.reads.extend(ticket.map(|ticket| Read { place, ticket, point, outcome }));
    }

    /// What the node has refused, or has not answered.
    fn conclude<G: Ground<Ticket = T>>(&mut self, ground: &mut G, asked: Asked<'_, T>, said: Option<Answer>) -> bool {
        let outcome = match said {
            Some(Answer::Refused(ROLLING)) => {
                self.rolling.get_or_insert_with(Instant::now);
                self.waiting.push_front(asked.into_owned());
                return false;
            }
            Some(Answer::Refused(code)) => Outcome::Refused(code),
            Some(Answer::Read { .. } | Answer::Written { .. }) | None => Outcome::Unknown,
        };
        match asked.ticket {
            Some(ticket) => ground.done(ticket, outcome),
            None => self.refuse_reads(ground),
        }
        true
    }

    /// A write is durable: it is answered, and with it all reads that were answered before it was taken.
    fn acknowledge<G: Ground<Ticket = T>>(&mut self, ground: &mut G, written: Answer) {
        let Answer::Written { segment, offset, table, key, version } = written else { return };
        let place = (segment, offset);
        while self.reads.front().is_some_and(|read| read.place <= place)
            && let Some(Read { ticket, outcome, .. }) = self.reads.pop_front()
        {
            ground.done(ticket, outcome);
        }
        self.keys.add(table, key);
        let Some(Pending { ticket: Some(ticket), point, version: wanted }) = self.take_pending(place) else { return };
        let is_it = point == (table, key) && wanted.is_none_or(|wanted| wanted == version);
        ground.done(ticket, if is_it { Outcome::Written(version) } else { Outcome::Unknown });
        self.end_turn(point);
    }

    /// Reads that can't be confirmed here are refused: whoever asked asks elsewhere.
    fn refuse_reads<G: Ground<Ticket = T>>(&mut self, ground: &mut G) {
        for Read { ticket, .. } in std::mem::take(&mut self.reads) {
            ground.done(ticket, Outcome::Refused(DEPOSED));
        }
    }
}

/// The place that the next write gets, if it is taken.
fn next_place<G: Ground>(ground: &mut G) -> Place {
    let info = ground.node().info();
    (info.head, info.entries)
}
