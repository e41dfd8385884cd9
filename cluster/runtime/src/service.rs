//! What a service on a host does, and what it can ask its owner for.

use crate::base::Base;
use crate::owner::{Condition, Outcome, Owner, Page, Range, What};
use sevunthi::Id;
use std::borrow::Cow;
use std::ops::RangeInclusive;

/// Who has asked for something: a number that the [`Transport`] gives, and that is never used again.
#[derive(Clone, Copy, Debug, PartialEq, Eq, Hash, PartialOrd, Ord)]
pub struct Caller(pub u64);

/// A write or a read that a service has asked for. [`Service::done`] tells what became of it.
#[derive(Clone, Copy, Debug, PartialEq, Eq, Hash, PartialOrd, Ord)]
pub struct Ticket(u64);

/// What brings bytes to others. What it is given may be lost, late and repeated, in any order; but **nothing may come that
/// was not sent**: keep others off, and drop damaged bytes by a sum.
pub trait Transport {
    /// Sends a batch to the process at this place: hosts by their index, and then the coordinator. There it is an
    /// [`Event::Batch`].
    fn send(&mut self, place: usize, batch: &[u8]);

    /// Answers a caller. Where it has gone nothing happens.
    fn answer(&mut self, caller: Caller, answer: &[u8]);
}

/// What comes to a process.
#[derive(Clone, Debug, PartialEq, Eq)]
pub enum Event {
    /// A batch that another process has sent to this one, on the connection of this number.
    Batch(u64, Vec<u8>),
    /// That connection has ended: who spoke there is suspected sooner.
    Ended(u64),
    /// A caller's request.
    Ask(Caller, Vec<u8>),
}

/// A service that runs in each host's process, on what that owns: what it keeps in memory follows from its entries and
/// from what was done since. All of it is called by one thread.
pub trait Service {
    /// A range was granted. All that was acknowledged of it, here or by owners before, is durable here: what the service
    /// has in memory of it is to be made from [`Cx::entries`].
    fn granted(&mut self, cx: &mut Cx<'_>, range: Range);

    /// A caller asks for something, in the service's own words.
    fn ask(&mut self, cx: &mut Cx<'_>, from: Caller, request: &[u8]);

    /// This has become of what was asked for under a ticket, once for each. What is [`Outcome::Unknown`] may have been
    /// done, or may still be: asked for again it is another write.
    fn done(&mut self, cx: &mut Cx<'_>, ticket: Ticket, outcome: Outcome);

    /// The server of this host was replaced, and another one begins, which owns nothing. What is in memory is of no more
    /// use. Each ticket's outcome follows.
    fn begun_anew(&mut self, cx: &mut Cx<'_>);
}

/// How much room an owner takes.
#[derive(Clone, Copy, Debug, PartialEq, Eq)]
pub struct Space {
    /// The newest segment of its log, and how many entries that has.
    pub head: (u16, u64),
    /// Segments of its log that are not freed.
    pub live: usize,
    /// Segments of its log that are freed.
    pub freed: usize,
    /// Replicas that were asked for, and are not there yet: writes may wait for them.
    pub missing: usize,
    /// Keys that may have values.
    pub keys: usize,
    /// Bytes of its host's journal.
    pub journal: usize,
}

/// What a service can ask its owner for. Keys are below [`KEYS`](crate::owner::KEYS), values have up to 1,024 bytes.
pub struct Cx<'a> {
    pub(crate) base: &'a mut Base,
    pub(crate) owner: &'a mut Owner<Ticket>,
    pub(crate) transport: &'a mut dyn Transport,
}

impl Cx<'_> {
    /// Writes a value, or deletes it. The outcome is [`Outcome::Written`] with its version, or [`Outcome::Refused`], or
    /// unknown.
    pub fn write(&mut self, table: u32, key: u64, value: Option<&[u8]>) -> Ticket {
        self.ask(table, key, What::Write(value.map(Cow::Borrowed)))
    }

    /// Writes a value, or deletes it, if this holds: as a whole, or not at all. Where it does not, the outcome is
    /// [`Outcome::Mismatch`] with what is there. The version of what was written is greater than all before it, whoever
    /// owned the key: it is a *fencing token*.
    pub fn write_if(&mut self, table: u32, key: u64, condition: Condition, value: Option<&[u8]>) -> Ticket {
        self.ask(table, key, What::WriteIf(condition, value.map(Cow::Borrowed)))
    }

    /// Reads a value, confirmed: no write is missed that was acknowledged before this, by whomever.
    pub fn read(&mut self, table: u32, key: u64) -> Ticket {
        self.ask(table, key, What::Read)
    }

    /// Reads the values of the keys from the first up to the last, at most so many, confirmed: [`Outcome::Page`].
    pub fn scan(&mut self, table: u32, keys: RangeInclusive<u64>, most: usize) -> Ticket {
        self.ask(table, *keys.start(), What::Scan { last: *keys.end(), most })
    }

    fn ask(&mut self, table: u32, key: u64, what: What<'_>) -> Ticket {
        let ticket = Ticket(self.base.tickets);
        self.base.tickets += 1;
        self.owner.ask(self.base, ticket, table, key, what);
        ticket
    }

    /// What is durable of a range of keys at this moment, at most so many values, in order of keys; not confirmed.
    ///
    /// # Errors
    ///
    /// That this server does not own the first key, or was replaced.
    pub fn entries(&mut self, table: u32, keys: RangeInclusive<u64>, most: usize) -> Result<Page, Outcome> {
        self.owner.entries(self.base, table, keys, most)
    }

    /// How much room the owner takes.
    pub fn space(&mut self) -> Space {
        let info = self.base.kept.node.info();
        let freed = self.base.segments.freed_count();
        Space {
            head: (info.head, info.entries),
            live: usize::from(info.head).saturating_sub(freed),
            freed,
            missing: self.base.segments.missing(),
            keys: self.owner.keys_count(),
            journal: info.written,
        }
    }

    /// The server of this host.
    pub fn server(&self) -> Id {
        self.owner.server()
    }

    /// Whether this server owns a key, as far as it knows.
    pub fn owns(&self, table: u32, key: u64) -> bool {
        self.owner.ranges().any(|range| range.table == table && range.first <= key && key <= range.last)
    }

    /// Answers a caller.
    pub fn answer(&mut self, caller: Caller, answer: &[u8]) {
        self.transport.answer(caller, answer);
    }
}
