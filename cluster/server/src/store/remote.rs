//! A coordinator's journal in etcd, as its node's thread has it: a thread of its own asks for one transaction after
//! another, and the node goes on meanwhile.

use super::gateway::{Came, Counts, Gateway};
use super::head::{Head, Seen};
use super::lead::{Lead, Stop};
use super::ledger::Ledger;
use crate::faults::Failing;
use crate::guard::Position;
use crate::log::failed;
use std::sync::Arc;
use std::sync::mpsc::{Receiver, Sender, channel};
use std::thread;
use std::time::{Duration, Instant};

/// What is asked of the store.
#[derive(Clone, Copy, Debug, PartialEq, Eq)]
pub enum Kind {
    /// Bytes are added at the journal's end.
    Append,
    /// A save takes its place.
    Save,
    /// Nothing is changed: it is only to be known that this process still leads.
    Guard,
}

struct Asked {
    kind: Kind,
    bytes: Vec<u8>,
    clock: u64,
    failing: Failing,
}

struct Done {
    head: Head,
    took: Duration,
}

/// A transaction has ended.
#[derive(Clone, Copy, Debug)]
pub struct Ended {
    /// What was asked.
    pub kind: Kind,
    /// So many bytes are safe.
    pub safe: usize,
    /// So long it took.
    pub took: Duration,
}

/// The journal in etcd of a coordinator that leads.
pub struct Remote {
    asked: Sender<Asked>,
    done: Receiver<Done>,
    under_way: Option<Kind>,
    /// The lead.
    pub lead: Arc<Lead>,
    /// What was counted.
    pub counts: Arc<Counts>,
    gateway: Gateway,
    seen: Seen,
    head: Head,
    /// How many bytes it had when it was last shortened.
    pub saved: usize,
    /// How many transactions have changed it.
    pub syncs: u64,
    /// How many have only asked whether this process leads.
    pub guards: u64,
    /// What is to fail, where a test asks for it.
    pub failing: Failing,
}

/// What a remote journal is made of.
pub struct Parts {
    /// Who asks etcd.
    pub gateway: Gateway,
    /// The lead.
    pub lead: Arc<Lead>,
    /// What the folder has seen.
    pub seen: Seen,
    /// What is to fail, where a test asks for it.
    pub failing: Failing,
}

fn position(head: Head) -> Position {
    Position { number: head.epoch, length: head.bytes }
}

impl Remote {
    /// The journal of who leads, with its thread, which says each time when it has done what it was asked.
    pub fn new(parts: Parts, ledger: Ledger, head: Head, tell: impl Fn() + Send + 'static) -> Remote {
        let Parts { gateway, lead, seen, failing } = parts;
        let (asked, asks) = channel();
        let (answers, done) = channel();
        let of_thread = Arc::clone(&lead);
        thread::spawn(move || work(ledger, &of_thread, &asks, &answers, tell));
        Remote {
            asked,
            done,
            under_way: None,
            lead,
            counts: Arc::clone(&gateway.counts),
            gateway,
            seen,
            saved: head.bytes as usize,
            head,
            syncs: 0,
            guards: 0,
            failing,
        }
    }

    /// Whether a transaction is under way: only one is.
    pub fn is_busy(&self) -> bool {
        self.under_way.is_some()
    }

    /// Asks for a transaction, while none is under way.
    pub fn begin(&mut self, kind: Kind, bytes: Vec<u8>, clock: u64) {
        let asked = Asked { kind, bytes, clock, failing: self.failing.clone() };
        if self.asked.send(asked).is_err() {
            failed("the journal", "it has no thread");
        }
        self.under_way = Some(kind);
    }

    /// The transaction that was under way, if it has ended.
    pub fn poll(&mut self) -> Option<Ended> {
        let Done { head, took } = self.done.try_recv().ok()?;
        let kind = self.under_way.take()?;
        self.head = head;
        self.seen.note(head);
        match kind {
            Kind::Guard => self.guards += 1,
            Kind::Append => self.syncs += 1,
            Kind::Save => {
                self.syncs += 1;
                self.saved = head.bytes as usize;
            }
        }
        Some(Ended { kind, safe: head.bytes as usize, took })
    }

    /// Ends this process if another one leads; etcd is waited for.
    pub fn end_if_fenced(&mut self) {
        if let (Came::Differs(now), _) = self.gateway.transact(&[self.lead.guard()], &[]) {
            let checked = self.lead.check(now.first().and_then(Option::as_deref));
            checked.unwrap_or_else(|stop| self.lead.end(&stop));
        }
    }

    /// How far it has come, of what is safe.
    pub fn position(&self) -> Position {
        position(self.head)
    }

    /// How many bytes of it are safe.
    pub fn length(&self) -> usize {
        self.head.bytes as usize
    }
}

/// The thread: it asks for what it is asked, until etcd has answered. It ends the process where another one leads.
fn work(mut ledger: Ledger, lead: &Lead, asks: &Receiver<Asked>, answers: &Sender<Done>, tell: impl Fn()) {
    for asked in asks {
        let began = Instant::now();
        if let Err(error) = asked.failing.sync() {
            failed("the journal can't be written", error);
        }
        let Some(head) = do_once(&mut ledger, &asked).map(|()| ledger.head()).unwrap_or_else(|stop| lead.end(&stop))
        else {
            failed("the journal", "it is not in etcd")
        };
        if answers.send(Done { head, took: began.elapsed() }).is_err() {
            return;
        }
        tell();
    }
}

fn do_once(ledger: &mut Ledger, asked: &Asked) -> Result<(), Stop> {
    match asked.kind {
        Kind::Append => ledger.append(&asked.bytes, asked.clock),
        Kind::Save => ledger.save(&asked.bytes, asked.clock, &asked.failing),
        Kind::Guard => ledger.guard(),
    }
}
