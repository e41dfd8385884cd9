//! A node with its journal, and batches for each place.

use crate::awake::Awake;
use crate::journal::Journal;
use crate::kept::Kept;
use crate::owner::{Ground, Outcome};
use crate::segments::Segments;
use crate::service::{Ticket, Transport};
use crate::superseded::without_superseded;
use crate::waits::Waits;
use sevunthi::message::{Stored, framed, kind, u16_at};
use sevunthi::{Address, Answer, Envelope, Fault, Id, Node};
use std::collections::VecDeque;
use std::io;

/// The first byte of what is no message of the protocol: a heartbeat of a server, with its id, and whom it waits for.
const HEARTBEAT: u8 = 0;

/// The coordinator's answer to the heartbeat of one that its list shows crashed.
const NOT_UP: u8 = 255;

/// Where the segment stands in the subject of a Stored, behind its sender and its addressee.
const STORED_SEGMENT: usize = 14;

/// What came in a batch.
pub(crate) enum Frame<'a> {
    /// A message of the protocol.
    Message(&'a [u8]),
    /// A server lives, and waits for others.
    Heartbeat(Id, Vec<Id>),
    /// The coordinator's list shows this server crashed.
    NotUp(Id),
}

/// The frames of a batch.
pub(crate) fn frames(batch: &[u8]) -> impl Iterator<Item = Frame<'_>> {
    framed(batch).filter_map(|frame| match frame.split_first()? {
        (&HEARTBEAT, ids) => {
            let mut ids = ids.chunks_exact(5).filter_map(Id::read);
            ids.next().map(|id| Frame::Heartbeat(id, ids.collect()))
        }
        (&NOT_UP, id) => Id::read(id).map(Frame::NotUp),
        _ => Some(Frame::Message(frame)),
    })
}

/// A node with its journal, and what is to be sent.
pub(crate) struct Base {
    pub(crate) kept: Kept<Journal>,
    pub(crate) awake: Awake,
    pub(crate) waits: Waits,
    pub(crate) segments: Segments,
    /// What this node has to say to itself.
    pub(crate) local: VecDeque<Vec<u8>>,
    /// What has become of requests, and was not handed over yet.
    pub(crate) done: VecDeque<(Ticket, Outcome)>,
    /// The number of the next ticket.
    pub(crate) tickets: u64,
    /// Of a host its index; the coordinator has the last place.
    index: Option<u8>,
    outs: Vec<Vec<u8>>,
    leaving: Vec<u8>,
}

impl Base {
    /// The node of the host of this index, or the coordinator, of so many hosts.
    pub(crate) fn new(kept: Kept<Journal>, index: Option<u8>, hosts: u8) -> Base {
        Base {
            kept,
            awake: Awake::default(),
            waits: Waits::default(),
            segments: Segments::default(),
            local: VecDeque::new(),
            done: VecDeque::new(),
            tickets: 0,
            index,
            outs: vec![Vec::new(); usize::from(hosts) + 1],
            leaving: Vec::new(),
        }
    }

    fn coordinator(&self) -> usize {
        self.outs.len() - 1
    }

    /// Queues a frame for whoever has this place, or for this node itself.
    fn post(&mut self, place: usize, frame: &[u8]) {
        if place == self.index.map_or(self.coordinator(), usize::from) {
            self.local.push_back(frame.to_vec());
        } else if let Some(out) = self.outs.get_mut(place) {
            out.extend_from_slice(&(frame.len() as u32).to_le_bytes());
            out.extend_from_slice(frame);
        }
    }

    /// Tells the coordinator that the server lives, and whom it waits for.
    pub(crate) fn beat(&mut self, server: Id, waits: &[Id]) {
        let ids = [server].into_iter().chain(waits.iter().copied()).flat_map(Id::code);
        let beat: Vec<u8> = [HEARTBEAT].into_iter().chain(ids).collect();
        self.post(self.coordinator(), &beat);
    }

    /// Has a server's host begin anew.
    pub(crate) fn say_not_up(&mut self, id: Id) {
        let said: Vec<u8> = [NOT_UP].into_iter().chain(id.code()).collect();
        self.post(usize::from(id.index), &said);
    }

    /// Delivers a message, if it is for this node. Gives back its front where the node has taken it.
    ///
    /// # Errors
    ///
    /// That the node takes no step any more: the process has to end.
    pub(crate) fn deliver<'a>(&mut self, message: &'a [u8]) -> io::Result<Option<Envelope<'a>>> {
        let Some(envelope) = Envelope::read(message) else { return Ok(None) };
        let index = match envelope.to {
            Address::Coordinator => None,
            Address::Server(id) => Some(id.index),
            Address::Outside => return Ok(None),
        };
        if index != self.index {
            return Ok(None);
        }
        if let Address::Server(from) = envelope.from {
            if matches!(envelope.kind, kind::STORED | kind::DATA) {
                self.waits.answered(from);
            }
            if let Some(segment) = Stored::read(message).and_then(|stored| u16_at(stored.subject, STORED_SEGMENT)) {
                self.segments.stored(from, segment);
            }
        }
        match self.kept.deliver(message) {
            Ok(()) => Ok(Some(envelope)),
            Err(Fault::UsedUp) => Err(io::Error::other(Fault::UsedUp)),
            // the message is dropped, as if it had been lost
            Err(_) => Ok(None),
        }
    }

    /// What may leave is put together for each place; what is for clients is handed to `answer`.
    pub(crate) fn route(&mut self, answer: &mut dyn FnMut(Answer)) {
        let mut messages = std::mem::take(&mut self.leaving);
        if let Err(fault) = self.kept.leave(&mut messages) {
            crate::log::tell(fault);
        }
        for message in without_superseded(framed(&messages)) {
            let Some(envelope) = Envelope::read(message) else { continue };
            match envelope.to {
                Address::Outside => envelope.answer().into_iter().for_each(&mut *answer),
                Address::Coordinator => self.post(self.coordinator(), message),
                Address::Server(id) => {
                    self.note(id, &envelope);
                    self.post(usize::from(id.index), message);
                }
            }
        }
        self.leaving = messages;
    }

    /// What a message that leaves tells of the log, and of who has to answer.
    fn note(&mut self, to: Id, envelope: &Envelope<'_>) {
        if matches!(envelope.kind, kind::PLACE | kind::APPEND | kind::CLOSE | kind::FETCH) {
            self.waits.asked(to, self.awake.now());
        }
        match (envelope.kind, u16_at(envelope.body, 0)) {
            (kind::PLACE, Some(segment)) => self.segments.placed(to, segment),
            (kind::FREE, Some(segment)) => self.segments.freed(segment),
            _ => {}
        }
    }

    /// What was put together leaves.
    pub(crate) fn flush(&mut self, transport: &mut dyn Transport) {
        for (place, out) in self.outs.iter_mut().enumerate().filter(|(_, out)| !out.is_empty()) {
            transport.send(place, out);
            out.clear();
        }
    }
}

impl Ground for Base {
    type Ticket = Ticket;

    fn node(&mut self) -> &mut Node {
        &mut self.kept.node
    }

    fn give(&mut self, message: &[u8]) -> Result<(), Fault> {
        self.kept.deliver(message)
    }

    fn route(&mut self, answer: &mut dyn FnMut(Answer)) {
        Base::route(self, answer);
    }

    fn done(&mut self, ticket: Ticket, outcome: Outcome) {
        self.done.push_back((ticket, outcome));
    }
}
