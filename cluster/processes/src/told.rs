//! What a node has told others, held against what it keeps when it comes back.

use crate::kept::{Book, Host, Kept, Replica};
use sevunthi::message::{kind, u16_at, u32_at, u64_at};
use sevunthi::{Address, Envelope, Id};
use std::collections::BTreeMap;

/// All that others know of a node and that it must not forget, as far as one message says it.
#[derive(Default)]
pub struct Told {
    host: Host,
    book: Book,
}

/// Whom each attempt is about, as a Gather has said.
pub type Attempts = BTreeMap<u32, Id>;

impl Told {
    /// A message has left.
    pub fn note(&mut self, message: &Envelope, attempts: &Attempts) -> Option<()> {
        let Envelope { from, to, kind, body } = *message;
        if let Address::Server(own) = from {
            self.host.generation = self.host.generation.max(own.generation);
        }
        match (kind, to) {
            (kind::STORED, Address::Server(master)) => {
                let told =
                    Replica { epoch: u16_at(body, 2)?, length: u64_at(body, 4)?, is_closed: *body.get(12)? == 1 };
                self.host.replicas.insert((master, u16_at(body, 0)?), told);
            }
            (kind::REPLICAS, _) => self.host.fenced.extend(attempts.get(&u32_at(body, 0)?)),
            (kind::COMMIT_OK, Address::Server(master)) => {
                let least = self.book.least.entry(master).or_default();
                *least = (*least).max((u16_at(body, 0)?, u16_at(body, 2)?));
            }
            (kind::LIST, _) => self.book.version = self.book.version.max(u32_at(body, 0)?),
            (kind::GATHER | kind::PLAN, _) => self.book.attempts = self.book.attempts.max(u32_at(body, 0)?.into()),
            (kind::OWN, _) => self.book.term = self.book.term.max(u32_at(body, 20)?),
            _ => {}
        }
        Some(())
    }

    /// The host is started: with its open replicas, or without them. It fences nobody then.
    pub fn restart(&mut self, keeps: bool) {
        self.host.replicas.retain(|_, told| keeps || told.is_closed);
        self.host.fenced.clear();
    }

    /// A master frees a segment on the host.
    pub fn free(&mut self, master: Id, segment: u16) {
        self.host.replicas.remove(&(master, segment));
    }

    /// Whether the node still knows all of it.
    pub fn is_known_to(&self, kept: &Kept) -> bool {
        match kept {
            Kept::Host(host) => {
                host.generation >= self.host.generation
                    && self.host.fenced.is_subset(&host.fenced)
                    && self.host.replicas.iter().all(|(name, told)| host.replicas.get(name).is_some_and(told.holds()))
            }
            Kept::Coordinator(book) => {
                book.version >= self.book.version
                    && book.term >= self.book.term
                    && book.attempts >= self.book.attempts
                    && self.book.least.iter().all(|(id, least)| book.least.get(id).is_some_and(|kept| kept >= least))
            }
        }
    }
}

impl Replica {
    /// Whether a replica that is kept has what was told: that many entries, closed if it was, or a later epoch.
    fn holds(&self) -> impl Fn(&Replica) -> bool {
        |kept| {
            kept.epoch > self.epoch
                || kept.epoch == self.epoch && kept.length >= self.length && (kept.is_closed || !self.is_closed)
        }
    }
}

#[cfg(test)]
mod tests {
    use super::*;

    /// The first server of this host.
    fn first(index: u8) -> Id {
        Id { index, generation: 1 }
    }

    /// What is known of a backup that has told of segment 7 of its master: three entries under epoch 4, closed.
    fn told() -> Told {
        let front = [&[1, 1][..], &first(1).code(), &[1], &first(0).code(), &[kind::STORED]].concat();
        let message = [&front[..], &7u16.to_le_bytes(), &4u16.to_le_bytes(), &3u64.to_le_bytes(), &[1]].concat();
        let mut told = Told::default();
        let noted = Envelope::read(&message).and_then(|envelope| told.note(&envelope, &Attempts::new()));
        assert!(noted.is_some());
        told
    }

    /// A host that keeps this replica.
    fn keeping(generation: u32, epoch: u16, length: u64, is_closed: bool) -> Kept {
        let replicas = BTreeMap::from([((first(0), 7), Replica { epoch, length, is_closed })]);
        Kept::Host(Host { generation, replicas, ..Host::default() })
    }

    #[test]
    fn what_was_told_has_to_be_kept() {
        let told = told();
        for kept in [keeping(1, 4, 3, true), keeping(2, 4, 5, true), keeping(1, 5, 0, false)] {
            assert!(told.is_known_to(&kept), "{kept:?}");
        }
        let nothing = Kept::Host(Host { generation: 1, ..Host::default() });
        for kept in
            [keeping(0, 4, 3, true), keeping(1, 4, 2, true), keeping(1, 4, 3, false), keeping(1, 3, 9, true), nothing]
        {
            assert!(!told.is_known_to(&kept), "{kept:?}");
        }
    }

    #[test]
    fn a_start_without_open_replicas_leaves_the_closed_ones() {
        let mut told = told();
        told.restart(false);
        assert!(!told.is_known_to(&Kept::Host(Host { generation: 1, ..Host::default() })));
        told.free(first(0), 7);
        assert!(told.is_known_to(&Kept::Host(Host { generation: 1, ..Host::default() })));
    }
}
