//! What a transport has to know of coded messages.

use std::fmt;

/// A server: one run of one host. An id is never used again.
#[derive(Clone, Copy, Debug, PartialEq, Eq, Hash, PartialOrd, Ord)]
pub struct Id {
    /// The host, 0 to 63.
    pub index: u8,
    /// The number of the start, from 1.
    pub generation: u32,
}

impl Id {
    /// Its bytes.
    pub fn code(self) -> [u8; 5] {
        let [a, b, c, d] = self.generation.to_le_bytes();
        [self.index, a, b, c, d]
    }

    /// The id whose bytes these begin with.
    pub fn read(bytes: &[u8]) -> Option<Id> {
        Some(Id { index: *bytes.first()?, generation: u32_at(bytes, 1)? })
    }
}

impl fmt::Display for Id {
    fn fmt(&self, f: &mut fmt::Formatter<'_>) -> fmt::Result {
        write!(f, "{}.{}", self.index, self.generation)
    }
}

/// Where a message comes from or goes to.
#[derive(Clone, Copy, Debug, PartialEq, Eq, Hash)]
pub enum Address {
    /// The one coordinator.
    Coordinator,
    /// A server.
    Server(Id),
    /// The clients and the operators.
    Outside,
}

/// The kinds of messages.
pub mod kind {
    /// A client's write.
    pub const WRITE: u8 = 0;
    /// A client's read.
    pub const READ: u8 = 1;
    /// A write is durable.
    pub const WRITE_OK: u8 = 2;
    /// What was read.
    pub const READ_OK: u8 = 3;
    /// A refusal.
    pub const REFUSED: u8 = 4;
    /// A segment's replica is to be kept, whole.
    pub const PLACE: u8 = 5;
    /// Entries are to be added to a replica.
    pub const APPEND: u8 = 6;
    /// A replica is to be closed.
    pub const CLOSE: u8 = 7;
    /// What is kept of a replica.
    pub const STORED: u8 = 8;
    /// A segment's epoch is to be committed.
    pub const COMMIT: u8 = 9;
    /// A segment's epoch is committed.
    pub const COMMIT_OK: u8 = 10;
    /// A server is there.
    pub const ENLIST: u8 = 11;
    /// A server has a head, and can take tablets.
    pub const READY: u8 = 12;
    /// The list of servers.
    pub const LIST: u8 = 13;
    /// A backup is to fence a crashed master, and to say what it holds of it.
    pub const GATHER: u8 = 14;
    /// What a backup holds of a crashed master.
    pub const REPLICAS: u8 = 15;
    /// A recovery begins.
    pub const PLAN: u8 = 16;
    /// Entries are to be sent to a recovery's master.
    pub const FETCH: u8 = 17;
    /// These entries.
    pub const DATA: u8 = 18;
    /// A recovery's entries are durable at its master.
    pub const RECOVERED: u8 = 19;
    /// A range is granted.
    pub const OWN: u8 = 20;
    /// A tablet was split.
    pub const SPLIT_OK: u8 = 21;
    /// A segment is dead, and need not be kept.
    pub const FREE: u8 = 22;
}

/// The front of a coded message: from whom to whom, its kind, and its body's bytes.
#[derive(Clone, Copy, Debug)]
pub struct Envelope<'a> {
    /// The sender.
    pub from: Address,
    /// The addressee.
    pub to: Address,
    /// The kind of its body.
    pub kind: u8,
    /// The fields of its body.
    pub body: &'a [u8],
}

/// The kind of a coded message from a server to a server: it stands at the same place in all of these. None where it is
/// no such message.
pub fn kind_between(bytes: &[u8]) -> Option<u8> {
    match bytes {
        [1, 1, _, _, _, _, _, 1, _, _, _, _, _, kind, ..] => Some(*kind),
        _ => None,
    }
}

/// What a Stored says.
#[derive(Clone, Copy, Debug, PartialEq, Eq)]
pub struct Stored<'a> {
    /// Sender, addressee, segment and epoch, as they are coded.
    pub subject: &'a [u8],
    /// How many entries the backup has.
    pub length: u64,
    /// Whether it has closed the replica.
    pub is_closed: bool,
}

impl<'a> Stored<'a> {
    /// What this coded message says, if it is a Stored.
    pub fn read(message: &'a [u8]) -> Option<Stored<'a>> {
        if kind_between(message) != Some(kind::STORED) {
            return None;
        }
        let (subject, told) = message.split_at_checked(18)?;
        Some(Stored { subject, length: u64_at(told, 0)?, is_closed: *told.get(8)? == 1 })
    }
}

/// What a server answers to a client.
#[derive(Clone, Debug, PartialEq, Eq)]
pub enum Answer {
    /// The write at this place is durable, and has this version.
    Written {
        /// The segment of the server's log.
        segment: u16,
        /// The place in it.
        offset: u64,
        /// The table.
        table: u32,
        /// The key.
        key: u64,
        /// The version.
        version: u64,
    },
    /// The key's greatest durable version, 0 where there is none, and its value.
    Read {
        /// The table.
        table: u32,
        /// The key.
        key: u64,
        /// The version.
        version: u64,
        /// The value; none where it was deleted, or there is none.
        value: Option<Vec<u8>>,
    },
    /// Refused, by the number behind the F.
    Refused(u8),
}

impl<'a> Envelope<'a> {
    /// The front of this coded message; none where it is none.
    pub fn read(bytes: &'a [u8]) -> Option<Envelope<'a>> {
        let (&1, rest) = bytes.split_first()? else { return None };
        let (from, rest) = address(rest)?;
        let (to, rest) = address(rest)?;
        let (&kind, body) = rest.split_first()?;
        Some(Envelope { from, to, kind, body })
    }

    /// What it answers to a client, if it is an answer.
    pub fn answer(&self) -> Option<Answer> {
        let body = self.body;
        match self.kind {
            kind::WRITE_OK => Some(Answer::Written {
                segment: u16_at(body, 0)?,
                offset: u64_at(body, 2)?,
                table: u32_at(body, 14)?,
                key: u64_at(body, 18)?,
                version: u64_at(body, 26)?,
            }),
            kind::READ_OK => Some(Answer::Read {
                table: u32_at(body, 0)?,
                key: u64_at(body, 4)?,
                version: u64_at(body, 12)?,
                value: match body.get(20)? {
                    0 => None,
                    _ => Some(body.get(29..)?.to_vec()),
                },
            }),
            kind::REFUSED => Some(Answer::Refused(*body.first()?)),
            _ => None,
        }
    }
}

fn address(bytes: &[u8]) -> Option<(Address, &[u8])> {
    match bytes.split_first()? {
        (0, rest) => Some((Address::Coordinator, rest)),
        (1, rest) => Some((Address::Server(Id::read(rest)?), rest.get(5..)?)),
        (2, rest) => Some((Address::Outside, rest)),
        _ => None,
    }
}

/// A client's write to a server, coded into `to`, which is emptied first; no value deletes.
pub fn write(server: Id, table: u32, key: u64, value: Option<&[u8]>, to: &mut Vec<u8>) {
    ask(server, kind::WRITE, table, key, to);
    match value {
        None => to.push(0),
        Some(value) => {
            to.push(1);
            to.extend_from_slice(&(value.len() as u64).to_le_bytes());
            to.extend_from_slice(value);
        }
    }
}

/// A client's read, coded into `to`, which is emptied first.
pub fn read(server: Id, table: u32, key: u64, to: &mut Vec<u8>) {
    ask(server, kind::READ, table, key, to);
}

fn ask(server: Id, kind: u8, table: u32, key: u64, to: &mut Vec<u8>) {
    to.clear();
    to.extend_from_slice(&[1, 2, 1]);
    to.extend_from_slice(&server.code());
    to.push(kind);
    to.extend_from_slice(&table.to_le_bytes());
    to.extend_from_slice(&key.to_le_bytes());
}

/// A number of two bytes at this place, the least first.
pub fn u16_at(bytes: &[u8], at: usize) -> Option<u16> {
    Some(u16::from_le_bytes(bytes.get(at..at + 2)?.try_into().ok()?))
}

/// A number of four bytes at this place.
pub fn u32_at(bytes: &[u8], at: usize) -> Option<u32> {
    Some(u32::from_le_bytes(bytes.get(at..at + 4)?.try_into().ok()?))
}

/// A number of eight bytes at this place.
pub fn u64_at(bytes: &[u8], at: usize) -> Option<u64> {
    Some(u64::from_le_bytes(bytes.get(at..at + 8)?.try_into().ok()?))
}

/// The messages that follow one another, each behind its length in four bytes.
pub fn framed(bytes: &[u8]) -> impl Iterator<Item = &[u8]> {
    let mut rest = bytes;
    std::iter::from_fn(move || {
        let length = u32_at(rest, 0)? as usize;
        let message = rest.get(4..4 + length)?;
        rest = &rest[4 + length..];
        Some(message)
    })
}

#[cfg(test)]
mod tests {
    use super::*;

    #[test]
    fn what_stands_between_servers_is_what_an_envelope_says() {
        let stored =
            [&[1, 1, 2, 7, 0, 0, 0, 1, 3, 9, 0, 0, 0, kind::STORED, 4, 0, 5, 0, 6], &[0; 7][..], &[1]].concat();
        for (place, value) in [(0, 1), (0, 2), (1, 0), (1, 2), (7, 0), (7, 2), (13, kind::PLACE)] {
            let mut message = stored.clone();
            message[place] = value;
            let envelope = Envelope::read(&message);
            let between = envelope
                .filter(|Envelope { from, to, .. }| matches!((from, to), (Address::Server(_), Address::Server(_))));
            assert_eq!(kind_between(&message), between.map(|envelope| envelope.kind), "{place}, {value}");
        }
        let said = Stored { subject: &stored[..18], length: 6, is_closed: true };
        assert_eq!(Stored::read(&stored), Some(said));
        assert!((0..stored.len()).all(|length| Stored::read(&stored[..length]).is_none()));
    }
}
