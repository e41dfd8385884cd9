//! What clients and servers say to one another: requests and answers, each behind its length in four bytes.

use crate::bytes::{u32_at, u64_at};
use std::borrow::Cow;

/// What is asked of a host or of the coordinator.
#[derive(Clone, Copy, Debug, PartialEq, Eq)]
pub enum Op {
    /// Of a host: write a value.
    Put,
    /// Of a host: delete it.
    Delete,
    /// Of a host: read it, confirmed.
    Get,
    /// Of a host: read it at once; a server that was replaced may answer what is stale.
    GetFast,
    /// Of the coordinator: create a table, at the host whose index is the key, or, for [`ANY_HOST`], at any.
    Create,
    /// Of the coordinator: split a table before a key.
    Split,
    /// Of the coordinator: who owns a key.
    Owner,
    /// Of each: the state, as text. It is answered by who reads the connection.
    Status,
    /// Of each, where it was started with `--faults`: something is to fail.
    Fail,
    /// Of a host: write a value, if the version is the one in the eight bytes before it.
    PutIf,
    /// Of a host: write a value, if there is none.
    PutIfAbsent,
    /// Of a host: delete it, if the version is the one in eight bytes.
    DeleteIf,
    /// Of a host: read the values from the key up to another, confirmed. The value is that, and how many at most
    /// ([`wanted`](crate::scan::wanted)).
    Scan,
}

const OPS: [Op; 13] = [
    Op::Put,
    Op::Delete,
    Op::Get,
    Op::GetFast,
    Op::Create,
    Op::Split,
    Op::Owner,
    Op::Status,
    Op::Fail,
    Op::PutIf,
    Op::PutIfAbsent,
    Op::DeleteIf,
    Op::Scan,
];

impl Op {
    fn code(self) -> u8 {
        OPS.iter().position(|op| *op == self).unwrap_or(0) as u8
    }

    /// Whether this writes.
    pub fn is_write(self) -> bool {
        match self {
            Op::Put | Op::Delete | Op::PutIf | Op::PutIfAbsent | Op::DeleteIf => true,
            Op::Get | Op::GetFast | Op::Create | Op::Split | Op::Owner | Op::Status | Op::Fail | Op::Scan => false,
        }
    }

    /// Whether this reads what stands at keys: that may be asked again.
    pub fn is_read(self) -> bool {
        match self {
            Op::Get | Op::GetFast | Op::Scan => true,
            Op::Put
            | Op::Delete
            | Op::PutIf
            | Op::PutIfAbsent
            | Op::DeleteIf
            | Op::Create
            | Op::Split
            | Op::Owner
            | Op::Status
            | Op::Fail => false,
        }
    }

    /// Whether this is asked by a request of these bytes.
    pub fn is_of(self, request: &[u8]) -> bool {
        request.first() == Some(&self.code())
    }
}

/// What has to hold of a key for a conditional write to be done.
#[derive(Clone, Copy, Debug, PartialEq, Eq)]
pub enum Condition {
    /// The version of its newest write is this one; 0 where there was none.
    Version(u64),
    /// There is no value.
    Absent,
}

impl Condition {
    /// Whether it holds where this is found.
    pub fn holds(self, version: u64, value: Option<&[u8]>) -> bool {
        match self {
            Condition::Version(expected) => version == expected,
            Condition::Absent => value.is_none(),
        }
    }
}

/// A request.
#[derive(Clone, Debug, PartialEq, Eq)]
pub struct Request<'a> {
    /// What is asked.
    pub op: Op,
    /// The client's number of it.
    pub number: u64,
    /// The table.
    pub table: u32,
    /// The key, of 63 bits.
    pub key: u64,
    /// The value.
    pub value: Cow<'a, [u8]>,
}

impl<'a> Request<'a> {
    /// Adds it to `out`.
    pub fn put(&self, out: &mut Vec<u8>) {
        out.extend_from_slice(&(21 + self.value.len() as u32).to_le_bytes());
        out.push(self.op.code());
        out.extend_from_slice(&self.number.to_le_bytes());
        out.extend_from_slice(&self.table.to_le_bytes());
        out.extend_from_slice(&self.key.to_le_bytes());
        out.extend_from_slice(&self.value);
    }

    /// The request of these bytes, without their length.
    pub fn read(bytes: &'a [u8]) -> Option<Request<'a>> {
        Some(Request {
            op: *OPS.get(usize::from(*bytes.first()?))?,
            number: u64_at(bytes, 1)?,
            table: u32_at(bytes, 9)?,
            key: u64_at(bytes, 13)?,
            value: bytes.get(21..)?.into(),
        })
    }

    /// The condition of a conditional write, and the value that it writes, if it does not delete. None is where it is
    /// no conditional write, or has too few bytes.
    pub fn condition(&self) -> Option<(Condition, Option<&[u8]>)> {
        let version = || Some((Condition::Version(u64_at(&self.value, 0)?), self.value.get(8..)));
        match self.op {
            Op::PutIf => version(),
            Op::DeleteIf => version().map(|(condition, _)| (condition, None)),
            Op::PutIfAbsent => Some((Condition::Absent, Some(&self.value))),
            _ => None,
        }
    }

    /// The same without its value.
    pub fn bare(&self) -> Request<'static> {
        Request { value: Cow::default(), ..*self }
    }

    /// The same with a value of its own.
    pub fn into_owned(self) -> Request<'static> {
        let bare = self.bare();
        Request { value: self.value.into_owned().into(), ..bare }
    }
}

/// The longest value.
pub const MOST_VALUE: usize = 1024;

/// A table is made at whichever host owns least.
pub const ANY_HOST: u64 = u64::MAX;

/// It was done.
pub const DONE: u8 = 0;
/// It was done, and there is no value.
pub const NO_VALUE: u8 = 100;
/// It may have been done, or may still be done: the server was replaced before it knew.
pub const UNKNOWN: u8 = 101;
/// The request is none.
pub const WRONG: u8 = 102;
/// It was not done: too few hosts have room on their disks.
pub const NO_ROOM: u8 = 103;
/// Only who operates the cluster may ask for this.
pub const NOT_ALLOWED: u8 = 104;
/// It was not done: the condition does not hold. The version and the value are those that are there, confirmed.
pub const MISMATCH: u8 = 105;
/// The same, and there is no value.
pub const MISMATCH_NO_VALUE: u8 = 106;
/// It was not done: another coordinator leads, or may lead by now. The value says where it listens, if that is known; the
/// version who owns the key, as far as this one knows, or [`NO_HINT`].
pub const NOT_LEADING: u8 = 107;
/// It was not done: clients prove here that they have the secret, or are on this machine. The connection ends.
pub const IN_CLEAR: u8 = 108;
/// Nothing is known of who owns the key.
pub const NO_HINT: u64 = u64::MAX;

/// An answer: its code is one of those above, or the number behind the F of a refusal.
#[derive(Clone, Debug, PartialEq, Eq)]
pub struct Reply {
    /// What has become of it.
    pub code: u8,
    /// The client's number of the request.
    pub number: u64,
    /// The version; of an owner its index.
    pub version: u64,
    /// The value, or a text.
    pub value: Vec<u8>,
}

impl Reply {
    /// The answer to what is no request; it has the number that stands where that of a request does.
    pub fn wrong(request: &[u8]) -> Reply {
        Reply::bare(WRONG, u64_at(request, 1).unwrap_or(0))
    }

    /// An answer without a value.
    pub fn bare(code: u8, number: u64) -> Reply {
        Reply { code, number, version: 0, value: Vec::new() }
    }

    /// Adds it to `out`.
    pub fn put(&self, out: &mut Vec<u8>) {
        out.extend_from_slice(&(17 + self.value.len() as u32).to_le_bytes());
        out.push(self.code);
        out.extend_from_slice(&self.number.to_le_bytes());
        out.extend_from_slice(&self.version.to_le_bytes());
        out.extend_from_slice(&self.value);
    }

    /// The answer of these bytes, without their length.
    pub fn read(bytes: &[u8]) -> Option<Reply> {
        Some(Reply {
            code: *bytes.first()?,
            number: u64_at(bytes, 1)?,
            version: u64_at(bytes, 9)?,
            value: bytes.get(17..)?.to_vec(),
        })
    }
}

#[cfg(test)]
mod tests {
    use super::*;

    #[test]
    fn a_condition_stands_before_its_value() {
        let three = 3_u64.to_le_bytes();
        let long = [&three[..], b"x"].concat();
        let condition = |op, value: &[u8]| {
            let request = Request { op, number: 1, table: 2, key: 3, value: value.into() };
            request.condition().map(|(condition, value)| (condition, value.map(<[u8]>::to_vec)))
        };
        let version = Condition::Version(3);
        assert_eq!(condition(Op::PutIf, &long), Some((version, Some(b"x".to_vec()))));
        assert_eq!(condition(Op::PutIf, &three), Some((version, Some(Vec::new()))));
        assert_eq!(condition(Op::DeleteIf, &three), Some((version, None)));
        assert_eq!(condition(Op::PutIfAbsent, b"x"), Some((Condition::Absent, Some(b"x".to_vec()))));
        for (op, value) in [(Op::PutIf, &three[..7]), (Op::DeleteIf, b""), (Op::Put, &long), (Op::Get, &long)] {
            assert_eq!(condition(op, value), None);
        }
        assert!(version.holds(3, None) && !version.holds(4, None) && !version.holds(0, Some(b"")));
        assert!(Condition::Absent.holds(7, None) && !Condition::Absent.holds(0, Some(b"")));
    }

    #[test]
    fn requests_and_answers_come_back_and_wrong_ones_are_told() {
        for op in OPS {
            let request = Request { op, number: 7, table: 1, key: 5, value: b"v"[..].into() };
            let mut out = Vec::new();
            request.put(&mut out);
            assert_eq!(Request::read(&out[4..]), Some(request));
        }
        let unknown = [200, 7, 0, 0, 0, 0, 0, 0, 0, 1];
        assert_eq!((Request::read(&unknown), Reply::wrong(&unknown)), (None, Reply::bare(WRONG, 7)));
        assert_eq!(Reply::wrong(b"x"), Reply::bare(WRONG, 0));
    }
}
