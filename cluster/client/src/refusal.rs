//! Refusals: each with its code, its name, what it says, and what to do about it.

use crate::protocol::{
    DONE, IN_CLEAR, MISMATCH, MISMATCH_NO_VALUE, NO_ROOM, NO_VALUE, NOT_ALLOWED, NOT_LEADING, UNKNOWN, WRONG,
};
use std::fmt::{self, Display, Formatter};

/// The host does not own the key.
pub const NOT_OWNER: u8 = 2;
/// No server may be asked: none is up, or the one that is named is not.
pub const NOT_READY: u8 = 11;
/// There is no such table.
pub const NO_TABLE: u8 = 13;
/// Who owns the key has crashed.
pub const RECOVERING: u8 = 16;

/// Why a request was refused. It was not done.
#[derive(Clone, Copy, Debug, PartialEq, Eq, Hash)]
pub enum Refusal {
    /// F1: memory was refused.
    OutOfMemory,
    /// F2: the host does not own the key.
    NotOwner,
    /// F3: the host begins a new segment.
    Rolling,
    /// F4: too few hosts are up.
    NoBackups,
    /// F5: the host was replaced.
    Deposed,
    /// F6: the host's log is full.
    LogFull,
    /// F7: the value is too long.
    ValueTooLong,
    /// F11: no host is ready.
    NotReady,
    /// F12: the table is there.
    TableExists,
    /// F13: there is no such table.
    NoTable,
    /// F14: the table has a border there.
    BadSplit,
    /// F15: there are as many tablets as there may be.
    TooManyTablets,
    /// F16: who owns the key has crashed.
    Recovering,
    /// 102: the request is none, or is for another kind of process.
    Wrong,
    /// 103: too few hosts have room on their disks.
    NoRoom,
    /// 104: only who operates the cluster may ask for that.
    NotAllowed,
    /// 107: another coordinator leads, or none does just now.
    NotLeading,
    /// 108: clients have to prove that they have the secret.
    InClear,
    /// A code that this client does not know.
    Other(u8),
}

/// A refusal with its code, its name, what it says, and what to do.
type Row = (Refusal, u8, &'static str, &'static str, &'static str);

const ROWS: [Row; 18] = [
    (Refusal::OutOfMemory, 1, "OutOfMemory", "memory was refused", "give the host's machine more memory"),
    (Refusal::NotOwner, 2, "NotOwner", "no range granted to the host holds the key", OWNER),
    (Refusal::Rolling, 3, "Rolling", "the host is not writing, or begins a new segment", SOON),
    (Refusal::NoBackups, 4, "NoBackups", "too few hosts are up for the factor", "start the hosts that are down"),
    (Refusal::Deposed, 5, "Deposed", "the host was replaced", OWNER),
    (Refusal::LogFull, 6, "LogFull", "the last segment is full", SOON),
    (Refusal::ValueTooLong, 7, "ValueTooLong", "the value has more than 1,024 bytes", "keep it in pieces"),
    (Refusal::NotReady, 11, "NotReady", "the owner is not up and ready, or no host is", SOON),
    (Refusal::TableExists, 12, "TableExists", "the table is there", "use it, or take another number"),
    (Refusal::NoTable, 13, "NoTable", "there is no such table", "make it: `create`"),
    (Refusal::BadSplit, 14, "BadSplit", "the key is the first of its tablet", "nothing: the table is split there"),
    (Refusal::TooManyTablets, 15, "TooManyTablets", "1,024 tablets stand", "keep more in each table"),
    (Refusal::Recovering, 16, "Recovering", "the tablet's owner has crashed", SOON),
    (Refusal::Wrong, WRONG, "Wrong", "the request is none", "look at the addresses, and at the versions of both"),
    (Refusal::NoRoom, NO_ROOM, "NoRoom", "too few hosts have room on their disks", "make room, or add hosts"),
    (Refusal::NotAllowed, NOT_ALLOWED, "NotAllowed", "only who has the operator's secret may ask for that", SECRET),
    (Refusal::NotLeading, NOT_LEADING, "NotLeading", "no coordinator leads just now", SOON),
    (Refusal::InClear, IN_CLEAR, "InClear", "a proof of the secret is wanted, and none was given", CLIENTS),
];

const SOON: &str = "ask again soon: it passes";
const OWNER: &str = "ask the coordinator who owns the key now, and then that host";
const SECRET: &str = "give the client the file `operator` of the cluster";
const CLIENTS: &str =
    "give the client the file `client-secret` of the cluster; one without security has to be on its machine";

impl Refusal {
    /// The refusal of this code. [`Refusal::Other`] has all that are not known here.
    pub fn of(code: u8) -> Refusal {
        ROWS.iter().find(|row| row.1 == code).map_or(Refusal::Other(code), |row| row.0)
    }

    fn row(self) -> Option<&'static Row> {
        ROWS.iter().find(|row| row.0 == self)
    }

    /// Its code in an answer.
    pub fn code(self) -> u8 {
        match self {
            Refusal::Other(code) => code,
            known => known.row().map_or(0, |row| row.1),
        }
    }

    /// Its name.
    pub fn name(self) -> &'static str {
        self.row().map_or("Other", |row| row.2)
    }

    /// What it says.
    pub fn reason(self) -> &'static str {
        self.row().map_or("a refusal that this client does not know", |row| row.3)
    }

    /// What to do about it.
    pub fn advice(self) -> &'static str {
        self.row().map_or("look at the versions of the client and of the cluster", |row| row.4)
    }

    /// Whether it passes by itself, or at another host: [`Client`](crate::Client) asks again after these.
    pub fn passes(self) -> bool {
        matches!(self, Refusal::NotOwner | Refusal::Rolling | Refusal::NoBackups | Refusal::Deposed)
    }
}

/// The code, as documents have it, and what it says.
impl Display for Refusal {
    fn fmt(&self, out: &mut Formatter<'_>) -> fmt::Result {
        match (self, self.code()) {
            (Refusal::Other(_), code) => write!(out, "F{code}"),
            (_, code @ 100..) => write!(out, "{} ({code})", self.reason()),
            (_, code) => write!(out, "F{code}: {}", self.reason()),
        }
    }
}

/// The code of an answer in a word, as metrics have it.
pub fn name(code: u8) -> String {
    match code {
        DONE => "done".to_string(),
        NO_VALUE => "no_value".to_string(),
        UNKNOWN => "unknown".to_string(),
        WRONG => "wrong".to_string(),
        NO_ROOM => "no_room".to_string(),
        NOT_ALLOWED => "not_allowed".to_string(),
        NOT_LEADING => "not_leading".to_string(),
        IN_CLEAR => "in_clear".to_string(),
        MISMATCH => "mismatch".to_string(),
        MISMATCH_NO_VALUE => "mismatch_no_value".to_string(),
        code => format!("F{code}"),
    }
}

#[cfg(test)]
mod tests {
    use super::*;

    #[test]
    fn each_code_has_its_refusal() {
        for (refusal, code, name, ..) in ROWS {
            assert_eq!((Refusal::of(code), refusal.code(), refusal.name()), (refusal, code, name));
        }
        assert_eq!(Refusal::of(1).to_string(), "F1: memory was refused");
        assert_eq!(Refusal::of(12).to_string(), "F12: the table is there");
        assert_eq!(Refusal::of(16).to_string(), "F16: the tablet's owner has crashed");
        assert_eq!(Refusal::of(WRONG).to_string(), "the request is none (102)");
        assert_eq!((Refusal::of(99), Refusal::Other(99).to_string()), (Refusal::Other(99), "F99".to_string()));
        assert_eq!([DONE, 3, WRONG].map(super::name), ["done", "F3", "wrong"]);
        assert!(Refusal::NotOwner.passes() && !Refusal::NoTable.passes());
        assert!(Refusal::NoTable.advice().contains("create"));
    }
}
