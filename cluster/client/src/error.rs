//! What has become of a request that was not done, or of which nobody knows.

use crate::hello::{NotLetIn, Refused};
use crate::refusal::Refusal;
use std::fmt::{self, Display, Formatter};

/// What stands at a key.
#[derive(Clone, Debug, Default, PartialEq, Eq)]
pub struct Found {
    /// The version of its newest write, a put or a delete; 0 where there was none.
    pub version: u64,
    /// The value, if there is one.
    pub value: Option<Vec<u8>>,
}

/// Why a request was not done, or that nobody knows. All but `Unknown` say that it was not done.
#[derive(Clone, Debug, PartialEq, Eq)]
pub enum Error {
    /// Nobody knows: a write may have been done, or may still be done, at most once. A read has no answer.
    Unknown,
    /// It was refused.
    Refused(Refusal),
    /// The condition of a conditional write did not hold: this is there, confirmed as by a read.
    Mismatch(Found),
    /// Nobody was asked.
    Unasked(Missing),
    /// The coordinator has not taken this client for who operates the cluster.
    NotLetIn(NotLetIn),
}

/// Why nobody was asked. What can be known is asked for before what is wanted: else a wrong port would look like a
/// refusal, after ten seconds.
#[derive(Clone, Copy, Debug, PartialEq, Eq)]
pub enum Missing {
    /// Nobody listens: neither the coordinator nor a host.
    Cluster,
    /// The coordinator does not answer.
    Coordinator,
    /// Coordinators answer, and none of them leads.
    Leader,
    /// Who answers in its place is none.
    NoCoordinator,
    /// It has another place.
    Elsewhere(u8),
    /// Who answers in the place of the host that owns the key is none.
    NoHost(u8),
    /// There is no such table.
    Table,
    /// The owner has crashed, and nobody owns the key since.
    Owner,
    /// The host that owns the key does not answer.
    Host(u8),
    /// Who has this place does not let this client in, or is not believed.
    NotLetIn(u8, NotLetIn),
}

impl Missing {
    /// Whether it is of no use to wait.
    pub fn stays(self) -> bool {
        match self {
            Missing::Cluster
            | Missing::NoCoordinator
            | Missing::Elsewhere(_)
            | Missing::NoHost(_)
            | Missing::Table
            | Missing::NotLetIn(..) => true,
            Missing::Coordinator | Missing::Leader | Missing::Owner | Missing::Host(_) => false,
        }
    }
}

/// When an answer was lost: before the request was sent, or after.
#[derive(Clone, Copy, Debug, PartialEq, Eq)]
pub enum Lost {
    /// It was not sent.
    Before,
    /// It was sent.
    After,
    /// It was not sent: the other side does not let this one in, or is not believed.
    NotLetIn(NotLetIn),
}

impl Lost {
    /// What came of connecting.
    pub(crate) fn of(refused: &Refused) -> Lost {
        match refused {
            Refused::Broken(_) => Lost::Before,
            Refused::NotLetIn(why) => Lost::NotLetIn(*why),
        }
    }
}

impl Display for Missing {
    fn fmt(&self, out: &mut Formatter<'_>) -> fmt::Result {
        match self {
            Missing::Cluster => write!(out, "neither the coordinator nor a host listens"),
            Missing::Coordinator => write!(out, "the coordinator does not answer"),
            Missing::Leader => write!(out, "no coordinator leads just now"),
            Missing::NoCoordinator => write!(out, "who answers in the coordinator's place is none"),
            Missing::Elsewhere(place) => write!(out, "the coordinator is at place {place}: there are so many hosts"),
            Missing::NoHost(index) => write!(out, "who answers in the place of host {index} is another"),
            Missing::Table => write!(out, "there is no such table"),
            Missing::Owner => write!(out, "who owns the key has crashed, and nobody owns it since"),
            Missing::Host(index) => write!(out, "host {index}, which owns the key, does not answer"),
            Missing::NotLetIn(place, why) => write!(out, "who has place {place} has not let this client in: {why}"),
        }
    }
}

impl Display for Error {
    fn fmt(&self, out: &mut Formatter<'_>) -> fmt::Result {
        match self {
            Error::Unknown => write!(out, "unknown: it may have been done, or may still be done"),
            Error::Refused(refusal) => write!(out, "refused: {refusal}"),
            Error::Mismatch(Found { version, value: Some(_) }) => write!(out, "not done: version {version} is there"),
            Error::Mismatch(Found { version, value: None }) => {
                write!(out, "not done: version {version} is there, without a value")
            }
            Error::Unasked(missing) => write!(out, "nobody was asked: {missing}"),
            Error::NotLetIn(why) => write!(out, "not let in: {why}"),
        }
    }
}

impl std::error::Error for Error {}
