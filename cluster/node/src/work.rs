//! What a node can be given beside messages.

use crate::message::Id;

/// What a node can be given beside messages.
#[derive(Clone, Copy, Debug, PartialEq, Eq)]
pub enum Work {
    /// The timer of the coordinator, or of the server that runs on the host.
    Tick,
    /// The server that runs on the host stops.
    Stop,
    /// The host's server is started, and its open replicas are gone. [`Node::start`](crate::Node::start) keeps them.
    StartWithoutOpen,
    /// To the coordinator: this server is believed dead.
    Suspect(Id),
    /// To the coordinator: decide the recovery of this server.
    Decide(Id),
    /// To the coordinator: create this table for this owner.
    Create {
        /// The table, which must be new.
        table: u32,
        /// The server that gets it.
        owner: Id,
    },
    /// To the coordinator: split the tablet of this table that holds this key before it.
    Split {
        /// The table.
        table: u32,
        /// The first key of the upper part.
        at: u64,
    },
}

impl Work {
    /// Its bytes.
    pub fn code(self) -> Vec<u8> {
        let mut code = vec![1];
        match self {
            Work::Tick => code.push(2),
            Work::Stop => code.push(3),
            Work::StartWithoutOpen => {
                code.push(4);
                code.extend_from_slice(&0u64.to_le_bytes());
            }
            Work::Suspect(id) => put_id(5, id, &mut code),
            Work::Decide(id) => put_id(6, id, &mut code),
            Work::Create { table, owner } => {
                code.push(7);
                code.extend_from_slice(&table.to_le_bytes());
                code.extend_from_slice(&owner.code());
            }
            Work::Split { table, at } => {
                code.push(8);
                code.extend_from_slice(&table.to_le_bytes());
                code.extend_from_slice(&at.to_le_bytes());
            }
        }
        code
    }
}

fn put_id(kind: u8, id: Id, code: &mut Vec<u8>) {
    code.push(kind);
    code.extend_from_slice(&id.code());
}

/// What is due at the coordinator.
#[derive(Clone, Copy, Debug, PartialEq, Eq)]
pub enum Due {
    /// Give the coordinator this Suspect.
    Suspect(Id),
    /// Give the coordinator this Decide.
    Decide(Id),
    /// Have this server's host begun anew.
    Restart(Id),
}

impl Due {
    pub(crate) fn read(code: &[u8]) -> Option<Due> {
        let id = Id::read(code.get(2..)?)?;
        match code[1] {
            5 => Some(Due::Suspect(id)),
            6 => Some(Due::Decide(id)),
            3 => Some(Due::Restart(id)),
            _ => None,
        }
    }
}
