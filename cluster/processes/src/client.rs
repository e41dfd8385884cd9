//! What the outside asks for, and whom; and what it was told.

use crate::dice::Dice;
use sevunthi::{Address, Answer, Envelope, Id, message};
use std::collections::BTreeMap;

/// The table that is written to.
pub const TABLE: u32 = 1;

/// How many keys are written, those below.
pub const KEYS: u64 = 4;

/// Whoever writes and reads. It asks the server that has answered last, and another one where that one has refused. It
/// knows of each key the greatest version that any server has acknowledged, and what the last reads have shown; and
/// what the coordinator has refused last.
#[derive(Default)]
pub struct Client {
    owner: Option<Id>,
    writes: u64,
    told: BTreeMap<u64, u64>,
    shown: BTreeMap<u64, u64>,
    refused: Option<u8>,
}

impl Client {
    /// The server that is asked next, or the one that is drawn.
    pub fn asked(&self, drawn: Id) -> Id {
        self.owner.unwrap_or(drawn)
    }

    /// A write of one of the keys, with a number of the client's own; now and then a deletion.
    pub fn write(&mut self, to: Id, dice: &mut Dice) -> Vec<u8> {
        self.writes += 1;
        let key = dice.below(KEYS as usize) as u64;
        let value = self.writes.to_le_bytes();
        let mut asked = Vec::new();
        message::write(to, TABLE, key, (!dice.once_in(16)).then_some(&value[..]), &mut asked);
        asked
    }

    /// A server has acknowledged a write of a key.
    pub fn note_told(&mut self, key: u64, version: u64) {
        note(&mut self.told, key, version);
    }

    /// An answer has come.
    pub fn notice(&mut self, envelope: &Envelope) {
        match (envelope.answer(), envelope.from) {
            (Some(Answer::Written { .. }), Address::Server(id)) => self.owner = Some(id),
            (Some(Answer::Read { key, version, .. }), Address::Server(id)) => {
                self.owner = Some(id);
                note(&mut self.shown, key, version);
            }
            (Some(Answer::Refused(_)), Address::Server(id)) if self.owner == Some(id) => self.owner = None,
            (Some(Answer::Refused(code)), Address::Coordinator) => self.refused = Some(code),
            _ => {}
        }
    }

    /// What reads have shown, and what the coordinator has refused, is forgotten.
    pub fn forget(&mut self) {
        self.shown.clear();
        self.refused = None;
    }

    /// Why the coordinator has refused something last, by the number behind the F.
    pub fn refused(&self) -> Option<u8> {
        self.refused
    }

    /// Whether every key was read since.
    pub fn is_served(&self) -> bool {
        self.shown.len() as u64 == KEYS
    }

    /// Whether a key was read since that did not show what was acknowledged.
    pub fn has_lost(&self) -> bool {
        self.shown.iter().any(|(key, shown)| self.told.get(key).is_some_and(|told| told > shown))
    }
}

/// A read of this key.
pub fn read_of(to: Id, key: u64) -> Vec<u8> {
    let mut asked = Vec::new();
    message::read(to, TABLE, key, &mut asked);
    asked
}

/// The greatest version of a key is noted.
fn note(versions: &mut BTreeMap<u64, u64>, key: u64, version: u64) {
    let greatest = versions.entry(key).or_default();
    *greatest = version.max(*greatest);
}
