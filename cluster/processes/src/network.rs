//! What is on its way between nodes.

use crate::cluster::{COORDINATOR, OUTSIDE};
use crate::dice::Dice;
use sevunthi::{Address, Envelope};

/// Of how many of the first messages one is delivered next.
const NEAR: usize = 6;

/// Messages on their way, each to a place and in its bytes.
#[derive(Default)]
pub struct Network {
    flying: Vec<(usize, Vec<u8>)>,
}

impl Network {
    /// How many messages are on their way.
    pub fn len(&self) -> usize {
        self.flying.len()
    }

    /// A message sets out, to the place of the node that it names.
    pub fn send(&mut self, message: &[u8]) {
        if let Some(envelope) = Envelope::read(message) {
            self.flying.push((place_of(envelope.to), message.to_vec()));
        }
    }

    /// One of the first that are on their way; it no longer is.
    pub fn take(&mut self, dice: &mut Dice) -> Option<(usize, Vec<u8>)> {
        let at = dice.below(self.flying.len().min(NEAR));
        (at < self.flying.len()).then(|| self.flying.remove(at))
    }

    /// These bytes are on their way once more.
    pub fn repeat(&mut self, place: usize, message: &[u8]) {
        self.flying.push((place, message.to_vec()));
    }
}

/// Where a message is brought that is sent to this address.
fn place_of(address: Address) -> usize {
    match address {
        Address::Server(id) => usize::from(id.index),
        Address::Coordinator => COORDINATOR,
        Address::Outside => OUTSIDE,
    }
}
