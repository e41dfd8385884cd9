//! Whom a coordinator has heard, also while it stands by: so that whoever takes over knows who was silent.

use sevunthi::Id;
use std::collections::{BTreeMap, HashMap, HashSet};
use std::time::Duration;

/// Who was heard. All times are those in which this process was awake.
#[derive(Debug, Default)]
pub struct Listening {
    /// Of each host the server that was heard last, and when.
    heard: BTreeMap<u8, (Id, Duration)>,
    /// Who was heard on the connection of this number.
    connections: HashMap<u64, Id>,
    /// Those whose connection has ended since they were heard last.
    gone: HashSet<Id>,
}

impl Listening {
    /// Something has come from this server on this connection. What comes late from an older one of its host says
    /// nothing.
    pub fn hear(&mut self, connection: u64, id: Id, now: Duration) {
        self.connections.insert(connection, id);
        let newest = self.heard.get(&id.index).map_or(0, |(other, _)| other.generation);
        if newest <= id.generation {
            self.heard.insert(id.index, (id, now));
            self.gone.retain(|other| other.index != id.index);
        }
    }

    /// A connection has ended.
    pub fn end(&mut self, connection: u64) {
        self.gone.extend(self.connections.remove(&connection));
    }

    /// Whether this server's connection has ended since it was heard last.
    pub fn is_gone(&self, id: &Id) -> bool {
        self.gone.contains(id)
    }

    /// When this server was heard last, if none of its host was heard later.
    pub fn last(&self, id: &Id) -> Option<Duration> {
        self.heard.get(&id.index).filter(|(other, _)| other == id).map(|(_, at)| *at)
    }

    /// Of each host the server that was heard last, and when.
    pub fn all(&self) -> impl Iterator<Item = (Id, Duration)> {
        self.heard.values().copied()
    }
}

#[cfg(test)]
mod tests {
    use super::*;

    #[test]
    fn the_newest_server_of_a_host_counts() {
        let [old, new, other] = [(1, 1), (1, 2), (2, 1)].map(|(index, generation)| Id { index, generation });
        let at = Duration::from_millis;
        let mut listening = Listening::default();
        listening.hear(7, new, at(10));
        listening.hear(8, old, at(20));
        listening.hear(9, other, at(30));
        assert_eq!([old, new, other].map(|id| listening.last(&id)), [None, Some(at(10)), Some(at(30))]);
        listening.end(7);
        assert_eq!([old, new, other].map(|id| listening.is_gone(&id)), [false, true, false]);
        listening.hear(10, new, at(40));
        assert!(!listening.is_gone(&new));
        assert_eq!(listening.all().collect::<Vec<_>>(), [(new, at(40)), (other, at(30))]);
    }
}
