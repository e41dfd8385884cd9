//! Whom a coordinator suspects, and what is due.

use crate::cut_off::{CutOff, Sight};
use crate::hearing::Hearing;
use crate::listening::Listening;
use sevunthi::{Due, Id, Node};
use std::time::Duration;

/// Whom a coordinator suspects: the protocol has no heartbeat, so whoever runs it says who was silent. A wrong suspicion
/// costs a recovery and a restart, and loses nothing that was acknowledged. All times are those in which this process was
/// [awake](crate::awake::Awake).
pub struct Suspicion {
    /// Who was heard.
    pub listening: Listening,
    /// From when on silence counts.
    pub hearing: Hearing,
    /// Who waits for whom.
    pub cut_off: CutOff,
    /// Hosts that leave, or have left: none of their servers enlists any more.
    pub going: Vec<u8>,
    factor: usize,
    silence: Duration,
    left_out: Vec<u8>,
}

impl Suspicion {
    /// At a coordinator of so many hosts, of which so many have to be heard before it acts. A segment has `factor`
    /// replicas, and who has said nothing for `silence` is suspected.
    pub fn new(hosts: usize, needed: usize, factor: usize, silence: Duration) -> Suspicion {
        Suspicion {
            listening: Listening::default(),
            hearing: Hearing::new(hosts, needed),
            cut_off: CutOff::default(),
            going: Vec::new(),
            factor,
            silence,
            left_out: Vec::new(),
        }
    }

    /// What is seen of the servers now.
    pub fn sight(&self, node: &mut Node, now: Duration) -> Sight {
        let tablets = node.tablets().unwrap_or_default();
        let servers = node.servers().unwrap_or_default();
        let heard = self.listening.all().map(|(id, at)| (id, now.saturating_sub(at)));
        Sight {
            up: servers.into_iter().filter(|(_, is_up)| *is_up).map(|(id, _)| id).collect(),
            heard: heard.filter(|(_, ago)| *ago < self.silence).collect(),
            owners: tablets.iter().map(|tablet| tablet.owner).collect(),
            is_recovering: tablets.iter().any(|tablet| tablet.crashed),
            factor: self.factor,
            silence: self.silence,
            now,
        }
    }

    /// A server is silent when nothing has come from it for the time that one waits, or for a quarter of that where its
    /// connection has ended too: a host that lives connects again with its next heartbeat. Where nobody at all is
    /// heard, nobody is silent.
    fn is_silent(&self, id: &Id, now: Duration) -> bool {
        let most = if self.listening.is_gone(id) { self.silence / 4 } else { self.silence };
        most <= self.hearing.silence(self.listening.last(id), now)
    }

    /// What is due now: give the coordinator's node each Suspect and Decide, and have who is to restart begin anew. After
    /// that [`look`](Suspicion::look) is due.
    pub fn dues(&mut self, node: &mut Node, now: Duration) -> Vec<Due> {
        let sight = self.sight(node, now);
        if sight.heard.is_empty() {
            self.hearing.hears_nobody(now);
        }
        let mut silent: Vec<Id> = sight.up.iter().filter(|id| self.is_silent(id, now)).copied().collect();
        silent.extend(self.cut_off.suspects(&sight, &silent));
        silent.extend(self.leaver(&sight).filter(|_| silent.is_empty()));
        let heard: Vec<Id> = sight.heard.iter().map(|(id, _)| *id).collect();
        node.dues(&heard, &silent, &[]).unwrap_or_default()
    }

    /// The server of a host that leaves, which is suspected when that costs nothing but a recovery: nothing is being
    /// recovered just now, and those that stay are enough for a segment.
    fn leaver(&self, sight: &Sight) -> Option<Id> {
        let is_going = |id: &Id| self.going.contains(&id.index);
        let stays = sight.heard.iter().filter(|(id, _)| sight.up.contains(id) && !is_going(id)).count();
        let costs_nothing = !sight.is_recovering && sight.factor < stays;
        sight.up.iter().copied().find(|id| costs_nothing && is_going(id))
    }

    /// Sees who is left out from now on.
    pub fn look(&mut self, node: &mut Node, now: Duration) {
        let sight = self.sight(node, now);
        self.left_out = self.cut_off.left_out(&sight);
    }

    /// Whether the servers of this host can't enlist for now, since they would be waited for again, or it leaves. Their
    /// Enlists are not delivered.
    pub fn is_left_out(&self, index: u8) -> bool {
        self.left_out.contains(&index) || self.going.contains(&index)
    }

    /// How many hosts are left out.
    pub fn count_left_out(&self) -> usize {
        self.left_out.len() + self.going.len()
    }
}
