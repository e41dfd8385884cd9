//! What came of a run.

use crate::cluster::Cluster;
use sevunthi::message::{kind, u32_at};
use sevunthi::{Answer, Envelope};
use std::collections::BTreeSet;
use std::fmt;

/// What has happened, as whoever looks on counts it.
#[derive(Clone, Copy, Default)]
pub struct Counts {
    pub works: u64,
    pub delivered: u64,
    pub lost: u64,
    pub repeated: u64,
    pub saves: u64,
    pub kills: u64,
    pub power_cuts: u64,
    pub unsynced: u64,
    pub forgotten: u64,
    pub damaged: u64,
}

/// What became of the table in the end.
#[derive(Clone, Copy, PartialEq, Eq)]
pub enum Ending {
    /// All keys were read.
    Served,
    /// The coordinator refuses to recover it, for the reason with this number.
    Refused(u8),
    /// Neither.
    Stuck,
}

/// What came of a seed.
pub struct Outcome {
    seed: u64,
    counts: Counts,
    messages: usize,
    acknowledged: usize,
    recoveries: usize,
    journals: usize,
    ending: Ending,
    has_lost: bool,
    is_clean: bool,
}

impl Outcome {
    /// That of a cluster which has come to rest, and whose messages were audited.
    pub fn of(seed: u64, cluster: &Cluster, is_clean: bool) -> Outcome {
        let sent = || cluster.sent.iter().filter_map(|message| Envelope::read(message));
        Outcome {
            seed,
            counts: cluster.counts,
            messages: cluster.sent.len(),
            acknowledged: sent().filter(|it| matches!(it.answer(), Some(Answer::Written { .. }))).count(),
            recoveries: sent().filter_map(recovered).collect::<BTreeSet<u32>>().len(),
            journals: cluster.journals(),
            ending: match (cluster.client.is_served(), cluster.client.refused()) {
                (true, _) => Ending::Served,
                (false, Some(code)) => Ending::Refused(code),
                (false, None) => Ending::Stuck,
            },
            has_lost: cluster.client.has_lost(),
            is_clean,
        }
    }

    /// Whether nothing was wrong: the audit has found no breach, no read in the end missed what was acknowledged, no
    /// node had forgotten what it told when it came back, no journal had other bytes than its process meant, and the
    /// table was served, or refused for a reason.
    pub fn is_right(&self) -> bool {
        let knows_all = self.counts.forgotten == 0 && self.counts.damaged == 0;
        self.is_clean && !self.has_lost && knows_all && self.ending != Ending::Stuck
    }
}

/// The term of a grant that ends a recovery.
fn recovered(message: Envelope) -> Option<u32> {
    let is_of_attempt = message.kind == kind::OWN && u32_at(message.body, 28)? > 0;
    if is_of_attempt { u32_at(message.body, 20) } else { None }
}

impl fmt::Display for Outcome {
    fn fmt(&self, f: &mut fmt::Formatter<'_>) -> fmt::Result {
        let Outcome { seed, counts, messages, acknowledged, recoveries, journals, .. } = self;
        write!(f, "seed {seed} works {} messages {messages} delivered {}", counts.works, counts.delivered)?;
        write!(f, " lost {} repeated {} kills {}", counts.lost, counts.repeated, counts.kills)?;
        write!(f, " power-cuts {} unsynced-bytes {}", counts.power_cuts, counts.unsynced)?;
        write!(f, " saves {} journal-bytes {journals}", counts.saves)?;
        write!(f, " acknowledged {acknowledged} recoveries {recoveries}")?;
        match self.ending {
            Ending::Served => write!(f, " served")?,
            Ending::Refused(code) => write!(f, " refused F{code}")?,
            Ending::Stuck => write!(f, " stuck")?,
        }
        if counts.forgotten > 0 {
            write!(f, " forgotten {}", counts.forgotten)?;
        }
        if counts.damaged > 0 {
            write!(f, " damaged {}", counts.damaged)?;
        }
        write!(
            f,
            "{} audit {}",
            if self.has_lost { " lost" } else { "" },
            if self.is_clean { "clean" } else { "breach" }
        )
    }
}

/// What came of all seeds.
#[derive(Default)]
pub struct Totals {
    seeds: u64,
    recovered: u64,
    served: u64,
    refused: u64,
    right: u64,
}

impl Totals {
    /// One seed more.
    pub fn add(&mut self, outcome: &Outcome) {
        self.seeds += 1;
        self.recovered += u64::from(outcome.recoveries > 0);
        self.served += u64::from(outcome.ending == Ending::Served);
        self.refused += u64::from(matches!(outcome.ending, Ending::Refused(_)));
        self.right += u64::from(outcome.is_right());
    }

    /// Whether nothing was wrong in any.
    pub fn are_right(&self) -> bool {
        self.right == self.seeds
    }
}

impl fmt::Display for Totals {
    fn fmt(&self, f: &mut fmt::Formatter<'_>) -> fmt::Result {
        let Totals { seeds, recovered, served, refused, right } = self;
        write!(f, "{seeds} seeds, with a recovery {recovered}, served {served}, refused {refused}, right {right}")
    }
}
