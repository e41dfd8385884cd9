//! From when on a coordinator acts, and from when on somebody's silence counts.
//!
//! A coordinator whose folder is an older copy would suspect who has begun anew since, and recover from it what is old.
//! So it does nothing before it has heard all hosts but as many as a segment has replicas. Whatever was acknowledged by
//! what it has forgotten, its master and as many others were told by a coordinator that knew more: one of these was
//! heard. A host whose folder was emptied has forgotten that, and is not counted.

use std::time::Duration;

/// What has come of listening.
#[derive(Clone, Copy, Debug, PartialEq, Eq)]
pub enum Verdict {
    /// Too few hosts were heard.
    Waits,
    /// The same, and it is time to say so.
    WaitsLong,
    /// Enough were heard just now.
    Begins,
    /// They were heard before.
    Acts,
    /// So many are of another cluster that enough of this one's never come.
    IsAnothers,
}

/// After so long it is said that too few were heard, and then again after ten times, 100 times ..
const LONG: Duration = Duration::from_secs(3);

/// Whom the coordinator has heard since it began. All times are those in which it was awake.
#[derive(Debug)]
pub struct Hearing {
    hosts: usize,
    needed: usize,
    acts: bool,
    /// Silence counts from then on.
    since: Duration,
    /// Who took over has listened since then.
    listened: Option<Duration>,
    next_said: Duration,
}

impl Hearing {
    /// Of so many hosts, of which so many have to be heard.
    pub fn new(hosts: usize, needed: usize) -> Hearing {
        let needed = needed.clamp(1, hosts.max(1));
        Hearing { hosts, needed, acts: false, since: Duration::ZERO, listened: None, next_said: LONG }
    }

    /// This process has listened since then, while another one led: who was silent meanwhile was.
    pub fn has_listened(&mut self, since: Option<Duration>) {
        self.listened = since;
    }

    /// How many have to be heard.
    pub fn needed(&self) -> usize {
        self.needed
    }

    /// Whether enough were heard.
    pub fn acts(&self) -> bool {
        self.acts
    }

    /// So many were heard that are of this cluster, and so many of another.
    pub fn hear(&mut self, good: usize, foreign: usize, now: Duration) -> Verdict {
        if self.acts {
            return Verdict::Acts;
        }
        if self.needed <= good {
            (self.acts, self.since) = (true, self.listened.unwrap_or(now));
            return Verdict::Begins;
        }
        if self.hosts < self.needed + foreign {
            return Verdict::IsAnothers;
        }
        if now < self.next_said {
            return Verdict::Waits;
        }
        self.next_said *= 10;
        Verdict::WaitsLong
    }

    /// Nobody at all is heard just now: who listens was cut off, and that is nobody's silence.
    pub fn hears_nobody(&mut self, now: Duration) {
        self.since = now;
    }

    /// How long somebody was silent who was heard last at this time.
    pub fn silence(&self, heard: Option<Duration>, now: Duration) -> Duration {
        now - heard.unwrap_or_default().max(self.since)
    }
}

#[cfg(test)]
mod tests {
    use super::*;

    const SECOND: Duration = Duration::from_secs(1);

    #[test]
    fn a_coordinator_acts_once_enough_were_heard() {
        let mut hearing = Hearing::new(4, 2);
        assert_eq!(hearing.hear(1, 0, SECOND), Verdict::Waits);
        assert_eq!(hearing.hear(1, 2, 4 * SECOND), Verdict::WaitsLong);
        assert_eq!(hearing.hear(1, 2, 5 * SECOND), Verdict::Waits);
        assert_eq!(hearing.hear(1, 2, 30 * SECOND), Verdict::WaitsLong);
        assert!(!hearing.acts());
        assert_eq!(hearing.hear(2, 2, 31 * SECOND), Verdict::Begins);
        assert_eq!(hearing.hear(0, 4, 32 * SECOND), Verdict::Acts);
        assert_eq!(Hearing::new(4, 2).hear(1, 3, SECOND), Verdict::IsAnothers);
        assert_eq!([0, 9].map(|needed| Hearing::new(3, needed).needed()), [1, 3]);
    }

    #[test]
    fn who_has_listened_knows_who_was_silent() {
        let mut hearing = Hearing::new(4, 2);
        hearing.has_listened(Some(3 * SECOND));
        assert_eq!(hearing.hear(3, 0, 9 * SECOND), Verdict::Begins);
        assert_eq!(hearing.silence(Some(5 * SECOND), 9 * SECOND), 4 * SECOND);
        assert_eq!(hearing.silence(None, 9 * SECOND), 6 * SECOND);
    }

    #[test]
    fn silence_counts_while_somebody_is_heard() {
        let mut hearing = Hearing::new(4, 2);
        assert_eq!(hearing.hear(2, 0, 9 * SECOND), Verdict::Begins);
        assert_eq!(hearing.silence(None, 10 * SECOND), SECOND);
        assert_eq!(hearing.silence(Some(8 * SECOND), 10 * SECOND), SECOND);
        assert_eq!(hearing.silence(Some(10 * SECOND), 12 * SECOND), 2 * SECOND);
        hearing.hears_nobody(50 * SECOND);
        assert_eq!(hearing.silence(Some(10 * SECOND), 51 * SECOND), SECOND);
    }
}
