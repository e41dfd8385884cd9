//! Time in which a process ran.

use std::time::{Duration, Instant};

/// A turn of a process's loop that takes longer than this was a standstill: the process was stopped, or had no
/// processor.
const LONGEST_TURN: Duration = Duration::from_millis(200);

/// The time in which a process ran. While it stood still it heard nobody, so that time does not count as the silence of
/// others.
#[derive(Debug)]
pub struct Awake {
    last: Instant,
    before: Duration,
}

impl Default for Awake {
    /// It begins now.
    fn default() -> Awake {
        Awake { last: Instant::now(), before: Duration::ZERO }
    }
}

impl Awake {
    /// A turn of the loop has ended.
    pub fn turn(&mut self) {
        self.turn_of(self.last.elapsed());
        self.last = Instant::now();
    }

    fn turn_of(&mut self, turn: Duration) {
        self.before += turn.min(LONGEST_TURN);
    }

    /// How long it has run, up to the end of the last turn.
    pub fn now(&self) -> Duration {
        self.before
    }
}

#[cfg(test)]
mod tests {
    use super::*;

    #[test]
    fn a_standstill_counts_as_one_turn() {
        let mut awake = Awake::default();
        awake.turn_of(Duration::from_millis(20));
        awake.turn_of(Duration::from_secs(5));
        assert_eq!(awake.now(), Duration::from_millis(220));
    }
}
