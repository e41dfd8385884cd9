//! Whom a host waits for.

use sevunthi::Id;
use std::time::Duration;

/// Servers that were asked for something that they have to answer: to store or close a replica, or to send entries; and
/// that have answered nothing since. All times are those of the host's own [`Awake`](crate::awake::Awake).
#[derive(Debug, Default)]
pub struct Waits {
    /// Each with since when it is waited for, and when it was asked last. They are few.
    asked: Vec<(Id, Duration, Duration)>,
}

impl Waits {
    /// This server was asked for something.
    pub fn asked(&mut self, to: Id, now: Duration) {
        match self.asked.iter_mut().find(|(id, ..)| *id == to) {
            Some((.., last)) => *last = now,
            None => self.asked.push((to, now, now)),
        }
    }

    /// This server has answered.
    pub fn answered(&mut self, from: Id) {
        self.asked.retain(|(id, ..)| *id != from);
    }

    /// Those that were waited for at least so long, with for how long. What is waited for is asked again with each
    /// timer: who was asked nothing for so long an idle time is not waited for any more.
    pub fn longer_than(&mut self, least: Duration, idle: Duration, now: Duration) -> Vec<(Id, Duration)> {
        self.asked.retain(|(.., last)| now - *last < idle);
        let waits = self.asked.iter().map(|(id, since, _)| (*id, now - *since));
        waits.filter(|(_, wait)| least <= *wait).collect()
    }

    /// The server begins anew, and waits for nobody.
    pub fn clear(&mut self) {
        self.asked.clear();
    }
}

#[cfg(test)]
mod tests {
    use super::*;

    #[test]
    fn who_answers_nothing_is_waited_for() {
        let at = Duration::from_millis;
        let [one, other, third] = [1, 2, 3].map(|index| Id { index, generation: 1 });
        let mut waits = Waits::default();
        for time in (0..=1000).step_by(200) {
            [one, other].into_iter().for_each(|id| waits.asked(id, at(time)));
            if time <= 400 {
                waits.asked(third, at(time));
            }
            if time == 600 {
                waits.answered(other);
            }
        }
        assert_eq!(waits.longer_than(at(1000), at(500), at(1000)), [(one, at(1000))]);
        assert_eq!(waits.longer_than(at(1000), at(500), at(1600)), []);
    }
}
