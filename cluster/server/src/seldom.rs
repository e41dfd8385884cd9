//! Lines of the log about what may happen often.

use crate::core::tell;
use std::collections::HashMap;
use std::fmt::Display;
use std::net::IpAddr;
use std::sync::Mutex;
use std::time::{Duration, Instant};

/// Of each kind of line one in so long a time is written: who has another secret is told so within five seconds.
const BETWEEN: Duration = Duration::from_secs(4);

/// Lines of so many kinds, and addresses, are told apart.
const MOST: usize = 256;

/// What a line is about: its kind, and who it is about, where it is about somebody.
type About = (&'static str, Option<IpAddr>);

/// Writes lines, of each kind at most one in four seconds.
#[derive(Default)]
pub struct Seldom {
    /// When a line was written last, and how many were left out since.
    last: Mutex<HashMap<About, (Instant, u64)>>,
}

impl Seldom {
    /// Writes a line of this kind, unless one was written lately.
    pub fn tell(&self, kind: &'static str, what: impl Display) {
        self.tell_of(kind, None, what);
    }

    /// The same of whoever is at this address.
    pub fn tell_of(&self, kind: &'static str, who: Option<IpAddr>, what: impl Display) {
        match self.left_out((kind, who), Instant::now()) {
            Some(0) => tell(what),
            Some(count) => tell(format_args!("{what} ({count} like this were left out)")),
            None => {}
        }
    }

    /// How many lines of this kind were left out before the one that is to be written now; none where it is left out.
    fn left_out(&self, (kind, who): About, now: Instant) -> Option<u64> {
        let mut last = self.last.lock().ok()?;
        if MOST <= last.len() {
            last.retain(|_, (at, _)| now - *at < BETWEEN);
        }
        let about = (kind, who.filter(|_| last.len() < MOST));
        match last.get_mut(&about) {
            Some((at, count)) if now - *at < BETWEEN => {
                *count += 1;
                None
            }
            Some(_) | None => Some(last.insert(about, (now, 0)).map_or(0, |(_, count)| count)),
        }
    }
}

#[cfg(test)]
mod tests {
    use super::*;

    #[test]
    fn one_line_of_a_kind_in_a_time() {
        let (seldom, began) = (Seldom::default(), Instant::now());
        let left_out = |kind, now| seldom.left_out((kind, None), now);
        assert_eq!(left_out("a", began), Some(0));
        assert_eq!(left_out("a", began), None);
        assert_eq!(left_out("b", began), Some(0));
        assert_eq!(left_out("a", began + BETWEEN / 2), None);
        assert_eq!(left_out("a", began + BETWEEN), Some(2));
        assert_eq!(left_out("a", began + BETWEEN), None);
    }

    #[test]
    fn who_it_is_about_is_told_apart_as_far_as_there_is_room() {
        let (seldom, began) = (Seldom::default(), Instant::now());
        let told = |number: u32| seldom.left_out(("a", Some(IpAddr::V4(number.into()))), began);
        assert_eq!([told(1), told(2), told(1)], [Some(0), Some(0), None]);
        assert_eq!((3..100_000).filter_map(told).count(), MOST - 1);
        assert!(seldom.last.lock().is_ok_and(|last| last.len() <= MOST + 1));
    }
}
