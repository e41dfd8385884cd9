//! Answers of a backup that a later one makes needless. A Stored says how many entries of a segment the backup has: of
//! those that would leave together for one owner, about one segment under one epoch, the last says all that the others
//! say. Those are not sent, as any message may be lost.

use sevunthi::message::Stored;
use std::collections::HashMap;

/// How many entries a backup has, and whether it has closed the replica.
type Told = (u64, bool);

/// How much the later answers about each subject say. Most messages are about what the one behind them is about.
#[derive(Default)]
struct Later<'a> {
    last: Option<(&'a [u8], Told)>,
    others: HashMap<&'a [u8], Told>,
}

impl<'a> Later<'a> {
    /// Whether later answers say all that this one says. If not, it is one of them from now on.
    fn covers(&mut self, Stored { subject, length, is_closed }: Stored<'a>) -> bool {
        let told = match self.last {
            Some((last, told)) if last == subject => Some(told),
            _ => self.others.get(subject).copied(),
        };
        let (most, closed) = told.unwrap_or_default();
        let now = (length.max(most), is_closed || closed);
        if let Some((last, told)) = self.last.replace((subject, now))
            && last != subject
        {
            self.others.insert(last, told);
        }
        told == Some(now)
    }
}

/// These messages, in order, without the Storeds that a later one covers.
pub fn without_superseded<'a>(messages: impl Iterator<Item = &'a [u8]>) -> Vec<&'a [u8]> {
    let mut later = Later::default();
    let mut kept: Vec<&[u8]> = messages.collect();
    kept.reverse();
    kept.retain(|message| Stored::read(message).is_none_or(|stored| !later.covers(stored)));
    kept.reverse();
    kept
}

#[cfg(test)]
mod tests {
    use super::*;
    use sevunthi::message::kind;

    fn stored(owner: u8, segment: u16, epoch: u16, length: u64, is_closed: bool) -> Vec<u8> {
        let mut message = vec![1, 1, 2, 7, 0, 0, 0, 1, owner, 7, 0, 0, 0, kind::STORED];
        message.extend_from_slice(&segment.to_le_bytes());
        message.extend_from_slice(&epoch.to_le_bytes());
        message.extend_from_slice(&length.to_le_bytes());
        message.push(u8::from(is_closed));
        message
    }

    #[test]
    fn only_what_a_later_answer_says_too_is_left_out() {
        let messages = [
            stored(0, 1, 0, 5, false),
            stored(0, 1, 0, 6, false),
            stored(1, 1, 0, 4, false),
            b"something else".to_vec(),
            stored(0, 1, 1, 7, false),
            stored(0, 1, 0, 7, true),
            stored(0, 1, 0, 7, false),
            stored(0, 2, 0, 0, false),
        ];
        let kept = without_superseded(messages.iter().map(Vec::as_slice));
        let expected: Vec<&[u8]> = [2, 3, 4, 5, 6, 7].map(|at| messages[at].as_slice()).to_vec();
        assert_eq!(kept, expected);
    }
}
