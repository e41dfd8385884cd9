//! What a test has a process do wrong: it asks for it by `Op::Fail`, where the process was started with `--faults`.
//! That a disk is full, or nearly, says a file beside the journal, so that it outlives the process.

use crate::members::COORDINATORS;
use crate::wire::put_frame;
pub use sevunthi_runtime::failing::{BEFORE, FULL, Failing, NEARLY_FULL, SAFE_BEFORE};

/// What is to go wrong.
#[derive(Clone, Copy, Debug, PartialEq, Eq)]
pub enum Wrong {
    /// The next sync fails.
    Sync,
    /// A save begins, and the process ends in it after this step, as [`Journal::replace`](crate::journal::Journal) has
    /// them.
    EndInSave(u8),
    /// A save begins, and finds the disk full.
    FullInSave,
    /// Nothing is sent to the peers of this mask.
    Deaf(u64),
    /// Of a thousand frames so many are mangled.
    Mangle(u64),
    /// The clock of what is sent jumps so many nanoseconds ahead, or back.
    Jump(i64),
    /// What was to go wrong with the journal, and has not yet, is not to.
    Nothing,
    /// The disk stands still for so many milliseconds.
    DiskStands(u64),
}

impl Wrong {
    /// The numbers by which it is asked for.
    pub fn code(self) -> (u32, u64) {
        match self {
            Wrong::Sync => (0, 0),
            Wrong::EndInSave(step) => (1, u64::from(step)),
            Wrong::FullInSave => (2, 0),
            Wrong::Deaf(mask) => (3, mask),
            Wrong::Mangle(often) => (4, often),
            Wrong::Jump(nanoseconds) => (5, nanoseconds.cast_unsigned()),
            Wrong::Nothing => (6, 0),
            Wrong::DiskStands(milliseconds) => (7, milliseconds),
        }
    }

    /// What these numbers ask for.
    pub fn read(what: u32, how: u64) -> Option<Wrong> {
        Some(match what {
            0 => Wrong::Sync,
            1 => Wrong::EndInSave(u8::try_from(how).ok()?),
            2 => Wrong::FullInSave,
            3 => Wrong::Deaf(how),
            4 => Wrong::Mangle(how),
            5 => Wrong::Jump(how.cast_signed()),
            6 => Wrong::Nothing,
            7 => Wrong::DiskStands(how),
            _ => return None,
        })
    }
}

/// What goes wrong with the frames of a process.
#[derive(Clone, Copy, Debug, Default)]
pub struct Mangle {
    /// Peers, by bit, to whom nothing is sent.
    pub deaf: u64,
    /// Of a thousand frames so many are repeated, held back behind others, or damaged.
    pub often: u64,
    drawn: u64,
}

/// The bit of whoever has this place, where there are but few hosts: those behind them are the coordinators'.
pub fn bit(place: usize) -> u64 {
    1 << place.checked_sub(COORDINATORS).map_or(place.min(OF_COORDINATORS - 1), |number| OF_COORDINATORS + number)
}

/// From this bit on they are.
const OF_COORDINATORS: usize = 48;

impl Mangle {
    /// Whether nothing is sent to this peer.
    pub fn is_deaf(self, place: usize) -> bool {
        self.deaf & bit(place) != 0
    }

    /// A drawn number below this one.
    fn below(&mut self, most: u64) -> u64 {
        self.drawn = self.drawn.wrapping_mul(6_364_136_223_846_793_005).wrapping_add(1_442_695_040_888_963_407);
        (self.drawn >> 33) % most
    }

    /// Adds a frame, now and then in another way than it should be.
    pub fn put(&mut self, clock: u64, message: &[u8], out: &mut Vec<u8>) {
        if self.often == 0 || self.below(1000) >= self.often {
            put_frame(clock, message, out);
            return;
        }
        let mut frame = Vec::new();
        put_frame(clock, message, &mut frame);
        match self.below(6) {
            0 => out.extend_from_slice(&frame.repeat(2)),
            1 => {
                frame.append(out);
                *out = frame;
            }
            // the message is cut, in a frame that is none the worse
            2 => put_frame(clock, &message[..message.len() / 2], out),
            // what follows in the batch can't be told from it any more
            3 => out.extend_from_slice(&frame[..self.below(frame.len() as u64) as usize]),
            4 => {
                let at = self.below(frame.len() as u64) as usize;
                frame[at] ^= 1 << self.below(8);
                out.extend_from_slice(&frame);
            }
            // no frame at all
            _ => {
                let count = 1 + self.below(64);
                for _ in 0..count {
                    out.push(self.below(256) as u8);
                }
            }
        }
    }
}

#[cfg(test)]
mod tests {
    use super::*;
    use crate::wire::{frames, sound};

    #[test]
    fn what_is_asked_for_is_read_again() {
        let all = [
            Wrong::Sync,
            Wrong::EndInSave(4),
            Wrong::FullInSave,
            Wrong::Deaf(5),
            Wrong::Mangle(100),
            Wrong::Jump(-7),
            Wrong::Nothing,
            Wrong::DiskStands(1500),
        ];
        for wrong in all {
            let (what, how) = wrong.code();
            assert_eq!(Wrong::read(what, how), Some(wrong));
        }
        assert_eq!(Wrong::read(8, 0), None);
        assert_eq!(Wrong::read(1, 256), None);
    }

    #[test]
    fn a_mangled_batch_has_no_message_that_was_not_sent() {
        let mut mangle = Mangle { often: 500, ..Mangle::default() };
        let (mut whole, mut others) = (0, 0);
        for _ in 0..500 {
            let mut out = Vec::new();
            for message in ["first message", "second one", "third"] {
                mangle.put(7, message.as_bytes(), &mut out);
            }
            for (clock, message) in frames(sound(&out)) {
                assert_eq!(clock, 7);
                match message {
                    b"first message" | b"second one" | b"third" => whole += 1,
                    b"first " | b"secon" | b"th" => others += 1,
                    _ => panic!("{message:?} was never sent"),
                }
            }
        }
        assert!(500 < whole && 0 < others && whole < 1500, "{whole} whole, {others} cut");
    }
}
