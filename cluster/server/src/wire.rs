//! Frames and batches. A frame is its length in four bytes, the sender's clock in eight, a message, and a sum over clock
//! and message in four. A batch is its length in four bytes, and frames: what a damaged frame spoils ends with it.

use sevunthi::message::{Stored, framed, kind, kind_between, u32_at, u64_at};

/// The longest batch; and so much may wait to be sent.
pub const MOST: usize = 256 << 20;

/// The first byte of what is no message of the protocol: a heartbeat of a server, with its id, and whom it waits for.
pub const HEARTBEAT: u8 = 0;

/// The coordinator's answer to the heartbeat of one that its list shows crashed.
pub const NOT_UP: u8 = 255;

/// A sum against accidents: over words of eight bytes, of which the last is filled up with zeros and the length.
fn sum(bytes: &[u8]) -> u32 {
    let mut words = bytes.chunks_exact(8);
    let mut sum = words.by_ref().fold(SEED, |sum, word| mix(sum, u64_at(word, 0).unwrap_or(0)));
    let mut last = [0; 8];
    last[..words.remainder().len()].copy_from_slice(words.remainder());
    sum = mix(mix(sum, u64::from_le_bytes(last)), bytes.len() as u64);
    (sum >> 32) as u32
}

const SEED: u64 = 0xcbf2_9ce4_8422_2325;

/// The product goes on with its upper half folded in, so that each bit of a word comes to the upper half of the sum.
fn mix(sum: u64, word: u64) -> u64 {
    let product = (sum ^ word).wrapping_mul(0x9e37_79b9_7f4a_7c15);
    product ^ product >> 32
}

/// Adds a frame.
pub fn put_frame(clock: u64, message: &[u8], out: &mut Vec<u8>) {
    out.extend_from_slice(&(message.len() as u32 + 12).to_le_bytes());
    let at = out.len();
    out.extend_from_slice(&clock.to_le_bytes());
    out.extend_from_slice(message);
    let sum = sum(&out[at..]);
    out.extend_from_slice(&sum.to_le_bytes());
}

/// The frames at the front of a batch whose sums are right. Who reads the connection looks at them, and not the node's
/// thread, which has more to do.
pub fn sound(bytes: &[u8]) -> &[u8] {
    let is_sound = |frame: &&[u8]| {
        let inner = frame.len().checked_sub(4).and_then(|length| frame.get(..length));
        inner.is_some_and(|inner| u32_at(frame, inner.len()) == Some(sum(inner)))
    };
    &bytes[..framed(bytes).take_while(is_sound).map(|frame| 4 + frame.len()).sum()]
}

/// The clock and the message of each frame, whose sum was looked at.
pub fn frames(bytes: &[u8]) -> impl Iterator<Item = (u64, &[u8])> {
    framed(bytes).map_while(|frame| Some((u64_at(frame, 0)?, frame.get(8..frame.len().checked_sub(4)?)?)))
}

/// The frames of batches, each kind in order.
#[derive(Default)]
pub struct Parted {
    /// A Place, or a Stored of a replica that is new or closed: a roll waits for it. An owner takes no writes until its
    /// new head has a place at all backups, and then until they have closed the old one.
    pub roll: Vec<u8>,
    /// Any other Stored, since clients wait for that.
    pub urgent: Vec<u8>,
    /// All else.
    pub others: Vec<u8>,
    /// Whether one of the others is a Close, for which a roll waits too, but which needs what came before it.
    pub is_closing: bool,
}

impl Parted {
    /// Takes the frames of a batch apart, up to the first that is not sound: those that need nothing that came before
    /// them, and all else.
    pub fn add(&mut self, batch: &[u8]) {
        for frame in framed(sound(batch)) {
            let message = frame.get(8..).unwrap_or_default();
            let to = match kind_between(message) {
                Some(kind::PLACE) => &mut self.roll,
                Some(kind::STORED) => match Stored::read(message) {
                    Some(Stored { length: 1.., is_closed: false, .. }) | None => &mut self.urgent,
                    Some(_) => &mut self.roll,
                },
                other => {
                    self.is_closing |= other == Some(kind::CLOSE);
                    &mut self.others
                }
            };
            to.extend_from_slice(&(frame.len() as u32).to_le_bytes());
            to.extend_from_slice(frame);
        }
    }
}

/// Whether a frame has a Place.
pub fn is_place(frame: &[u8]) -> bool {
    frame.get(8..).and_then(kind_between) == Some(kind::PLACE)
}

#[cfg(test)]
mod tests {
    use super::*;
    use crate::dice::Dice;
    use crate::protocol::{Op, Reply, Request};

    #[test]
    fn what_a_roll_waits_for_and_what_is_stored_stand_apart() {
        let message = |kind, body: &[u8]| [&[1, 1, 0, 1, 0, 0, 0, 1, 1, 1, 0, 0, 0, kind], body].concat();
        let stored = |length: u64, closed| {
            message(kind::STORED, &[&[3, 0, 0, 0], &length.to_le_bytes()[..], &[closed]].concat())
        };
        let of_roll = [message(kind::PLACE, b"a"), stored(0, 0), stored(9, 1)];
        let rest = [message(kind::APPEND, b"b"), vec![HEARTBEAT, 7], vec![NOT_UP]];
        let put_all = |messages: &[&Vec<u8>]| {
            let mut out = Vec::new();
            messages.iter().for_each(|message| put_frame(7, message, &mut out));
            out
        };
        let (urgent, close) = (stored(9, 0), message(kind::CLOSE, b"c"));
        let mixed = put_all(&[&rest[0], &of_roll[0], &urgent, &rest[1], &of_roll[1], &of_roll[2], &rest[2]]);
        let parted = |batches: &[&[u8]]| {
            let mut parted = Parted::default();
            batches.iter().for_each(|batch| parted.add(batch));
            parted
        };
        for end in [&b""[..], b"no frame"] {
            let parts = parted(&[&[&mixed, end].concat()]);
            assert_eq!(parts.roll, put_all(&of_roll.each_ref()));
            assert_eq!(parts.urgent, put_all(&[&urgent]));
            assert_eq!(parts.others, put_all(&rest.each_ref()));
            assert!(!parts.is_closing);
        }
        let closing = put_all(&[&rest[0], &close]);
        // what a batch ends with is lost, and nothing of the next one
        let parts = parted(&[&closing[..closing.len() - 1], &closing]);
        assert_eq!(parts.others, [put_all(&[&rest[0]]), closing.clone()].concat());
        let parts = parted(&[&closing]);
        assert!(parts.is_closing && parts.others == closing && parts.roll.is_empty() && parts.urgent.is_empty());
        assert_eq!(framed(&put_all(&of_roll.each_ref())).map(is_place).collect::<Vec<_>>(), [true, false, false]);
    }

    #[test]
    fn a_damaged_frame_ends_the_batch() {
        let mut out = Vec::new();
        put_frame(7, b"hello", &mut out);
        let length = out.len();
        put_frame(8, b"again", &mut out);
        assert_eq!(frames(sound(&out)).count(), 2);
        for place in 0..out.len() {
            let mut damaged = out.clone();
            damaged[place] ^= 1;
            assert_eq!(frames(sound(&damaged)).count(), place / length);
        }
    }

    /// Frames and requests with some bytes changed, as many as `MUTATIONS` says: none is taken for what was never
    /// sent.
    #[test]
    fn mutations_bring_no_message_that_was_not_sent() {
        let count = std::env::var("MUTATIONS").ok().and_then(|word| word.parse().ok()).unwrap_or(20_000);
        let messages = [&b"a message"[..], b"", b"another message"];
        let mut whole = Vec::new();
        messages.iter().for_each(|message| put_frame(7, message, &mut whole));
        let mut request = Vec::new();
        let asked = Request { op: Op::Put, number: 3, table: 1, key: 5, value: b"value".into() };
        asked.put(&mut request);
        let mut dice = Dice::new(7);
        for _ in 0..count {
            let frames_of = mutated(&whole, &mut dice);
            for (clock, message) in frames(sound(&frames_of)) {
                assert!(clock == 7 && messages.contains(&message), "{message:?} was never sent");
            }
            for piece in sevunthi::message::framed(&mutated(&request, &mut dice)) {
                let _ = Request::read(piece);
                let _ = Reply::read(piece);
            }
        }
    }

    /// Some bytes changed, taken away, or put there again.
    fn mutated(bytes: &[u8], dice: &mut Dice) -> Vec<u8> {
        let mut bytes = bytes.to_vec();
        for _ in 0..=dice.below(3) {
            let at = dice.below(bytes.len() as u64 + 1) as usize;
            match (dice.below(4), bytes.get_mut(at)) {
                (0, Some(byte)) => *byte ^= 1 << dice.below(8),
                (1, Some(byte)) => *byte = [0, 1, 255, 2][dice.below(4) as usize],
                (2, _) => bytes.truncate(at),
                _ => bytes.extend_from_within(at..),
            }
        }
        bytes
    }
}
