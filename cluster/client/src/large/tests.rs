//! Values in pieces over a store in memory: readers and writers between any two calls of one another, writers that end
//! at any call, answers that are lost at any call.

use super::*;
use crate::store::memory::{Fault, Memory};
use std::cell::Cell;

const HEADERS: u32 = 1;
const PIECES: u32 = 2;
const NAME: &[u8] = b"name";

fn large(store: Memory) -> Large<Memory> {
    Large::new(store, HEADERS, PIECES)
}

/// A value of three pieces.
fn value(byte: u8) -> Vec<u8> {
    (0..2 * PIECE + 5).map(|at| byte ^ at as u8).collect()
}

/// A store in which the name has `value(1)` at version 1, and three pieces.
fn begun() -> Memory {
    let mut first = large(Memory::default());
    assert_eq!(first.put(NAME, &value(1)), Ok(1));
    first.store().other()
}

/// What another client reads.
fn seen(store: &Memory) -> Result<Found, Error> {
    large(store.other()).get(NAME)
}

fn is_whole(found: &Found) -> bool {
    (1..=3).any(|byte| found.value == Some(value(byte)))
}

/// As many calls as this makes of a store that has begun.
fn calls_of(what: impl FnOnce(&mut Large<Memory>)) -> usize {
    let mut large = large(begun());
    what(&mut large);
    large.store().calls
}

fn put(large: &mut Large<Memory>) -> Result<u64, Error> {
    large.put(NAME, &value(2))
}

const UNKNOWN_HERE: Error = Error::Named(UNKNOWN);

#[test]
fn values_of_all_lengths_come_back_and_leave_nothing_behind() {
    let mut large = large(Memory::default());
    for (at, length) in [0, 1, PIECE - 1, PIECE, PIECE + 1, 2 * PIECE, MOST].into_iter().enumerate() {
        let value: Vec<u8> = (0..length).map(|at| ((at * at) >> 7) as u8).collect();
        let version = at as u64 + 1;
        assert_eq!(large.put(NAME, &value), Ok(version));
        assert_eq!(large.get(NAME), Ok(Found { version, value: Some(value) }));
        assert_eq!(large.store().count(PIECES), length.div_ceil(PIECE));
    }
    let calls = large.store().calls;
    assert_eq!((large.put(NAME, &vec![0; MOST + 1]), large.store().calls), (Err(Error::TooLong), calls));
    assert_eq!((large.delete(NAME), large.delete(NAME)), (Ok(8), Ok(8)));
    assert_eq!(large.get(NAME), Ok(Found { version: 8, value: None }));
    assert_eq!((large.store().count(HEADERS), large.store().count(PIECES), large.left()), (0, 0, 0));
}

#[test]
fn conditions_hold_or_nothing_is_written() {
    let mut large = large(begun());
    let mismatch = |version, is_there| Err(Error::Mismatch { version, is_there });
    assert_eq!(large.put_if(NAME, 2, &value(2)), mismatch(1, true));
    assert_eq!(large.put_if_absent(NAME, &value(2)), mismatch(1, true));
    assert_eq!(large.delete_if(NAME, 0), mismatch(1, true));
    assert_eq!((large.put_if(NAME, 1, &value(2)), large.delete_if(NAME, 2)), (Ok(2), Ok(3)));
    assert_eq!(large.put_if(NAME, 2, &value(2)), mismatch(3, false));
    assert_eq!((large.put_if_absent(NAME, &value(3)), large.store().count(PIECES)), (Ok(4), 3));
}

#[test]
fn a_reader_sees_a_whole_value_while_another_one_writes() {
    for at in 0..calls_of(|large| _ = large.get(NAME)) {
        let mut reader = large(begun());
        reader.store().meanwhile = Some((at, Box::new(|store| assert_eq!(put(&mut large(store)), Ok(2)))));
        assert!(is_whole(&reader.get(NAME).expect("it is read")), "{at}");
        let mut reader = large(begun());
        reader.store().meanwhile = Some((at, Box::new(|store| assert_eq!(large(store).delete(NAME), Ok(2)))));
        let found = reader.get(NAME).expect("it is read");
        assert!(is_whole(&found) || found == Found { version: 2, value: None }, "{at}");
    }
}

#[test]
fn of_two_that_write_at_once_one_is_last_and_no_pieces_stay() {
    for at in 0..calls_of(|large| _ = put(large)) {
        let third = |store| assert!(large(store).put(NAME, &value(3)).is_ok());
        let mut writer = large(begun());
        writer.store().meanwhile = Some((at, Box::new(third)));
        assert!(put(&mut writer).is_ok(), "{at}");
        assert!(is_whole(&seen(writer.store()).expect("it is read")), "{at}");
        assert_eq!((writer.store().count(PIECES), writer.left()), (3, 0), "{at}");
        let mut writer = large(begun());
        writer.store().meanwhile = Some((at, Box::new(third)));
        let (said, last) = (writer.put_if(NAME, 1, &value(2)), seen(writer.store()).expect("it is read"));
        let was_first = said == Ok(2) && last.version == 3;
        assert!(was_first || said == Err(Error::Mismatch { version: 2, is_there: true }), "{at}: {said:?}");
        assert_eq!((last.value, writer.store().count(PIECES)), (Some(value(3)), 3), "{at}");
    }
}

#[test]
fn where_a_writer_ends_the_old_or_the_new_value_is_whole() {
    for at in 0..calls_of(|large| _ = put(large)) {
        let mut writer = large(Memory { fault: Some((at, Fault::Ends)), ..begun() });
        let said = put(&mut writer);
        let found = seen(writer.store()).expect("it is read");
        assert_eq!(found.value, Some(value(if said.is_ok() { 2 } else { 1 })), "{at}");
        assert!(writer.store().count(PIECES) <= 6);
        let mut next = large(writer.store().other());
        assert_eq!(next.put(NAME, &value(3)), Ok(found.version + 1));
        assert_eq!(seen(writer.store()).map(|found| found.value), Ok(Some(value(3))));
        // had it not ended, but only not reached anybody, it would know what to remove
        writer.store().fault = None;
        assert_eq!((writer.tidy(), writer.left(), writer.store().count(PIECES)), (Ok(()), 0, 3), "{at}");
    }
}

/// One answer is lost, and now and then another client writes: what is said is so, and nothing stays.
#[test]
fn where_an_answer_is_lost_it_is_settled() {
    let calls = calls_of(|large| _ = put(large));
    for (at, fault) in (0..calls).flat_map(|at| [(at, Fault::AnswerLost), (at, Fault::NeverDone)]) {
        for other in [None].into_iter().chain((0..=calls + 1).map(Some)) {
            let mut writer = large(Memory { fault: Some((at, fault)), ..begun() });
            let third = |store| assert!(large(store).put(NAME, &value(3)).is_ok());
            writer.store().meanwhile = other.map(|other| (other, Box::new(third) as _));
            let said = put(&mut writer);
            writer.store().meanwhile = None;
            let found = seen(writer.store()).expect("it is read");
            let case = format!("{fault:?} at {at}, another one at {other:?}: {said:?}, {}", found.version);
            assert!(is_whole(&found), "{case}");
            if other.is_none() {
                let is_new = found.value == Some(value(2));
                assert!(if is_new { said == Ok(2) } else { said == Err(UNKNOWN_HERE) && found.version == 1 }, "{case}");
            }
            assert_eq!((writer.tidy(), writer.left(), writer.store().count(PIECES)), (Ok(()), 0, 3), "{case}");
        }
    }
}

/// The header's answer is lost, and another client writes before it is asked for again.
#[test]
fn a_header_that_was_passed_is_put_again_only_where_it_was_not_done() {
    for (fault, said) in [(Fault::NeverDone, Ok(3)), (Fault::AnswerLost, Err(UNKNOWN_HERE))] {
        let mut writer = large(Memory { fault: Some((5, fault)), ..begun() });
        writer.store().meanwhile = Some((6, Box::new(|store| assert!(large(store).put(NAME, &value(3)).is_ok()))));
        assert_eq!((put(&mut writer), writer.left(), writer.store().count(PIECES)), (said.clone(), 0, 3));
        assert_eq!(seen(writer.store()).map(|found| found.version), Ok(3));
    }
}

#[test]
fn a_delete_whose_answer_is_lost_is_settled() {
    for (at, fault) in (0..calls_of(|large| _ = large.delete(NAME))).map(|at| (at, Fault::AnswerLost)) {
        let mut writer = large(Memory { fault: Some((at, fault)), ..begun() });
        let (said, found) = (writer.delete(NAME), seen(writer.store()).expect("it is read"));
        assert!(if found.value.is_none() { said == Ok(2) } else { said == Err(UNKNOWN_HERE) }, "{at}: {said:?}");
        assert_eq!((writer.tidy(), writer.store().count(PIECES)), (Ok(()), if found.value.is_none() { 0 } else { 3 }));
    }
}

/// From a header on nothing is heard: its pieces stay until it is known that they are of no use.
#[test]
fn pieces_of_a_header_of_which_nobody_knows_stay_until_it_is_known() {
    // a read of the header, three pieces, a read of the header, and its write
    for (at, is_done) in [(4, false), (5, true)] {
        let mut writer = large(Memory { fault: Some((at, Fault::Silence)), ..begun() });
        assert_eq!((put(&mut writer), writer.left()), (Err(UNKNOWN_HERE), 2));
        assert_eq!(writer.store().count(PIECES), 6);
        writer.store().fault = None;
        assert_eq!(writer.tidy(), Ok(()));
        let kept = if is_done { (0, 3) } else { (2, 6) };
        assert_eq!((writer.left(), writer.store().count(PIECES)), kept);
        assert_eq!(seen(writer.store()).map(|found| found.value), Ok(Some(value(if is_done { 2 } else { 1 }))));
        assert!(large(writer.store().other()).put(NAME, &value(3)).is_ok());
        assert_eq!((writer.tidy(), writer.left(), writer.store().count(PIECES)), (Ok(()), 0, 3));
    }
}

#[test]
fn where_no_piece_is_acknowledged_it_is_not_done() {
    let mut writer = large(Memory { fault: Some((2, Fault::Silence)), ..begun() });
    assert_eq!((put(&mut writer), writer.left()), (Err(Error::Unwritten), 1));
    writer.store().fault = None;
    assert_eq!((writer.tidy(), writer.left(), writer.store().count(PIECES)), (Ok(()), 0, 3));
    assert_eq!(seen(writer.store()).map(|found| found.value), Ok(Some(value(1))));
}

thread_local! {
    static DRAWN: Cell<u8> = const { Cell::new(0) };
}

/// 1, 2, 3 and so on, once a thread.
fn counted() -> io::Result<[u8; NUMBER]> {
    DRAWN.set(DRAWN.get() + 1);
    Ok([DRAWN.get(); NUMBER])
}

#[test]
fn where_another_name_has_a_pieces_key_another_number_is_drawn() {
    let mut store = Memory::default();
    let second = Pieces { number: [1; NUMBER], length: 0, sum: [0; 32] }.name(1);
    store.put_if_absent(PIECES, names::key_of(&second), b"\x06another").expect("it is free");
    let mut large = large(store);
    large.draw = counted;
    assert_eq!((large.put(NAME, &value(1)), DRAWN.get()), (Ok(1), 2));
    assert_eq!((large.store().count(PIECES), large.left()), (4, 0));
    assert_eq!(large.get(NAME).map(|found| found.value), Ok(Some(value(1))));
    // a number that is drawn twice spoils nothing
    DRAWN.set(1);
    assert_eq!((large.put(b"other", &value(2)), DRAWN.get(), large.store().count(PIECES)), (Ok(1), 3, 7));
    assert_eq!(large.get(NAME).map(|found| found.value), Ok(Some(value(1))));
    assert_eq!(large.get(b"other").map(|found| found.value), Ok(Some(value(2))));
}

#[test]
fn what_was_spoiled_is_told() {
    let spoil = |table, key, value: &[u8]| {
        let mut store = begun();
        let version = store.get(table, key).expect("it is read").version;
        store.put_if(table, key, version, value).expect("it is its version");
        seen(&store)
    };
    assert_eq!(spoil(HEADERS, names::key_of(NAME), b"\x03name"), Err(Error::Broken));
    let header = Pieces { number: [9; NUMBER], length: 5, sum: [0; 32] }.header();
    assert_eq!(spoil(HEADERS, names::key_of(NAME), &[b"\x03name", &header[..]].concat()), Err(Error::Broken));
    let mut store = begun();
    let (table, key) = store.values.borrow().keys().find(|(table, _)| *table == PIECES).copied().expect("it is there");
    let mut spoiled = store.get(table, key).expect("it is read");
    *spoiled.value.as_mut().and_then(|value| value.last_mut()).expect("it has bytes") ^= 1;
    store.put_if(table, key, spoiled.version, &spoiled.value.unwrap_or_default()).expect("it is its version");
    assert_eq!(seen(&store), Err(Error::Broken));
}

/// The bytes that the client in Python writes, worked from docs/WIRE.md.
#[test]
fn a_header_has_the_bytes_of_the_page() {
    let pieces = Pieces { number: std::array::from_fn(|at| at as u8), length: 5, sum: sha256(b"hello") };
    let text: String = pieces.header().iter().map(|byte| format!("{byte:02x}")).collect();
    let (number, numbers) = ("000102030405060708090a0b0c0d0e0f", "0100000005000000");
    let sum = "2cf24dba5fb0a30e26e83b2ac5b9e29e1b161e5c1fa7425e73043362938b9824";
    assert_eq!(text, format!("01{number}{numbers}{sum}"));
}

#[test]
fn what_is_no_header_is_not_taken_for_one() {
    let pieces = |length| Pieces { number: [9; NUMBER], length, sum: [7; 32] };
    let header = pieces(MOST).header();
    assert_eq!((header.len(), Pieces::of_header(&header)), (57, Some(pieces(MOST))));
    assert_eq!(Pieces::of_header(&pieces(MOST + 1).header()), None);
    // another layout, another count, and other lengths of the header
    for at in [0, 17] {
        let mut other = header.clone();
        other[at] ^= 1;
        assert_eq!(Pieces::of_header(&other), None, "{at}");
    }
    assert_eq!((Pieces::of_header(&header[..56]), Pieces::of_header(&[&header[..], b"x"].concat())), (None, None));
}

/// A store in which another client replaces the value before each read of a piece.
struct Restless(Memory);

impl Store for Restless {
    fn get(&mut self, table: u32, key: u64) -> Result<Found, crate::Error> {
        if table == PIECES {
            large(self.0.other()).put(NAME, &value(3)).expect("it is put");
        }
        self.0.get(table, key)
    }

    fn put_if(&mut self, table: u32, key: u64, version: u64, value: &[u8]) -> Result<u64, crate::Error> {
        self.0.put_if(table, key, version, value)
    }

    fn put_if_absent(&mut self, table: u32, key: u64, value: &[u8]) -> Result<u64, crate::Error> {
        self.0.put_if_absent(table, key, value)
    }

    fn delete_if(&mut self, table: u32, key: u64, version: u64) -> Result<u64, crate::Error> {
        self.0.delete_if(table, key, version)
    }
}

#[test]
fn where_others_write_without_end_a_read_ends() {
    let mut reader = Large::new(Restless(begun()), HEADERS, PIECES);
    assert_eq!(reader.get(NAME), Err(Error::Changing));
}
