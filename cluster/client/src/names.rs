//! Names as keys: a table whose keys are byte strings of 1 to 256 bytes.
//!
//! The key of a name is 63 bits of its sum: the first eight bytes of the SHA-256, the least first, and the lowest bit is
//! dropped. The value begins with the name: one byte, its length less 1, then the name, and then what was put. So a
//! value has up to 1,023 bytes less the name ([`room`]).
//!
//! Two names may have one key: of a thousand million names in a table the odds are one in eighteen that any two do.
//! Who wants such a pair finds one with some thousand million sums, but hardly one that has the key of a given name. Who
//! comes first has the key, and the other one's calls are [`Error::Collision`], which has the name that is there.
//! Nothing is overwritten: each write is conditional, and stands behind a read of the name. Once the first is deleted,
//! the other one can be put. Versions are those of the key: they rise over both.
//!
//! So a call costs more than by key: `put`, `put_if`, `delete` and `delete_if` a read and a conditional write,
//! `put_if_absent` one conditional write, `get` a read. A `put` that another write of the key has passed tries again
//! behind it, up to [`TRIES`] times.
//!
//! Nothing else may write in the table: what begins with no name is [`Error::NoName`], and what happens to begin like
//! one is taken for it.

use crate::error::Found;
use crate::protocol::MOST_VALUE;
use crate::refusal::Refusal;
use crate::sha256::sha256;
use crate::store::Store;
use std::fmt::{self, Display, Formatter};

/// The longest name.
pub const MOST_NAME: usize = 256;

/// So often a put is tried that others' writes have passed.
pub const TRIES: usize = 1000;

/// Why a call by name was not done, or that nobody knows. Only `Asked(Unknown)` says that nobody knows.
#[derive(Clone, Debug, PartialEq, Eq)]
pub enum Error {
    /// The key of the name is that of another name, which has a value.
    Collision {
        /// The name that is there.
        other: Vec<u8>,
    },
    /// A name has 1 to 256 bytes.
    BadName,
    /// What stands at the key begins with no name: something else writes in this table.
    NoName,
    /// As of a call by key. A value that is longer than [`room`] is refused here. In a mismatch stands the value without
    /// the name.
    Asked(crate::Error),
}

impl Display for Error {
    fn fmt(&self, out: &mut Formatter<'_>) -> fmt::Result {
        match self {
            Error::Collision { other } => write!(out, "not done: the key is that of \"{}\"", other.escape_ascii()),
            Error::BadName => write!(out, "not done: a name has 1 to {MOST_NAME} bytes"),
            Error::NoName => write!(out, "not done: what stands at the key has no name"),
            Error::Asked(error) => error.fmt(out),
        }
    }
}

impl std::error::Error for Error {}

impl From<crate::Error> for Error {
    fn from(error: crate::Error) -> Error {
        Error::Asked(error)
    }
}

/// The key of a name.
pub fn key_of(name: &[u8]) -> u64 {
    let sum = sha256(name);
    sum.iter().take(8).rev().fold(0, |key: u64, byte| key << 8 | u64::from(*byte)) >> 1
}

/// How many bytes a value of this name has at most.
pub fn room(name: &[u8]) -> usize {
    MOST_VALUE.saturating_sub(1 + name.len())
}

/// What stands at the key of a name with this value.
fn stored(name: &[u8], value: &[u8]) -> Result<Vec<u8>, Error> {
    check(name)?;
    if room(name) < value.len() {
        return Err(Error::Asked(crate::Error::Refused(Refusal::ValueTooLong)));
    }
    Ok([&[(name.len() - 1) as u8], name, value].concat())
}

fn check(name: &[u8]) -> Result<(), Error> {
    if (1..=MOST_NAME).contains(&name.len()) { Ok(()) } else { Err(Error::BadName) }
}

/// What was found at the key of a name, without the name.
fn unnamed(name: &[u8], found: Found) -> Result<Found, Error> {
    let Found { version, value } = found;
    let Some(bytes) = value else { return Ok(Found { version, value: None }) };
    let (length, rest) = bytes.split_first().ok_or(Error::NoName)?;
    let (there, value) = rest.split_at_checked(usize::from(*length) + 1).ok_or(Error::NoName)?;
    if there != name {
        return Err(Error::Collision { other: there.to_vec() });
    }
    Ok(Found { version, value: Some(value.to_vec()) })
}

/// What became of a conditional write: a mismatch shows what is there of this name.
fn judged(name: &[u8], said: Result<u64, crate::Error>) -> Result<u64, Error> {
    said.map_err(|error| match error {
        crate::Error::Mismatch(found) => match unnamed(name, found) {
            Ok(found) => Error::Asked(crate::Error::Mismatch(found)),
            Err(error) => error,
        },
        error => Error::Asked(error),
    })
}

/// A table whose keys are names.
///
/// ```no_run
/// use sevunthi_client::names::{Error, Names};
/// use sevunthi_client::{Client, Target};
///
/// let mut names = Names::new(Client::new(Target::on("127.0.0.1", 7300, 4)), 1);
/// let version = names.put(b"greeting", b"hello")?;
/// names.put_if(b"greeting", version, b"hello again")?;
/// # Ok::<(), Error>(())
/// ```
pub struct Names<S> {
    store: S,
    table: u32,
}

impl<S: Store> Names<S> {
    /// Names in this table.
    pub fn new(store: S, table: u32) -> Names<S> {
        Names { store, table }
    }

    /// The client that it asks with.
    pub fn store(&mut self) -> &mut S {
        &mut self.store
    }

    /// Reads the value of a name, confirmed.
    ///
    /// # Errors
    ///
    /// That it was not read: also where another name has the key.
    pub fn get(&mut self, name: &[u8]) -> Result<Found, Error> {
        check(name)?;
        unnamed(name, self.store.get(self.table, key_of(name))?)
    }

    /// Writes the value of a name, and gives its version.
    ///
    /// # Errors
    ///
    /// That it was not done, or that nobody knows. A mismatch says that others have written all the time.
    pub fn put(&mut self, name: &[u8], value: &[u8]) -> Result<u64, Error> {
        let (key, stored) = (key_of(name), stored(name, value)?);
        let mut found = self.get(name)?;
        for _ in 0..TRIES {
            let said = judged(name, self.store.put_if(self.table, key, found.version, &stored));
            let Err(Error::Asked(crate::Error::Mismatch(there))) = said else { return said };
            found = there;
        }
        Err(Error::Asked(crate::Error::Mismatch(found)))
    }

    /// Writes the value of a name, if the version of its newest write is this one; 0 where there was none.
    ///
    /// # Errors
    ///
    /// A mismatch with what is there, where that is another version; else that it was not done, or that nobody knows.
    pub fn put_if(&mut self, name: &[u8], version: u64, value: &[u8]) -> Result<u64, Error> {
        let stored = stored(name, value)?;
        self.expect(name, version)?;
        judged(name, self.store.put_if(self.table, key_of(name), version, &stored))
    }

    /// Writes the value of a name, if there is none.
    ///
    /// # Errors
    ///
    /// A mismatch with what is there, where there is a value; else that it was not done, or that nobody knows.
    pub fn put_if_absent(&mut self, name: &[u8], value: &[u8]) -> Result<u64, Error> {
        let stored = stored(name, value)?;
        judged(name, self.store.put_if_absent(self.table, key_of(name), &stored))
    }

    /// Deletes the value of a name, and gives the version of that. Where there is none nothing is written, and the
    /// version is that of the newest write.
    ///
    /// # Errors
    ///
    /// That it was not done, or that nobody knows. A mismatch says that others have written all the time.
    pub fn delete(&mut self, name: &[u8]) -> Result<u64, Error> {
        let mut found = self.get(name)?;
        for _ in 0..TRIES {
            if found.value.is_none() {
                return Ok(found.version);
            }
            let said = judged(name, self.store.delete_if(self.table, key_of(name), found.version));
            let Err(Error::Asked(crate::Error::Mismatch(there))) = said else { return said };
            found = there;
        }
        Err(Error::Asked(crate::Error::Mismatch(found)))
    }

    /// Deletes the value of a name, if the version of its newest write is this one.
    ///
    /// # Errors
    ///
    /// As of [`put_if`](Names::put_if).
    pub fn delete_if(&mut self, name: &[u8], version: u64) -> Result<u64, Error> {
        self.expect(name, version)?;
        judged(name, self.store.delete_if(self.table, key_of(name), version))
    }

    /// Reads whether the key has this version, and no other name: nothing is written under a version of another name.
    fn expect(&mut self, name: &[u8], version: u64) -> Result<(), Error> {
        let found = self.get(name)?;
        if found.version == version { Ok(()) } else { Err(Error::Asked(crate::Error::Mismatch(found))) }
    }
}

#[cfg(test)]
mod tests {
    use super::*;
    use crate::store::memory::{Fault, Memory};

    fn found(version: u64, value: Option<&[u8]>) -> Found {
        Found { version, value: value.map(<[u8]>::to_vec) }
    }

    fn mismatch(version: u64, value: Option<&[u8]>) -> Error {
        Error::Asked(crate::Error::Mismatch(found(version, value)))
    }

    /// Another name stands at the key of `name`.
    fn with_another_at(name: &[u8], another: &[u8]) -> Names<Memory> {
        let mut store = Memory::default();
        store.put_if(1, key_of(name), 0, &stored(another, b"theirs").expect("it fits")).expect("it is free");
        Names::new(store, 1)
    }

    /// The first eight bytes of FIPS 180-4's sums of "" and "abc", the least first, less the lowest bit.
    #[test]
    fn a_key_is_a_sum_in_63_bits() {
        assert_eq!(key_of(b"abc"), 0xeacf_018f_bf16_78ba >> 1);
        assert_eq!(key_of(b""), 0x141c_fc98_42c4_b0e3 >> 1);
    }

    #[test]
    fn what_is_put_is_found() {
        let mut names = Names::new(Memory::default(), 1);
        let long = [b'n'; MOST_NAME];
        assert_eq!(names.get(b"a"), Ok(found(0, None)));
        assert_eq!((names.put(b"a", b"1"), names.put(b"a", b"")), (Ok(1), Ok(2)));
        assert_eq!(names.get(b"a"), Ok(found(2, Some(b""))));
        assert_eq!(names.put(&long, &[7; 767]), Ok(1));
        assert_eq!(names.get(&long), Ok(found(1, Some(&[7; 767]))));
        assert_eq!((names.delete(b"a"), names.delete(b"a")), (Ok(3), Ok(3)));
        assert_eq!(names.get(b"a"), Ok(found(3, None)));
        assert_eq!(names.put_if_absent(b"a", b"2"), Ok(4));
    }

    #[test]
    fn conditions_hold_or_show_what_is_there_without_the_name() {
        let mut names = Names::new(Memory::default(), 1);
        assert_eq!(names.put_if(b"a", 1, b"x"), Err(mismatch(0, None)));
        assert_eq!(
            (names.put_if(b"a", 0, b"x"), names.put_if_absent(b"a", b"y")),
            (Ok(1), Err(mismatch(1, Some(b"x"))))
        );
        assert_eq!(names.put_if(b"a", 2, b"y"), Err(mismatch(1, Some(b"x"))));
        assert_eq!(names.delete_if(b"a", 0), Err(mismatch(1, Some(b"x"))));
        assert_eq!((names.delete_if(b"a", 1), names.get(b"a")), (Ok(2), Ok(found(2, None))));
    }

    #[test]
    fn what_is_no_name_or_too_long_is_not_asked_for() {
        let mut names = Names::new(Memory::default(), 1);
        for name in [&b""[..], &[b'n'; MOST_NAME + 1]] {
            let said = [names.put(name, b""), names.put_if(name, 0, b""), names.put_if_absent(name, b"")];
            assert!(said.into_iter().all(|said| said == Err(Error::BadName)));
            assert_eq!((names.get(name), names.delete(name)), (Err(Error::BadName), Err(Error::BadName)));
            assert_eq!(names.delete_if(name, 0), Err(Error::BadName));
        }
        let too_long = Err(Error::Asked(crate::Error::Refused(Refusal::ValueTooLong)));
        assert_eq!((names.put(b"abc", &[0; 1021]), names.store().calls), (too_long, 0));
        assert_eq!((room(b"abc"), names.put(b"abc", &[0; 1020])), (1020, Ok(1)));
    }

    #[test]
    fn another_name_at_the_key_is_never_overwritten() {
        let mut names = with_another_at(b"mine", b"another");
        let collision = || Err(Error::Collision { other: b"another".to_vec() });
        assert_eq!(names.get(b"mine"), collision().map(|_: u64| Found::default()));
        // also where the version is the one that was asked for
        let said = [
            names.put(b"mine", b"x"),
            names.put_if(b"mine", 1, b"x"),
            names.put_if(b"mine", 0, b"x"),
            names.put_if_absent(b"mine", b"x"),
            names.delete(b"mine"),
            names.delete_if(b"mine", 1),
        ];
        assert!(said.into_iter().all(|said| said == collision()));
        let there = names.store().get(1, key_of(b"mine"));
        assert_eq!(there, Ok(found(1, Some(b"\x06anothertheirs"))));
        let told = Error::Collision { other: b"n\xff".to_vec() }.to_string();
        assert_eq!(told, "not done: the key is that of \"n\\xff\"");
    }

    /// One name is deleted, and another one is put at the same key, between the read and the write.
    #[test]
    fn another_name_that_comes_between_is_not_overwritten() {
        type Write = fn(&mut Names<Memory>) -> Result<u64, Error>;
        let writes: [Write; 4] = [
            |names| names.put(b"mine", b"x"),
            |names| names.put_if(b"mine", 1, b"x"),
            |names| names.delete(b"mine"),
            |names| names.delete_if(b"mine", 1),
        ];
        for write in writes {
            let mut names = with_another_at(b"mine", b"mine");
            let replace = |mut store: Memory| {
                store.delete_if(1, key_of(b"mine"), 1).expect("it is there");
                store.put_if(1, key_of(b"mine"), 2, b"\x06another").expect("it is free");
            };
            names.store().meanwhile = Some((2, Box::new(replace)));
            assert_eq!(write(&mut names), Err(Error::Collision { other: b"another".to_vec() }));
        }
    }

    #[test]
    fn a_put_that_was_passed_is_tried_again_behind() {
        let mut names = with_another_at(b"mine", b"mine");
        names.store().meanwhile = Some((2, Box::new(|store| _ = Names::new(store, 1).put(b"mine", b"theirs"))));
        assert_eq!((names.put(b"mine", b"x"), names.get(b"mine")), (Ok(3), Ok(found(3, Some(b"x")))));
    }

    /// A store that others write without end.
    struct Busy(u64);

    impl Busy {
        fn passed(&mut self) -> crate::Error {
            self.0 += 1;
            crate::Error::Mismatch(found(self.0, Some(b"\x03mine")))
        }
    }

    impl Store for Busy {
        fn get(&mut self, _: u32, _: u64) -> Result<Found, crate::Error> {
            Ok(found(0, Some(b"\x03mine")))
        }

        fn put_if(&mut self, _: u32, _: u64, _: u64, _: &[u8]) -> Result<u64, crate::Error> {
            Err(self.passed())
        }

        fn put_if_absent(&mut self, _: u32, _: u64, _: &[u8]) -> Result<u64, crate::Error> {
            Err(self.passed())
        }

        fn delete_if(&mut self, _: u32, _: u64, _: u64) -> Result<u64, crate::Error> {
            Err(self.passed())
        }
    }

    #[test]
    fn where_others_write_without_end_a_call_ends() {
        assert_eq!(Names::new(Busy(0), 1).put(b"mine", b"x"), Err(mismatch(TRIES as u64, Some(b""))));
        assert_eq!(Names::new(Busy(0), 1).delete(b"mine"), Err(mismatch(TRIES as u64, Some(b""))));
    }

    #[test]
    fn an_answer_that_is_lost_is_unknown() {
        for fault in [Fault::AnswerLost, Fault::NeverDone] {
            let mut names = Names::new(Memory { fault: Some((1, fault)), ..Memory::default() }, 1);
            assert_eq!(names.put(b"mine", b"x"), Err(Error::Asked(crate::Error::Unknown)));
            assert_eq!(names.get(b"mine").map(|found| found.version), Ok(u64::from(fault == Fault::AnswerLost)));
        }
    }

    #[test]
    fn what_begins_with_no_name_is_told_apart() {
        for value in [&b""[..], b"\x04name"] {
            let mut store = Memory::default();
            store.put_if_absent(1, key_of(b"mine"), value).expect("it is free");
            let mut names = Names::new(store, 1);
            assert_eq!(names.get(b"mine"), Err(Error::NoName));
            assert_eq!(names.put(b"mine", b"x"), Err(Error::NoName));
        }
    }
}
