//! Values of up to 1 MiB under names, each in pieces, and a header that is written last.
//!
//! Two tables of [`names`] keep them; nothing else may write there. In the table of headers stands at the
//! name of a value its *header*: one byte, 1; a drawn number of 16 bytes; how many pieces there are, and how many bytes,
//! in four bytes each, the least first; and the SHA-256 of the value. In the table of pieces the name of a piece is the
//! drawn number and the piece's index in four bytes. A piece has 1,003 bytes, the last one what is left.
//!
//! **A reader sees a whole value or none.** All pieces are durable before the header is written, and are never changed:
//! who writes again draws another number. A reader reads the header and then the pieces. Where a piece is gone, the
//! value was replaced meanwhile: it begins again with the header that is there now, up to [`READS`] times, and says
//! [`Error::Changing`] then. Where the header is still the same, or the sum is another one, that is [`Error::Broken`]:
//! something else has written in the tables. The version of a value is its header's.
//!
//! **Of two that write at once** each writes its own pieces. The headers are conditional writes: one comes first. The
//! other one's `put` then replaces that, and its `put_if` is a mismatch. A header whose answer was lost is asked for once
//! more under the same version, of which one is done at most, until that is known, up to [`SETTLING`] times.
//!
//! **Pieces that are of no use are removed**: of a value that was replaced or deleted, by who did that; of one that got
//! no header, by who wrote them. Where that fails, they are kept in mind, and [`tidy`](Large::tidy) tries again. Some
//! stay for ever, take room, and harm nobody: those of a writer that ended before its header, or before it had removed
//! what it replaced; and a piece whose answer was lost, and that was done after it was removed. Nothing finds these
//! later. A piece that is removed is deleted as any value is: what the logs keep of it stays.
//!
//! **Where a piece's key is that of another name** the writer removes what it has written, and draws another number, up
//! to [`DRAWS`] times. Where the header's key is, that is an error, as of all names.
//!
//! One call after another is made: a piece costs one conditional write to put, a read to get, and both to remove.

use crate::error::Found;
use crate::names::{self, Names};
use crate::protocol::{Condition, MOST_VALUE};
use crate::sha256::sha256;
use crate::store::Store;
use std::fmt::{self, Display, Formatter};
use std::fs::File;
use std::io::{self, Read};

/// The longest value.
pub const MOST: usize = 1 << 20;

/// So often a read begins again, where the value was replaced.
pub const READS: usize = 100;

/// So often a write is asked for again whose answer was lost, and that can be done once at most.
pub const SETTLING: usize = 5;

/// So many numbers are drawn at most for the pieces of a value.
pub const DRAWS: usize = 8;

/// Of so many values with pieces that could not be removed a client knows at most.
const MOST_LEFT: usize = 1024;

/// How many bytes the drawn number of pieces has.
const NUMBER: usize = 16;

/// How many bytes of a value are in a piece: what a name has room for, of the number and an index.
const PIECE: usize = MOST_VALUE - 1 - (NUMBER + 4);

/// The first byte of a header.
const LAYOUT: u8 = 1;

/// Why a call was not done, or that nobody knows. Only `Named(Asked(Unknown))` says that nobody knows.
#[derive(Clone, Debug, PartialEq, Eq)]
pub enum Error {
    /// The value has more than [`MOST`] bytes.
    TooLong,
    /// The condition did not hold.
    Mismatch {
        /// The version of the newest write; 0 where there was none.
        version: u64,
        /// Whether there is a value.
        is_there: bool,
    },
    /// The value was replaced each time that it was read; or a write was passed by others each time.
    Changing,
    /// What is there is not what was put: something else writes in these tables.
    Broken,
    /// A piece was not acknowledged: the header was not written.
    Unwritten,
    /// No number can be drawn.
    NoNumber(io::ErrorKind),
    /// As of a call by name.
    Named(names::Error),
}

impl Display for Error {
    fn fmt(&self, out: &mut Formatter<'_>) -> fmt::Result {
        match self {
            Error::TooLong => write!(out, "not done: the value has more than {MOST} bytes"),
            Error::Mismatch { version, is_there: true } => write!(out, "not done: version {version} is there"),
            Error::Mismatch { version, is_there: false } => {
                write!(out, "not done: version {version} is there, without a value")
            }
            Error::Changing => write!(out, "not done: others change the value all the time"),
            Error::Broken => write!(out, "not read: its pieces are not those that were put"),
            Error::Unwritten => write!(out, "not done: a piece of the value was not acknowledged"),
            Error::NoNumber(kind) => write!(out, "not done: no number can be drawn: {kind}"),
            Error::Named(error) => error.fmt(out),
        }
    }
}

impl std::error::Error for Error {}

impl From<names::Error> for Error {
    fn from(error: names::Error) -> Error {
        Error::Named(error)
    }
}

const UNKNOWN: names::Error = names::Error::Asked(crate::Error::Unknown);

/// The pieces of a value, as its header has them.
#[derive(Clone, Copy, Debug, PartialEq, Eq)]
struct Pieces {
    number: [u8; NUMBER],
    length: usize,
    sum: [u8; 32],
}

impl Pieces {
    fn count(&self) -> usize {
        self.length.div_ceil(PIECE)
    }

    fn name(&self, index: usize) -> Vec<u8> {
        [&self.number[..], &(index as u32).to_le_bytes()].concat()
    }

    fn header(&self) -> Vec<u8> {
        let numbers = [self.count(), self.length].map(|number| (number as u32).to_le_bytes());
        [&[LAYOUT][..], &self.number, numbers.as_flattened(), &self.sum].concat()
    }

    fn of_header(header: &[u8]) -> Option<Pieces> {
        let length = u32::from_le_bytes(header.get(21..25)?.try_into().ok()?) as usize;
        let pieces =
            Pieces { number: header.get(1..17)?.try_into().ok()?, length, sum: header.get(25..)?.try_into().ok()? };
        (length <= MOST && pieces.header() == header).then_some(pieces)
    }
}

/// What the header of a name says.
#[derive(Clone, Copy, Debug, PartialEq, Eq)]
struct Header {
    version: u64,
    pieces: Option<Pieces>,
}

impl Header {
    fn of(found: &Found) -> Result<Header, Error> {
        let pieces = found.value.as_deref().map(|header| Pieces::of_header(header).ok_or(Error::Broken));
        Ok(Header { version: found.version, pieces: pieces.transpose()? })
    }

    fn meets(&self, condition: Option<Condition>) -> Result<(), Error> {
        let is_there = self.pieces.is_some();
        let holds = match condition {
            None => true,
            Some(Condition::Version(version)) => version == self.version,
            Some(Condition::Absent) => !is_there,
        };
        if holds { Ok(()) } else { Err(Error::Mismatch { version: self.version, is_there }) }
    }
}

/// What became of the write of a header.
enum Swapped {
    /// It was done, with this version.
    Done(u64),
    /// It was not done: this is there.
    Passed(Header),
    /// Nobody knows whether it was done; it is not there, and never will be. Where there is no value, the version.
    Gone(Option<u64>),
    /// Nobody knows; it may still be done.
    Open,
}

/// Pieces that are still to be removed: the first so many of a value.
struct Left {
    pieces: Pieces,
    count: usize,
    /// Where it is not known yet whether they are of use: they are of none once this name's header has a greater
    /// version than this, and other pieces.
    until: Option<(Vec<u8>, u64)>,
}

/// Values of up to 1 MiB under names.
///
/// ```no_run
/// use sevunthi_client::large::{Error, Large};
/// use sevunthi_client::{Client, Target};
///
/// let client = Client::new(Target::on("127.0.0.1", 7300, 4));
/// let mut large = Large::new(client, 1, 2);
/// let version = large.put(b"picture", &[7; 100_000])?;
/// assert_eq!(large.get(b"picture")?.value, Some(vec![7; 100_000]));
/// # Ok::<(), Error>(())
/// ```
pub struct Large<S> {
    store: S,
    headers: u32,
    pieces: u32,
    left: Vec<Left>,
    draw: fn() -> io::Result<[u8; NUMBER]>,
}

fn drawn() -> io::Result<[u8; NUMBER]> {
    let mut number = [0; NUMBER];
    File::open("/dev/urandom")?.read_exact(&mut number)?;
    Ok(number)
}

impl<S: Store> Large<S> {
    /// Values with headers and pieces in these two tables.
    pub fn new(store: S, headers: u32, pieces: u32) -> Large<S> {
        Large { store, headers, pieces, left: Vec::new(), draw: drawn }
    }

    /// The client that it asks with.
    pub fn store(&mut self) -> &mut S {
        &mut self.store
    }

    /// Reads a value, confirmed.
    ///
    /// # Errors
    ///
    /// That it was not read.
    pub fn get(&mut self, name: &[u8]) -> Result<Found, Error> {
        let mut header = self.header(name)?;
        for _ in 0..READS {
            let Some(pieces) = header.pieces else { return Ok(Found { version: header.version, value: None }) };
            if let Some(value) = self.read(&pieces)? {
                return Ok(Found { version: header.version, value: Some(value) });
            }
            let before = std::mem::replace(&mut header, self.header(name)?);
            if header == before {
                return Err(Error::Broken);
            }
        }
        Err(Error::Changing)
    }

    /// Writes a value, and gives its version.
    ///
    /// # Errors
    ///
    /// That it was not done, or that nobody knows.
    pub fn put(&mut self, name: &[u8], value: &[u8]) -> Result<u64, Error> {
        self.write(name, value, None)
    }

    /// Writes a value, if the version of the name's newest write is this one; 0 where there was none.
    ///
    /// # Errors
    ///
    /// [`Error::Mismatch`], where that is another version; else that it was not done, or that nobody knows.
    pub fn put_if(&mut self, name: &[u8], version: u64, value: &[u8]) -> Result<u64, Error> {
        self.write(name, value, Some(Condition::Version(version)))
    }

    /// Writes a value, if there is none.
    ///
    /// # Errors
    ///
    /// [`Error::Mismatch`], where there is one; else that it was not done, or that nobody knows.
    pub fn put_if_absent(&mut self, name: &[u8], value: &[u8]) -> Result<u64, Error> {
        self.write(name, value, Some(Condition::Absent))
    }

    /// Deletes a value, and gives the version of that. Where there is none nothing is written, and the version is that
    /// of the newest write.
    ///
    /// # Errors
    ///
    /// That it was not done, or that nobody knows.
    pub fn delete(&mut self, name: &[u8]) -> Result<u64, Error> {
        let header = self.header(name)?;
        if header.pieces.is_none() { Ok(header.version) } else { self.replace(name, header, None, None) }
    }

    /// Deletes a value, if the version of the name's newest write is this one.
    ///
    /// # Errors
    ///
    /// As of [`put_if`](Large::put_if).
    pub fn delete_if(&mut self, name: &[u8], version: u64) -> Result<u64, Error> {
        let (header, condition) = (self.header(name)?, Some(Condition::Version(version)));
        header.meets(condition)?;
        self.replace(name, header, None, condition)
    }

    /// Of how many values there are pieces that may be of no use, and that this client could not remove. It knows of
    /// 1,024 at most.
    pub fn left(&self) -> usize {
        self.left.len()
    }

    /// Tries again to remove pieces that are of no use.
    ///
    /// # Errors
    ///
    /// Why not all were removed. What is still to be done is kept in mind.
    pub fn tidy(&mut self) -> Result<(), Error> {
        let mut rest = std::mem::take(&mut self.left).into_iter();
        while let Some(left) = rest.next() {
            let said = self.tidy_one(&left);
            if said != Ok(true) {
                self.left.push(left);
            }
            if let Err(error) = said {
                self.left.extend(rest);
                return Err(error);
            }
        }
        Ok(())
    }

    /// Removes pieces, if it is known that they are of no use. Says whether nothing is left to do.
    fn tidy_one(&mut self, left: &Left) -> Result<bool, Error> {
        if let Some((name, version)) = &left.until {
            let header = self.header(name)?;
            if header.pieces == Some(left.pieces) {
                return Ok(*version < header.version);
            }
            if header.version <= *version {
                return Ok(false);
            }
        }
        self.try_remove(&left.pieces, left.count)?;
        Ok(true)
    }

    fn headers(&mut self) -> Names<&mut S> {
        Names::new(&mut self.store, self.headers)
    }

    fn pieces(&mut self) -> Names<&mut S> {
        Names::new(&mut self.store, self.pieces)
    }

    fn header(&mut self, name: &[u8]) -> Result<Header, Error> {
        Header::of(&self.headers().get(name)?)
    }

    /// The value of these pieces. None is where they are not all there.
    fn read(&mut self, pieces: &Pieces) -> Result<Option<Vec<u8>>, Error> {
        let (mut value, mut names) = (Vec::with_capacity(pieces.length), self.pieces());
        for index in 0..pieces.count() {
            match names.get(&pieces.name(index)) {
                Ok(Found { value: Some(piece), .. }) => value.extend(piece),
                Ok(Found { value: None, .. }) | Err(names::Error::Collision { .. }) => return Ok(None),
                Err(error) => return Err(error.into()),
            }
        }
        Ok((value.len() == pieces.length && sha256(&value) == pieces.sum).then_some(value))
    }

    fn write(&mut self, name: &[u8], value: &[u8], condition: Option<Condition>) -> Result<u64, Error> {
        if MOST < value.len() {
            return Err(Error::TooLong);
        }
        let header = self.header(name)?;
        header.meets(condition)?;
        let pieces = self.write_pieces(value)?;
        self.replace(name, header, Some(pieces), condition)
    }

    /// Writes pieces under a number of their own.
    fn write_pieces(&mut self, value: &[u8]) -> Result<Pieces, Error> {
        let sum = sha256(value);
        let mut said = Error::Unwritten;
        for _ in 0..DRAWS {
            let number = (self.draw)().map_err(|error| Error::NoNumber(error.kind()))?;
            let pieces = Pieces { number, length: value.len(), sum };
            let mut chunks = value.chunks(PIECE).enumerate();
            let failed = chunks.find_map(|(index, chunk)| Some((index, self.put_piece(&pieces, index, chunk).err()?)));
            let Some((index, error)) = failed else { return Ok(pieces) };
            let is_taken = matches!(error, names::Error::Collision { .. });
            // (what is of this very name and number is not one's own)
            let is_others = matches!(error, names::Error::Asked(crate::Error::Mismatch(_)));
            self.remove(Some(pieces), if is_others { index } else { index + 1 });
            said = if error == UNKNOWN { Error::Unwritten } else { error.into() };
            if !is_taken && !is_others {
                break;
            }
        }
        Err(said)
    }

    /// Writes a piece, and asks again where the answer was lost: it is written once at most.
    fn put_piece(&mut self, pieces: &Pieces, index: usize, chunk: &[u8]) -> Result<(), names::Error> {
        for _ in 0..=SETTLING {
            match self.pieces().put_if_absent(&pieces.name(index), chunk) {
                Err(UNKNOWN) => {}
                Err(names::Error::Asked(crate::Error::Mismatch(found))) if found.value.as_deref() == Some(chunk) => {
                    return Ok(());
                }
                said => return said.map(drop),
            }
        }
        Err(UNKNOWN)
    }

    /// Writes a header, or deletes it, behind the one that is there, where the condition holds of that. Removes the
    /// pieces that are of no use then.
    fn replace(
        &mut self,
        name: &[u8],
        mut header: Header,
        new: Option<Pieces>,
        condition: Option<Condition>,
    ) -> Result<u64, Error> {
        for _ in 0..names::TRIES {
            match self.swap(name, header.version, new.as_ref()) {
                Ok(Swapped::Done(version)) => {
                    self.remove_all(header.pieces);
                    return Ok(version);
                }
                Ok(Swapped::Gone(absent)) => {
                    self.remove_all(header.pieces);
                    let is_delete = new.is_none() && condition.is_none();
                    return absent.filter(|_| is_delete).map_or_else(|| self.give_up(new, UNKNOWN.into()), Ok);
                }
                Ok(Swapped::Open) => {
                    let until = Some((name.to_vec(), header.version));
                    header.pieces.into_iter().chain(new).for_each(|pieces| self.leave(pieces, until.clone()));
                    return Err(UNKNOWN.into());
                }
                Ok(Swapped::Passed(there)) => header = there,
                Err(error) => return self.give_up(new, error),
            }
            if let Err(error) = header.meets(condition) {
                return self.give_up(new, error);
            }
            if new.is_none() && header.pieces.is_none() {
                return Ok(header.version);
            }
        }
        self.give_up(new, Error::Changing)
    }

    /// Removes pieces that have got no header, and never will.
    fn give_up(&mut self, new: Option<Pieces>, error: Error) -> Result<u64, Error> {
        self.remove_all(new);
        Err(error)
    }

    /// Writes a header, or deletes it, if this is still its version; and asks again where the answer was lost.
    fn swap(&mut self, name: &[u8], version: u64, new: Option<&Pieces>) -> Result<Swapped, Error> {
        let mut is_lost = false;
        for _ in 0..=SETTLING {
            let said = match new {
                Some(pieces) => self.headers().put_if(name, version, &pieces.header()),
                None => self.headers().delete_if(name, version),
            };
            match said {
                Ok(version) => return Ok(Swapped::Done(version)),
                Err(names::Error::Asked(crate::Error::Mismatch(found))) => {
                    let there = Header::of(&found)?;
                    return Ok(if is_lost { settled(there, version, new) } else { Swapped::Passed(there) });
                }
                Err(UNKNOWN) => is_lost = true,
                Err(names::Error::Collision { .. }) if is_lost => return Ok(Swapped::Gone(None)),
                Err(error) if !is_lost => return Err(error.into()),
                Err(_) => {}
            }
        }
        Ok(Swapped::Open)
    }

    /// Removes all these pieces, or keeps in mind that they are to be removed.
    fn remove_all(&mut self, pieces: Option<Pieces>) {
        self.remove(pieces, pieces.map_or(0, |pieces| pieces.count()));
    }

    fn remove(&mut self, pieces: Option<Pieces>, count: usize) {
        let Some(pieces) = pieces else { return };
        if self.try_remove(&pieces, count).is_err() && self.left.len() < MOST_LEFT {
            self.left.push(Left { pieces, count, until: None });
        }
    }

    /// Keeps in mind that pieces may be of no use.
    fn leave(&mut self, pieces: Pieces, until: Option<(Vec<u8>, u64)>) {
        if self.left.len() < MOST_LEFT {
            self.left.push(Left { pieces, count: pieces.count(), until });
        }
    }

    fn try_remove(&mut self, pieces: &Pieces, count: usize) -> Result<(), names::Error> {
        (0..count).try_for_each(|index| {
            let name = pieces.name(index);
            let mut said = self.pieces().delete(&name);
            for _ in 0..SETTLING {
                if said != Err(UNKNOWN) {
                    break;
                }
                said = self.pieces().delete(&name);
            }
            match said {
                Err(names::Error::Collision { .. }) => Ok(()),
                said => said.map(drop),
            }
        })
    }
}

/// What became of a write under this version whose answer was lost, where this is there now.
fn settled(there: Header, version: u64, new: Option<&Pieces>) -> Swapped {
    let is_next = there.version == version + 1;
    match (new, &there.pieces) {
        (Some(new), Some(pieces)) if new == pieces => Swapped::Done(there.version),
        // another one's stands directly behind that version: so this one never does
        (Some(_), _) | (None, Some(_)) if is_next => Swapped::Passed(there),
        (_, None) => Swapped::Gone(Some(there.version)),
        (_, Some(_)) => Swapped::Gone(None),
    }
}

#[cfg(test)]
mod tests;
