//! What a node keeps, as its save says (docs/BYTES.md).

use sevunthi::Id;
use sevunthi::message::{u16_at, u32_at, u64_at};
use std::collections::{BTreeMap, BTreeSet};

/// A replica, as it is kept, or as its backup has told its master of it.
#[derive(Clone, Copy, Debug, PartialEq, Eq)]
pub struct Replica {
    pub epoch: u16,
    pub length: u64,
    pub is_closed: bool,
}

/// What a host keeps.
#[derive(Debug, Default, PartialEq, Eq)]
pub struct Host {
    pub generation: u32,
    pub replicas: BTreeMap<(Id, u16), Replica>,
    pub fenced: BTreeSet<Id>,
}

/// What the coordinator keeps, as far as others know it.
#[derive(Debug, Default, PartialEq, Eq)]
pub struct Book {
    pub version: u32,
    pub attempts: u64,
    pub term: u32,
    /// Of each master the least segment and epoch that it may still rely on.
    pub least: BTreeMap<Id, (u16, u16)>,
}

/// What a node keeps.
#[derive(Debug, PartialEq, Eq)]
pub enum Kept {
    Host(Host),
    Coordinator(Book),
}

impl Kept {
    /// What this save says, if it is one.
    pub fn read(save: &[u8]) -> Option<Kept> {
        let mut code = Code(save.get(12..)?);
        code.byte()?;
        let kept = match code.byte()? {
            9 => Kept::Host(code.host()?),
            10 => Kept::Coordinator(code.book()?),
            _ => return None,
        };
        code.0.is_empty().then_some(kept)
    }
}

/// The bytes that are left to be read.
struct Code<'a>(&'a [u8]);

impl Code<'_> {
    fn skip(&mut self, count: usize) -> Option<()> {
        self.0 = self.0.get(count..)?;
        Some(())
    }

    fn byte(&mut self) -> Option<u8> {
        let byte = *self.0.first()?;
        self.skip(1)?;
        Some(byte)
    }

    fn short(&mut self) -> Option<u16> {
        let number = u16_at(self.0, 0)?;
        self.skip(2)?;
        Some(number)
    }

    fn long(&mut self) -> Option<u32> {
        let number = u32_at(self.0, 0)?;
        self.skip(4)?;
        Some(number)
    }

    fn number(&mut self) -> Option<u64> {
        let number = u64_at(self.0, 0)?;
        self.skip(8)?;
        Some(number)
    }

    fn id(&mut self) -> Option<Id> {
        let id = Id::read(self.0)?;
        self.skip(5)?;
        Some(id)
    }

    /// Reads each of a list, and says how many there are.
    fn list(&mut self, mut read: impl FnMut(&mut Self) -> Option<()>) -> Option<u64> {
        let count = self.number()?;
        (0..count).try_for_each(|_| read(self))?;
        Some(count)
    }

    /// A list of which each takes so many bytes.
    fn skip_list(&mut self, size: usize) -> Option<u64> {
        self.list(|code| code.skip(size))
    }

    fn host(&mut self) -> Option<Host> {
        self.skip(1 + 1 + 2 + 1)?;
        let mut host = Host { generation: self.long()?, ..Host::default() };
        self.skip(1 + 5)?;
        self.list(|code| {
            let master = code.id()?;
            if code.byte()? == 1 {
                host.fenced.insert(master);
            }
            code.list(|code| {
                let segment = code.short()?;
                host.replicas.insert((master, segment), code.replica()?);
                Some(())
            })?;
            code.skip_list(2)?;
            Some(())
        })?;
        Some(host)
    }

    fn replica(&mut self) -> Option<Replica> {
        let (epoch, is_closed) = (self.short()?, self.byte()? == 1);
        self.skip_list(2)?;
        let length = self.list(|code| {
            code.skip(4 + 4 + 8 + 8)?;
            match code.byte()? {
                0 => Some(()),
                _ => {
                    let count = code.number()?;
                    code.skip(count as usize)
                }
            }
        })?;
        Some(Replica { epoch, length, is_closed })
    }

    fn book(&mut self) -> Option<Book> {
        let mut book = Book { version: self.long()?, ..Book::default() };
        self.skip_list(5 + 1)?;
        self.skip_list(5)?;
        self.skip_list(4 + 8 + 8 + 5 + 4 + 1)?;
        self.list(|code| {
            let master = code.id()?;
            book.least.insert(master, (code.short()?, code.short()?));
            Some(())
        })?;
        book.attempts = self.list(Code::attempt)?;
        self.skip_list(5 + 4)?;
        self.skip_list(4 + 8 + 8 + 4 + 4 + 4 + 5)?;
        book.term = self.long()?;
        Some(book)
    }

    fn attempt(&mut self) -> Option<()> {
        self.id()?;
        self.list(|code| {
            code.id()?;
            code.list(|code| {
                code.skip(2 + 2 + 1 + 8)?;
                code.skip_list(2)?;
                Some(())
            })?;
            Some(())
        })?;
        if self.byte()? == 1 {
            self.short()?;
            self.skip_list(2 + 5 + 8)?;
            self.skip_list(5 + 4 + 8 + 8 + 4 + 4)?;
        }
        Some(())
    }
}

#[cfg(test)]
mod tests {
    use super::*;

    /// The bytes that are written in hexadecimal.
    fn bytes(text: &str) -> Vec<u8> {
        let digits: Vec<u32> = text.chars().filter_map(|digit| digit.to_digit(16)).collect();
        digits.chunks(2).map(|pair| (16 * pair[0] + pair[1]) as u8).collect()
    }

    #[test]
    fn the_saves_of_the_page_on_bytes_are_read() {
        let host = "3100000000000000 505eeb89 01 09 02 02 0400 01 01000000 01 02 01000000 0100000000000000
            00 01000000 01 0000000000000000 0100000000000000 0300";
        let fenced = BTreeSet::from([Id { index: 0, generation: 1 }]);
        let kept = Kept::Host(Host { generation: 1, fenced, ..Host::default() });
        assert_eq!(Kept::read(&bytes(host)), Some(kept));
        let book = [&bytes("4200000000000000 ef1b72c0 01 0a 00000000")[..], &[0; 56], &[0; 4]].concat();
        assert_eq!(Kept::read(&book), Some(Kept::Coordinator(Book::default())));
        assert!((0..book.len()).all(|length| Kept::read(&book[..length]).is_none()));
    }
}
