//! A journal's file. It is written in sectors, each of which a disk writes whole or not at all, and each says of which
//! journal it is. So a save is written over an older journal as that stands: nothing of it is taken for the new one. A
//! file that was freed would be discarded by the disk, which keeps syncs waiting, and zeros would cost a byte for each.

use crate::disk;
use std::fs::File;
use std::io::{self, BufReader, Read, Write};
use std::os::unix::fs::{FileExt, OpenOptionsExt};
use std::path::Path;

/// So many bytes a disk writes whole, or not at all.
pub const SECTOR: usize = 512;

/// A sector begins with two bytes that say how many of the journal's follow, and six that number it, from 1 on.
const HEAD: usize = 8;

/// A sector has room for so many bytes of a journal. All but the last one have so many.
const MOST: usize = SECTOR - HEAD;

/// Whole blocks of so many bytes are written, which lie in memory at a multiple of that, past the page cache where the
/// file system can do that: a sync of what was written takes half to two thirds of the time then, and half of the
/// processor's.
pub const BLOCK: usize = 4096;

/// So many bytes are written at once, at the most.
const ROOM: usize = 1 << 18;

/// With this flag Linux opens a file for that, on x86-64.
const O_DIRECT: i32 = 0o40000;

/// Behind so many bytes of its file so many of a journal end.
pub fn end_of(length: usize) -> usize {
    let more = length % MOST;
    length / MOST * SECTOR + if more == 0 { 0 } else { HEAD + more }
}

/// The number of a sector's journal, and those of its bytes that count, as many as are there, if it is one.
fn sector(bytes: &[u8]) -> Option<(u64, &[u8])> {
    let (head, bytes) = bytes.split_first_chunk::<HEAD>()?;
    let head = u64::from_le_bytes(*head);
    let (number, count) = (head >> 16, (head & 0xffff) as usize);
    (0 < number && count <= MOST).then(|| (number, &bytes[..count.min(bytes.len())]))
}

/// What a journal's file has.
#[derive(Debug, PartialEq, Eq)]
pub struct Content {
    /// The journal's number.
    pub number: u64,
    /// Its bytes.
    pub bytes: Vec<u8>,
}

/// Reads a journal: its sectors have the number of the first one. It ends with one that is not full, or before one that
/// is another's.
pub fn read(file: impl Read) -> io::Result<Content> {
    let mut file = BufReader::with_capacity(ROOM, file);
    let mut content = Content { number: 0, bytes: Vec::new() };
    let mut room = Vec::with_capacity(SECTOR);
    loop {
        room.clear();
        file.by_ref().take(SECTOR as u64).read_to_end(&mut room)?;
        let Some((number, bytes)) = sector(&room) else { return Ok(content) };
        if content.number == 0 {
            content.number = number;
        }
        if number != content.number {
            return Ok(content);
        }
        content.bytes.extend_from_slice(bytes);
        if bytes.len() < MOST {
            return Ok(content);
        }
    }
}

/// The end of a journal's file. Behind its bytes the last block has zeros.
pub struct Sectors {
    file: File,
    is_direct: bool,
    number: u64,
    /// Where in the file the last block begins that is not full.
    begin: u64,
    /// From `front` on it has so many bytes of that block.
    room: Vec<u8>,
    front: usize,
    filled: usize,
}

impl Sectors {
    /// The end of the file of a journal that has this number and these bytes. It is made where it is not there.
    pub fn open(path: &Path, number: u64, bytes: &[u8]) -> io::Result<Sectors> {
        let mut options = disk::own_file();
        options.create(true).truncate(false).write(true);
        let direct = options.clone().custom_flags(O_DIRECT).open(path);
        let is_direct = direct.is_ok();
        let file = direct.or_else(|_| options.open(path))?;
        let room = vec![0; ROOM + BLOCK];
        let front = room.as_ptr().align_offset(BLOCK);
        let whole = end_of(bytes.len()) / BLOCK;
        let begin = (whole * BLOCK) as u64;
        let mut sectors = Sectors { file, is_direct, number, begin, room, front, filled: 0 };
        sectors.put(&bytes[whole * (BLOCK / SECTOR) * MOST..]);
        Ok(sectors)
    }

    /// The file.
    pub fn file(&self) -> &File {
        &self.file
    }

    /// The number of its journal.
    pub fn number(&self) -> u64 {
        self.number
    }

    /// Whether it is written past the page cache.
    pub fn is_direct(&self) -> bool {
        self.is_direct
    }

    /// Has the file end with its last block, in which zeros are left behind its bytes.
    pub fn cut(&mut self) -> io::Result<()> {
        self.write_room()?;
        let length = self.begin + self.filled.next_multiple_of(BLOCK) as u64;
        self.file.set_len(length)
    }

    /// Puts bytes into sectors, as many as there is room for, and says how many.
    fn put(&mut self, bytes: &[u8]) -> usize {
        let room = &mut self.room[self.front..self.front + ROOM];
        let mut rest = bytes;
        while !rest.is_empty() && self.filled < ROOM {
            let begin = self.filled / SECTOR * SECTOR;
            let at = self.filled.max(begin + HEAD);
            let count = rest.len().min(begin + SECTOR - at);
            let (now, later) = rest.split_at(count);
            room[at..at + count].copy_from_slice(now);
            self.filled = at + count;
            let head = self.number << 16 | (self.filled - begin - HEAD) as u64;
            room[begin..begin + HEAD].copy_from_slice(&head.to_le_bytes());
            rest = later;
        }
        bytes.len() - rest.len()
    }

    /// Writes the blocks that have bytes, and keeps the last one if it is not full.
    fn write_room(&mut self) -> io::Result<()> {
        let whole = self.filled.next_multiple_of(BLOCK);
        let room = &mut self.room[self.front..self.front + ROOM];
        room[self.filled..whole].fill(0);
        self.file.write_all_at(&room[..whole], self.begin)?;
        let full = self.filled / BLOCK * BLOCK;
        room.copy_within(full..self.filled, 0);
        self.begin += full as u64;
        self.filled -= full;
        Ok(())
    }
}

impl Write for Sectors {
    /// Adds bytes. The last block stands there before, and is written again with the same bytes at its front.
    fn write(&mut self, bytes: &[u8]) -> io::Result<usize> {
        let count = self.put(bytes);
        if 0 < count {
            self.write_room()?;
        }
        Ok(count)
    }

    fn flush(&mut self) -> io::Result<()> {
        Ok(())
    }
}

#[cfg(test)]
mod tests {
    use super::*;
    use crate::dice::Dice;
    use std::fs;

    fn file_for(name: &str) -> std::path::PathBuf {
        let path = std::env::temp_dir().join(format!("sevunthi-{name}-{}", std::process::id()));
        let _ = fs::remove_file(&path);
        path
    }

    fn some(length: usize) -> Vec<u8> {
        vec![1 + (length % 200) as u8; length]
    }

    /// Over the file of an older journal, which was longer.
    #[test]
    fn bytes_of_any_lengths_stand_one_behind_another() -> io::Result<()> {
        let path = file_for("sectors");
        let mut number = 1;
        Sectors::open(&path, number, &[])?.write_all(&some(5 * ROOM))?;
        for first in [0, 5, MOST, MOST + 1, 8 * MOST, 8 * MOST - 1, 30 * MOST + 1] {
            number += 1;
            let mut bytes = some(first);
            Sectors::open(&path, number, &[])?.write_all(&bytes)?;
            let mut sectors = Sectors::open(&path, number, &bytes)?;
            for length in [1, 0, MOST - 1, SECTOR, BLOCK, 7, ROOM, 2 * ROOM + 9, 1] {
                sectors.write_all(&some(length))?;
                bytes.extend(some(length));
                let file = fs::read(&path)?;
                assert!(read(&file[..])? == Content { number, bytes: bytes.clone() }, "{first}, {length}");
                assert!(read(&file[..end_of(bytes.len())])?.bytes == bytes, "{first}, {length}");
                let last = end_of(bytes.len());
                assert!(file[last..last.next_multiple_of(BLOCK)].iter().all(|byte| *byte == 0), "{first}, {length}");
            }
        }
        fs::remove_file(&path)
    }

    #[test]
    fn a_file_is_cut_to_bytes_that_are_good() -> io::Result<()> {
        let path = file_for("cut-sectors");
        let bytes = some(40 * MOST);
        for good in [0, 1, MOST - 1, MOST, MOST + 1, 7 * MOST + 9, 8 * MOST, 8 * MOST + 1, 40 * MOST] {
            Sectors::open(&path, 3, &[])?.write_all(&bytes)?;
            Sectors::open(&path, 3, &bytes[..good])?.cut()?;
            let file = fs::read(&path)?;
            assert_eq!(file.len(), end_of(good).next_multiple_of(BLOCK));
            assert!(read(&file[..])?.bytes == bytes[..good], "{good}");
        }
        fs::remove_file(&path)
    }

    /// A disk has written any of the sectors that were to be written over an older journal, and no others.
    #[test]
    fn of_an_older_journal_nothing_is_taken() -> io::Result<()> {
        let path = file_for("older-sectors");
        let write = |number, bytes: &[u8]| -> io::Result<Vec<u8>> {
            Sectors::open(&path, number, &[])?.write_all(bytes)?;
            fs::read(&path)
        };
        let older = write(1, &[1; 20 * MOST])?;
        let newer = write(2, &[2; 10 * MOST + 100])?;
        for written in 0..1 << 11 {
            let is_written = |at: usize| written >> at & 1 == 1;
            let mixed: Vec<u8> = (0..older.len() / SECTOR)
                .flat_map(|at| if is_written(at) { &newer } else { &older }[at * SECTOR..][..SECTOR].to_vec())
                .collect();
            let Content { number, bytes } = read(&mixed[..])?;
            let whole = (0..11).take_while(|at| is_written(*at)).count();
            if 0 < whole {
                assert!(number == 2 && bytes == vec![2; (whole * MOST).min(10 * MOST + 100)], "{written:b}");
            }
        }
        fs::remove_file(&path)
    }

    /// The last sector is written again with more bytes. Where a disk has not done that, but has written what is
    /// behind, the journal ends there.
    #[test]
    fn a_journal_ends_with_a_sector_that_is_not_full() -> io::Result<()> {
        let path = file_for("not-full-sectors");
        let mut sectors = Sectors::open(&path, 3, &[])?;
        sectors.write_all(&[1; 600])?;
        let before = fs::read(&path)?;
        sectors.write_all(&[2; 5000])?;
        let mut mixed = fs::read(&path)?;
        mixed[SECTOR..2 * SECTOR].copy_from_slice(&before[SECTOR..2 * SECTOR]);
        assert!(read(&mixed[..])? == Content { number: 3, bytes: vec![1; 600] });
        fs::remove_file(&path)
    }

    /// Files with some bytes changed, as many as `MUTATIONS` says: all that stands in the sectors before is read as it
    /// was, and behind those nothing that the file has no room for.
    #[test]
    fn mutations_of_a_file_are_read() -> io::Result<()> {
        let count = std::env::var("MUTATIONS").ok().and_then(|word| word.parse().ok()).unwrap_or(20_000);
        let path = file_for("mutated-sectors");
        let bytes: Vec<u8> = (0..7 * MOST + 100).map(|at| (at / 7) as u8).collect();
        Sectors::open(&path, 3, &[])?.write_all(&bytes)?;
        let file = fs::read(&path)?;
        fs::remove_file(&path)?;
        let mut dice = Dice::new(11);
        for _ in 0..count {
            let mut mutated = file.clone();
            let at = dice.below(file.len() as u64) as usize;
            match dice.below(3) {
                0 => mutated[at] ^= 1 << dice.below(8),
                1 => mutated.truncate(at),
                _ => mutated[at..].fill(dice.below(256) as u8),
            }
            let content = read(&mutated[..])?;
            // all sectors before that place are as they were, and so is what was read of them
            let whole = (at / SECTOR * MOST).min(bytes.len());
            let is_first = at < SECTOR;
            assert!(is_first || content.number == 3 && whole <= content.bytes.len(), "{at}");
            assert!(content.bytes.get(..whole).is_some_and(|read| read == &bytes[..whole]), "{at}");
            assert!(content.bytes.len() <= 8 * MOST, "{at}");
        }
        Ok(())
    }

    #[test]
    fn what_is_no_sector_is_nobodys() -> io::Result<()> {
        let all: [&[u8]; 6] = [
            &[],
            &[0; SECTOR],
            &[1; HEAD - 1],
            &[0xff; SECTOR],
            &[0xf9, 1, 1, 0, 0, 0, 0, 0],
            &[0xf8, 1, 0, 0, 0, 0, 0, 0],
        ];
        for bytes in all {
            assert_eq!(read(bytes)?, Content { number: 0, bytes: Vec::new() });
        }
        Ok(())
    }
}
