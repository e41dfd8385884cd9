//! A record of each message that leaves, with the clock at which it left: the clock in eight bytes, the length in four,
//! the coded message.

use crate::disk;
use sevunthi::message::{u32_at, u64_at};
use std::fs::{self, File};
use std::io::{self, Write};
use std::os::unix::fs::FileExt;
use std::path::Path;

/// The record of a process, which goes on where an earlier one of the same node has ended.
pub struct Record {
    file: File,
    clock: File,
    noted: u64,
    pending: Vec<u8>,
}

impl Record {
    /// Opens the record in this folder. What an end of the process has cut in the middle is taken away: it never left.
    pub fn open(folder: &Path) -> io::Result<Record> {
        let path = folder.join("record");
        let file = disk::own_file().create(true).append(true).open(&path)?;
        let bytes = fs::read(&path)?;
        let whole = messages(&bytes).map(|(_, message)| 12 + message.len()).sum::<usize>();
        file.set_len(whole as u64)?;
        let noted = fs::read(folder.join("clock")).ok().and_then(|bytes| u64_at(&bytes, 0)).unwrap_or(0);
        let clock = disk::own_file().create(true).truncate(false).write(true).open(folder.join("clock"))?;
        Ok(Record { file, clock, noted, pending: Vec::new() })
    }

    /// The greatest clock that was noted. Whatever the node knows came no later.
    pub fn noted(&self) -> u64 {
        self.noted
    }

    /// Notes the clock: before a journal has what came by then, and before anything leaves.
    pub fn note(&mut self, clock: u64) -> io::Result<()> {
        if self.noted < clock {
            self.clock.write_all_at(&clock.to_le_bytes(), 0)?;
            self.noted = clock;
        }
        Ok(())
    }

    /// Adds a message that is about to leave.
    pub fn add(&mut self, clock: u64, message: &[u8]) {
        self.pending.extend_from_slice(&clock.to_le_bytes());
        self.pending.extend_from_slice(&(message.len() as u32).to_le_bytes());
        self.pending.extend_from_slice(message);
    }

    /// Writes what was added.
    pub fn write(&mut self) -> io::Result<()> {
        self.file.write_all(&self.pending)?;
        self.pending.clear();
        Ok(())
    }
}

/// The clock and the message of each record, up to one that was cut.
pub fn messages(bytes: &[u8]) -> impl Iterator<Item = (u64, &[u8])> {
    let mut rest = bytes;
    std::iter::from_fn(move || {
        let (clock, length) = (u64_at(rest, 0)?, u32_at(rest, 8)? as usize);
        let message = rest.get(12..12 + length)?;
        rest = &rest[12 + length..];
        Some((clock, message))
    })
}

#[cfg(test)]
mod tests {
    use super::*;

    #[test]
    fn a_record_goes_on_behind_what_was_whole() -> io::Result<()> {
        let folder = std::env::temp_dir().join(format!("sevunthi-record-{}", std::process::id()));
        let _ = fs::remove_dir_all(&folder);
        fs::create_dir_all(&folder)?;
        let mut record = Record::open(&folder)?;
        record.add(7, b"first");
        record.note(7)?;
        record.write()?;
        record.add(9, b"second");
        record.pending.truncate(15);
        record.write()?;
        let mut record = Record::open(&folder)?;
        assert_eq!(record.noted(), 7);
        record.add(10, b"third");
        record.write()?;
        let bytes = fs::read(folder.join("record"))?;
        assert_eq!(messages(&bytes).collect::<Vec<_>>(), [(7, &b"first"[..]), (10, &b"third"[..])]);
        fs::remove_dir_all(&folder)
    }
}
