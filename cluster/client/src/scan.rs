//! Reads of a range of keys, page by page.

use crate::bytes::{u32_at, u64_at};
use crate::client::Client;
use crate::error::Error;
use crate::protocol::Op;
use std::collections::VecDeque;
use std::ops::RangeInclusive;

/// The greatest key.
pub const LAST_KEY: u64 = (1 << 63) - 1;

/// In an answer to a scan: all that was asked for was looked at.
pub const NO_MORE: u64 = u64::MAX;

/// One value that stands at a key.
#[derive(Clone, Debug, PartialEq, Eq)]
pub struct Entry {
    /// The key.
    pub key: u64,
    /// The version of its newest write.
    pub version: u64,
    /// The value.
    pub value: Vec<u8>,
}

/// All values from the first key asked for up to, and without, `next`, as they were at one moment, confirmed.
#[derive(Clone, Debug, Default, PartialEq, Eq)]
pub struct Page {
    /// The values, in order of keys. There may be none, though there are some behind.
    pub entries: Vec<Entry>,
    /// The key at which to go on; none where all that was asked for was looked at.
    pub next: Option<u64>,
}

/// What a scan asks for, behind its first key: the last key, and how many values at most.
pub fn wanted(last: u64, most: u32) -> Vec<u8> {
    [&last.to_le_bytes()[..], &most.to_le_bytes()].concat()
}

/// The last key, and how many values at most, that a scan asks for; none where these are other bytes.
pub fn read_wanted(value: &[u8]) -> Option<(u64, u32)> {
    (value.len() == 12).then_some((u64_at(value, 0)?, u32_at(value, 8)?))
}

impl Page {
    /// What an answer has of it: its version, and its value, in which each entry is key, version, length and value.
    pub fn code(&self) -> (u64, Vec<u8>) {
        let mut value = Vec::new();
        for entry in &self.entries {
            value.extend_from_slice(&entry.key.to_le_bytes());
            value.extend_from_slice(&entry.version.to_le_bytes());
            value.extend_from_slice(&(entry.value.len() as u32).to_le_bytes());
            value.extend_from_slice(&entry.value);
        }
        (self.next.unwrap_or(NO_MORE), value)
    }

    /// The page of an answer with this version and this value; none where they are no page.
    pub fn read(version: u64, value: &[u8]) -> Option<Page> {
        let (mut entries, mut rest) = (Vec::new(), value);
        while !rest.is_empty() {
            let (key, version, length) = (u64_at(rest, 0)?, u64_at(rest, 8)?, u32_at(rest, 16)? as usize);
            let (entry, others) = rest.split_at_checked(length.checked_add(20)?)?;
            entries.push(Entry { key, version, value: entry[20..].to_vec() });
            rest = others;
        }
        Some(Page { entries, next: (version != NO_MORE).then_some(version) })
    }
}

impl Client {
    /// Reads the values of these keys, at most so many of them, of one owner. Those of one page are of one moment,
    /// confirmed: no write is missed that was answered before this was asked. Between two pages others may write.
    ///
    /// # Errors
    ///
    /// That they were not read.
    pub fn scan(&mut self, table: u32, keys: RangeInclusive<u64>, most: u32) -> Result<Page, Error> {
        if keys.is_empty() {
            return Ok(Page::default());
        }
        let last = (*keys.end()).min(LAST_KEY);
        let found = self.ask(Op::Scan, table, *keys.start(), &wanted(last, most))?;
        Page::read(found.version, &found.value.unwrap_or_default()).ok_or(Error::Unknown)
    }

    /// The values of these keys, in order, read page by page.
    pub fn entries(&mut self, table: u32, keys: RangeInclusive<u64>) -> Entries<'_> {
        let next = (!keys.is_empty()).then_some(*keys.start());
        Entries { client: self, table, next, last: *keys.end(), page: VecDeque::new() }
    }
}

/// Values in order of their keys, by [`Client::entries`]. After an error it ends.
pub struct Entries<'a> {
    client: &'a mut Client,
    table: u32,
    /// Where the next page begins, if there is one.
    next: Option<u64>,
    last: u64,
    page: VecDeque<Entry>,
}

impl Iterator for Entries<'_> {
    type Item = Result<Entry, Error>;

    fn next(&mut self) -> Option<Self::Item> {
        loop {
            if let Some(entry) = self.page.pop_front() {
                return Some(Ok(entry));
            }
            let first = self.next.take()?;
            match self.client.scan(self.table, first..=self.last, u32::MAX) {
                Ok(page) => {
                    // a page that goes on where it began would go on for ever
                    self.next = page.next.filter(|next| first < *next);
                    self.page = page.entries.into();
                }
                Err(error) => return Some(Err(error)),
            }
        }
    }
}

#[cfg(test)]
mod tests {
    use super::*;

    #[test]
    fn pages_come_back_and_cut_ones_are_none() {
        let entries = [(3, 9, &b"three"[..]), (5, 1, b"")];
        let entries = entries.map(|(key, version, value)| Entry { key, version, value: value.to_vec() });
        for next in [None, Some(7), Some(1 << 62)] {
            let page = Page { entries: entries.to_vec(), next };
            let (version, value) = page.code();
            assert_eq!(Page::read(version, &value), Some(page));
            // 25 bytes are the first entry alone
            assert!((1..value.len()).all(|length| Page::read(version, &value[..length]).is_some() == (length == 25)));
        }
        assert_eq!(read_wanted(&wanted(9, 4)), Some((9, 4)));
        assert_eq!(read_wanted(&[0; 11]).or(read_wanted(&[0; 13])), None);
    }
}
