//! The keys of an owner's entries, in order. A node answers for one key at a time, and has no walk over them: so
//! whoever runs it keeps them beside.
//!
//! What an owner has it has from two sources, and both come by here: the writes that it took, each of which is
//! acknowledged when it is durable, and the entries of others that a recovery has brought, in the messages of the kind
//! Data. So each key that a Read finds a value at is among these. What is here and has no value, as after a delete, a
//! walk takes away: the next write of that key puts it back when it is acknowledged.

use sevunthi::message::{u32_at, u64_at};
use std::collections::{BTreeMap, BTreeSet};

/// Where the entries begin in the body of a Data, behind attempt, segment and term.
const ENTRIES: usize = 10;

/// Keys of tables, in order.
#[derive(Debug, Default)]
pub struct Keys {
    tables: BTreeMap<u32, BTreeSet<u64>>,
}

/// The tables and keys of the entries of a Data, up to one that is cut.
fn points(body: &[u8]) -> impl Iterator<Item = (u32, u64)> {
    let mut at = ENTRIES + 8;
    let count = u64_at(body, ENTRIES).unwrap_or(0);
    (0..count).map_while(move |_| {
        // term, table, key, version, and the value: a byte, and where that is not 0 its length and bytes
        let point = (u32_at(body, at + 4)?, u64_at(body, at + 8)?);
        let length = match body.get(at + 24)? {
            0 => 25,
            _ => usize::try_from(u64_at(body, at + 25)?).ok()?.checked_add(33)?,
        };
        at = at.checked_add(length).filter(|next| *next <= body.len())?;
        Some(point)
    })
}

impl Keys {
    /// A value may stand at this key. Odd ones are the owner's own, and are passed over.
    pub fn add(&mut self, table: u32, key: u64) {
        if key.is_multiple_of(2) {
            self.tables.entry(table).or_default().insert(key);
        }
    }

    /// So may values at the keys of a Data whose body this is.
    pub fn add_data(&mut self, body: &[u8]) {
        points(body).for_each(|(table, key)| self.add(table, key));
    }

    /// A Read has found no value at this key.
    pub fn remove(&mut self, table: u32, key: u64) {
        if let Some(keys) = self.tables.get_mut(&table) {
            keys.remove(&key);
        }
    }

    /// The keys of a table from one on up to another, in order.
    pub fn within(&self, table: u32, first: u64, last: u64) -> impl Iterator<Item = u64> {
        let keys = self.tables.get(&table).filter(|_| first <= last);
        keys.into_iter().flat_map(move |keys| keys.range(first..=last).copied())
    }

    /// How many there are.
    pub fn count(&self) -> usize {
        self.tables.values().map(BTreeSet::len).sum()
    }

    /// The server begins anew, and has nothing.
    pub fn clear(&mut self) {
        self.tables.clear();
    }
}

#[cfg(test)]
mod tests {
    use super::*;

    fn entry(table: u32, key: u64, value: Option<&[u8]>) -> Vec<u8> {
        let mut code = [&[7, 0, 0, 0][..], &table.to_le_bytes(), &key.to_le_bytes(), &[9; 8]].concat();
        match value {
            None => code.push(0),
            Some(value) => {
                code.push(1);
                code.extend_from_slice(&(value.len() as u64).to_le_bytes());
                code.extend_from_slice(value);
            }
        }
        code
    }

    #[test]
    fn the_keys_of_a_data_are_found_in_order() {
        let entries = [entry(1, 8, Some(b"long")), entry(1, 2, None), entry(2, 5, Some(b"")), entry(1, 4, Some(b"x"))];
        let body = [&[1; ENTRIES][..], &4_u64.to_le_bytes(), &entries.concat()].concat();
        let mut keys = Keys::default();
        keys.add_data(&body);
        assert_eq!(keys.within(1, 0, u64::MAX).collect::<Vec<_>>(), [2, 4, 8]);
        assert_eq!(keys.within(1, 3, 7).collect::<Vec<_>>(), [4]);
        assert_eq!((keys.within(1, 7, 3).count(), keys.within(3, 0, 9).count(), keys.count()), (0, 0, 3));
        keys.remove(1, 2);
        assert_eq!(keys.within(1, 0, 4).collect::<Vec<_>>(), [4]);
        // whatever is cut has no entry more
        for length in 0..body.len() {
            let mut cut = Keys::default();
            cut.add_data(&body[..length]);
            assert!(cut.count() < 3, "{length}");
        }
    }
}
