//! What hosts have told of their folders, as the store has it: for whoever leads next. All coordinators have one folder
//! number for the hosts' guard, which stands there too. A new host is let in once the store has it.

use std::sync::{Mutex, MutexGuard, PoisonError};
use std::time::{Duration, Instant};

/// What is to be kept is put so soon, but what is wanted at once.
const SOON: Duration = Duration::from_secs(1);

/// What is to be kept, and how far it is.
#[derive(Debug)]
pub struct Told {
    rows: Mutex<Rows>,
}

#[derive(Debug)]
struct Rows {
    bytes: Vec<u8>,
    /// It rises with each change.
    version: u64,
    /// The one that the store has.
    safe: u64,
    is_urgent: bool,
    put: Instant,
}

impl Told {
    /// What the store has already.
    pub fn of(bytes: Vec<u8>) -> Told {
        Told { rows: Mutex::new(Rows { bytes, version: 0, safe: 0, is_urgent: false, put: Instant::now() }) }
    }

    fn lock(&self) -> MutexGuard<'_, Rows> {
        self.rows.lock().unwrap_or_else(PoisonError::into_inner)
    }

    /// This is to be kept, perhaps at once. Gives its version.
    pub fn keep(&self, bytes: Vec<u8>, is_urgent: bool) -> u64 {
        let mut rows = self.lock();
        rows.bytes = bytes;
        rows.version += 1;
        rows.is_urgent |= is_urgent;
        rows.version
    }

    /// Whether the store has this version, or a later one.
    pub fn has(&self, version: u64) -> bool {
        version <= self.lock().safe
    }

    /// What is to be put now, with its version.
    pub fn due(&self) -> Option<(u64, Vec<u8>)> {
        let rows = self.lock();
        let is_due = rows.safe < rows.version && (rows.is_urgent || SOON <= rows.put.elapsed());
        is_due.then(|| (rows.version, rows.bytes.clone()))
    }

    /// The store has this version.
    pub fn put(&self, version: u64) {
        let mut rows = self.lock();
        rows.safe = rows.safe.max(version);
        rows.is_urgent &= rows.safe < rows.version;
        rows.put = Instant::now();
    }
}

#[cfg(test)]
mod tests {
    use super::*;

    #[test]
    fn what_is_urgent_is_put_at_once_and_all_else_soon() {
        let told = Told::of(b"first".to_vec());
        assert!(told.due().is_none() && told.has(0));
        let version = told.keep(b"second".to_vec(), false);
        assert!(told.due().is_none() && !told.has(version));
        let urgent = told.keep(b"third".to_vec(), true);
        assert_eq!(told.due(), Some((urgent, b"third".to_vec())));
        told.keep(b"fourth".to_vec(), false);
        told.put(urgent);
        assert!(told.has(urgent) && told.has(version));
        let (last, bytes) = told.due().expect("what came behind it is not put yet");
        assert_eq!(bytes, b"fourth");
        told.put(last);
        assert!(told.due().is_none() && told.has(last));
    }
}
