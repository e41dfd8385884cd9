//! What the store's key `head` says, and what a folder has seen of it: so that a store which was emptied, or put back as
//! it was, is noticed.

use crate::disk;
use std::fs;
use std::io::{self, ErrorKind};
use std::path::{Path, PathBuf};
use std::sync::{Arc, Mutex, PoisonError};
use std::thread;
use std::time::Duration;

/// The file of a coordinator's folder that has what was seen last of `head`.
pub const SEEN: &str = "seen";

/// What was seen is safe so soon.
const SOON: Duration = Duration::from_secs(1);

/// How far the journal has come: its epoch, which rises with each save, how many records and bytes it has, and the clock
/// of what it was written for.
#[derive(Clone, Copy, Debug, Default, PartialEq, Eq)]
pub struct Head {
    /// The journal's number.
    pub epoch: u64,
    /// How many records, or pieces of a save.
    pub count: u64,
    /// How many bytes they have.
    pub bytes: u64,
    /// The clock of the record.
    pub clock: u64,
}

/// What `head` names.
#[derive(Clone, Copy, Debug, PartialEq, Eq)]
pub enum Named {
    /// The journal.
    Journal(Head),
    /// The journal as it was when it was moved to a coordinator's folder. It is not here any more.
    Moved(Head),
}

/// How `head` begins where the journal is not here any more.
const MOVED: &str = "moved ";

impl Head {
    /// As `head` has it.
    pub fn text(self) -> String {
        format!("{} {} {} {}", self.epoch, self.count, self.bytes, self.clock)
    }

    fn read(text: &str) -> Option<Head> {
        let numbers: Vec<u64> = text.trim().split(' ').map(|word| word.parse().ok()).collect::<Option<_>>()?;
        let [epoch, count, bytes, clock] = numbers[..] else { return None };
        Some(Head { epoch, count, bytes, clock })
    }

    /// Whether it has come less far than another.
    pub fn is_before(self, other: Head) -> bool {
        (self.epoch, self.count) < (other.epoch, other.count)
    }
}

impl Named {
    /// What this value of `head` names; none where it is damaged.
    pub fn read(value: &[u8]) -> Option<Named> {
        let text = std::str::from_utf8(value).ok()?;
        match text.strip_prefix(MOVED) {
            Some(text) => Head::read(text).map(Named::Moved),
            None => Head::read(text).map(Named::Journal),
        }
    }

    /// As `head` has it.
    pub fn text(self) -> String {
        match self {
            Named::Journal(head) => head.text(),
            Named::Moved(head) => format!("{MOVED}{}", head.text()),
        }
    }
}

/// What a folder has seen.
#[derive(Clone)]
pub struct Seen {
    path: PathBuf,
    last: Arc<Mutex<Option<Head>>>,
}

impl Seen {
    /// That of this folder. An error of the kind `InvalidData` says that the file is damaged.
    pub fn of(folder: &Path) -> io::Result<Seen> {
        let path = folder.join(SEEN);
        let last = match fs::read_to_string(&path) {
            Ok(text) => {
                let damaged = || io::Error::new(ErrorKind::InvalidData, format!("{} is damaged", path.display()));
                Some(Head::read(&text).ok_or_else(damaged)?)
            }
            Err(error) if error.kind() == ErrorKind::NotFound => None,
            Err(error) => return Err(error),
        };
        Ok(Seen { path, last: Arc::new(Mutex::new(last)) })
    }

    /// What was seen last.
    pub fn last(&self) -> Option<Head> {
        *self.last.lock().unwrap_or_else(PoisonError::into_inner)
    }

    /// This was seen, which is written down soon.
    pub fn note(&self, head: Head) {
        *self.last.lock().unwrap_or_else(PoisonError::into_inner) = Some(head);
    }

    /// This was seen, and is safe.
    pub fn write(&self, head: Head) -> io::Result<()> {
        self.note(head);
        disk::write_whole(&self.path, format!("{}\n", head.text()).as_bytes())
    }

    /// From now on a thread writes down what is noted. Where it can't, it says so.
    pub fn write_beside(&self, failed: impl Fn(io::Error) + Send + 'static) {
        let seen = self.clone();
        let mut written = self.last();
        thread::spawn(move || {
            loop {
                thread::sleep(SOON);
                let Some(head) = seen.last().filter(|last| Some(*last) != written) else { continue };
                match disk::write_whole(&seen.path, format!("{}\n", head.text()).as_bytes()) {
                    Ok(()) => written = Some(head),
                    Err(error) => failed(error),
                }
            }
        });
    }

    /// What a value of `head` names, if a coordinator with this folder may go on with it: none is a store without a
    /// journal yet.
    ///
    /// # Errors
    ///
    /// Why it may not, in words.
    pub fn judge(&self, value: Option<&[u8]>) -> Result<Option<Head>, String> {
        let seen = self.last();
        let named = value.map(|value| Named::read(value).ok_or("etcd's key `head` is damaged")).transpose()?;
        match (named, seen) {
            (None, None) => Ok(None),
            (None, Some(seen)) => Err(format!(
                "etcd has no journal of this cluster, and this folder has seen one of {} bytes: etcd was emptied, or is \
                 another. Put back what it had",
                seen.bytes
            )),
            (Some(Named::Moved(_)), _) => {
                Err("the journal was moved from etcd into a coordinator's folder: start that \
                                               one alone, without --store"
                    .to_string())
            }
            (Some(Named::Journal(head)), Some(seen)) if head.is_before(seen) => Err(format!(
                "etcd has an older journal, of epoch {} with {} records, than this folder has seen, of epoch {} with \
                 {}: it was put back. Put back what it had last",
                head.epoch, head.count, seen.epoch, seen.count
            )),
            (Some(Named::Journal(head)), _) => Ok(Some(head)),
        }
    }
}

#[cfg(test)]
mod tests {
    use super::*;

    fn head(epoch: u64, count: u64) -> Head {
        Head { epoch, count, bytes: 100, clock: 7 }
    }

    #[test]
    fn what_head_says_is_read_again() {
        for named in [Named::Journal(head(3, 4)), Named::Moved(head(5, 6))] {
            assert_eq!(Named::read(named.text().as_bytes()), Some(named));
        }
        for wrong in [&b""[..], b"1 2 3", b"1 2 3 4 5", b"moved", b"a 2 3 4", b"\xff"] {
            assert_eq!(Named::read(wrong), None);
        }
    }

    #[test]
    fn an_older_or_emptied_store_is_refused() -> io::Result<()> {
        let folder = std::env::temp_dir().join(format!("sevunthi-seen-{}", std::process::id()));
        let _ = fs::remove_dir_all(&folder);
        disk::make_folder(&folder)?;
        let seen = Seen::of(&folder)?;
        let judge =
            |seen: &Seen, named: Option<Named>| seen.judge(named.map(Named::text).as_deref().map(str::as_bytes));
        assert_eq!(judge(&seen, None), Ok(None));
        assert_eq!(judge(&seen, Some(Named::Journal(head(1, 1)))), Ok(Some(head(1, 1))));
        seen.write(head(3, 4))?;
        let seen = Seen::of(&folder)?;
        for (epoch, count) in [(3, 4), (3, 5), (4, 1)] {
            assert_eq!(judge(&seen, Some(Named::Journal(head(epoch, count)))), Ok(Some(head(epoch, count))));
        }
        for (epoch, count) in [(3, 3), (2, 9)] {
            let refused = judge(&seen, Some(Named::Journal(head(epoch, count))));
            assert!(refused.is_err_and(|why| why.starts_with("etcd has an older journal")));
        }
        assert!(judge(&seen, None).is_err_and(|why| why.contains("etcd was emptied")));
        assert!(judge(&seen, Some(Named::Moved(head(9, 9)))).is_err_and(|why| why.contains("was moved")));
        assert!(seen.judge(Some(b"what")).is_err_and(|why| why.contains("is damaged")));
        fs::write(folder.join(SEEN), "3 4")?;
        assert!(Seen::of(&folder).is_err_and(|error| error.kind() == ErrorKind::InvalidData));
        fs::remove_dir_all(folder)
    }
}
