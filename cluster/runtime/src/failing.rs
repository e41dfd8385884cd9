//! What a test has go wrong with a journal. That a disk is full, or nearly, says a file beside the journal, so that it
//! outlives the process.

use std::fs::{self, File};
use std::io::{self, ErrorKind, Write};
use std::os::unix::fs::FileExt;
use std::path::{Path, PathBuf};
use std::thread;
use std::time::Instant;

/// While this file is there, each write to the journal writes half, and the disk is full.
pub const FULL: &str = "full";

/// While this file is there, the disk has room for bytes at a journal's end, and for half of the zeros ahead of them.
pub const NEARLY_FULL: &str = "nearly-full";

/// The journal's file as it was before a save that a test has ended.
pub const BEFORE: &str = "before";

/// How many bytes of that were safe.
pub const SAFE_BEFORE: &str = "before-safe";

/// What goes wrong with a journal.
#[derive(Clone, Debug, Default)]
pub struct Failing {
    folder: Option<PathBuf>,
    /// The next sync fails.
    pub sync: bool,
    /// The disk stands still until then.
    pub stands_until: Option<Instant>,
    /// The process ends in the next save, after this step.
    pub end_in_save: Option<u8>,
    /// The next save finds the disk full.
    pub full_in_save: bool,
}

impl Failing {
    /// Faults can be asked for in this folder, from now on.
    pub fn in_folder(folder: &Path) -> Failing {
        Failing { folder: Some(folder.into()), ..Failing::default() }
    }

    /// Writes bytes, or half of them where the disk is to be full.
    pub fn write(&self, mut file: impl Write, bytes: &[u8], is_save: bool) -> io::Result<()> {
        if self.has(FULL) && !bytes.is_empty() || is_save && self.full_in_save {
            file.write_all(&bytes[..bytes.len() / 2])?;
            return Err(ErrorKind::StorageFull.into());
        }
        file.write_all(bytes)
    }

    /// Writes zeros ahead of a journal's end, or half of them where the disk is to be nearly full.
    pub fn write_ahead(&self, file: &File, zeros: &[u8], at: u64) -> io::Result<()> {
        if self.has(NEARLY_FULL) {
            file.write_all_at(&zeros[..zeros.len() / 2], at)?;
            return Err(ErrorKind::StorageFull.into());
        }
        file.write_all_at(zeros, at)
    }

    fn has(&self, file: &str) -> bool {
        self.folder.as_ref().is_some_and(|folder| folder.join(file).exists())
    }

    /// Waits while the disk is to stand still, and fails where the next sync is to fail.
    pub fn sync(&self) -> io::Result<()> {
        if let Some(until) = self.stands_until {
            thread::sleep(until.saturating_duration_since(Instant::now()));
        }
        if self.sync { Err(io::Error::other("the disk has failed")) } else { Ok(()) }
    }

    /// Before a save that is to end: keeps the journal's file, so that a test can put it back as a power cut may.
    pub fn keep_before(&self, safe: usize) -> io::Result<()> {
        let (Some(folder), Some(_)) = (&self.folder, self.end_in_save) else { return Ok(()) };
        fs::write(folder.join(SAFE_BEFORE), (safe as u64).to_le_bytes())?;
        let before = folder.join(BEFORE);
        let _ = fs::remove_file(&before);
        fs::hard_link(folder.join("journal"), before)
    }

    /// Ends the process at once, where it is to end after this step of a save.
    pub fn after(&self, step: u8) {
        if self.end_in_save == Some(step) {
            eprintln!("ends in a save, after step {step}");
            std::process::abort();
        }
    }
}
