//! What a power cut, or a disk, leaves of a node's folder while its process does not run.

use crate::dice::Dice;
use crate::faults::{BEFORE, SAFE_BEFORE};
use crate::sectors::{self, BLOCK, end_of};
use sevunthi::message::u64_at;
use std::fs::{self, File, OpenOptions};
use std::io;
use std::os::unix::fs::FileExt;
use std::path::Path;

/// What has become of a folder's files.
#[derive(Clone, Copy, Debug, Default)]
pub struct Lost {
    /// Bytes of the journal's file that were not safe and are gone.
    pub bytes: u64,
    /// Whether some that were not safe are others now.
    pub is_damaged: bool,
    /// Whether a save that had taken the journal's place is gone, and what was there before is back.
    pub is_rename_lost: bool,
    /// Whether the number of bytes that were safe is an older one.
    pub is_number_older: bool,
}

/// The number of bytes of a journal that a folder knows to be safe.
fn known(folder: &Path, name: &str) -> Option<u64> {
    u64_at(&fs::read(folder.join(name)).ok()?, 0)
}

/// Behind so many bytes of its file these end.
fn safe_end(folder: &Path, name: &str) -> Option<u64> {
    known(folder, name).map(|known| end_of(known as usize) as u64)
}

/// Behind so many bytes of its file a journal ends, as far as it can be read.
fn end_in(file: &[u8]) -> io::Result<u64> {
    sectors::read(file).map(|content| end_of(content.bytes.len()) as u64)
}

/// A power cut: what was not synced is there or not, whole or damaged; of the steps of a save that were not synced each
/// may be lost; and the number of safe bytes, which is never synced, may be an older one.
pub fn cut_power(folder: &Path, dice: &mut Dice) -> io::Result<Lost> {
    let mut lost = Lost::default();
    let journal = folder.join("journal");
    if !journal.exists() {
        return Ok(lost);
    }
    spoil_end(&folder.join("next"), 0, dice, &mut Lost::default())?;
    let mut safe = match safe_end(folder, "known") {
        // in the middle of a save, and where a process has not synced since it began: nothing tells what was safe
        Some(0) | None => end_in(&fs::read(&journal)?)?,
        Some(safe) => safe,
    };
    let before = folder.join(BEFORE);
    if before.exists() {
        // a save was begun: either its rename has happened, or not; and if it has, the folder may not know
        let is_renamed = is_other_file(&before, &journal)?;
        if !is_renamed {
            safe = safe_end(folder, SAFE_BEFORE).unwrap_or(safe);
        } else if dice.below(2) == 0 {
            fs::rename(&before, &journal)?;
            lost.is_rename_lost = true;
            safe = safe_end(folder, SAFE_BEFORE).unwrap_or(0);
        } else {
            safe = end_in(&fs::read(&journal)?)?;
        }
    }
    spoil_end(&journal, safe, dice, &mut lost)?;
    if dice.below(4) == 0 {
        let older = dice.below(known(folder, "known").unwrap_or(0) + 1);
        File::options().write(true).open(folder.join("known"))?.write_all_at(&older.to_le_bytes(), 0)?;
        lost.is_number_older = true;
    }
    forget_save(folder);
    Ok(lost)
}

fn is_other_file(one: &Path, other: &Path) -> io::Result<bool> {
    use std::os::unix::fs::MetadataExt;
    Ok(fs::metadata(one)?.ino() != fs::metadata(other)?.ino())
}

/// What was kept of the time before a save is not needed any more.
pub fn forget_save(folder: &Path) {
    let _ = fs::remove_file(folder.join(BEFORE));
    let _ = fs::remove_file(folder.join(SAFE_BEFORE));
}

/// Cuts what was not safe off somewhere, or leaves zeros in its place, and what the file had behind it; and damages
/// some of what is left.
fn spoil_end(path: &Path, safe: u64, dice: &mut Dice, lost: &mut Lost) -> io::Result<()> {
    let Ok(file) = OpenOptions::new().write(true).open(path) else { return Ok(()) };
    let whole = fs::read(path)?;
    let end = end_in(&whole)?;
    if end <= safe {
        return Ok(());
    }
    let left = safe + dice.below(end - safe + 1);
    file.set_len(left)?;
    if left.is_multiple_of(2) {
        // an older journal has sectors there
        let behind = (end as usize).next_multiple_of(BLOCK).min(whole.len());
        file.write_all_at(&whole[behind..], behind as u64)?;
        file.set_len(whole.len() as u64)?;
    }
    lost.bytes = end - left;
    if left <= safe || dice.below(2) == 0 {
        return Ok(());
    }
    let at = safe + dice.below(left - safe);
    let count = 1 + dice.below(left - at);
    match dice.below(3) {
        0 => file.write_all_at(&dice.bytes(count), at)?,
        1 => file.write_all_at(&vec![0; count as usize], at)?,
        // the length is there, and the bytes are not
        _ => {
            file.set_len(at)?;
            file.set_len(whole.len() as u64)?;
        }
    }
    lost.is_damaged = true;
    Ok(())
}

/// How a journal that was safe is spoilt, so that its node must not start.
#[derive(Clone, Copy, Debug)]
pub enum Spoilt {
    /// A byte among those that were safe is another one.
    Damaged,
    /// It is shorter than what was safe.
    Cut,
    /// It is gone.
    Gone,
}

/// Spoils the journal in this way, and gives its file as it was.
pub fn spoil(folder: &Path, how: Spoilt, dice: &mut Dice) -> io::Result<Vec<u8>> {
    let journal = folder.join("journal");
    let whole = fs::read(&journal)?;
    let known = known(folder, "known").unwrap_or(0);
    let safe = end_of(known as usize) as u64;
    if known == 0 || end_in(&whole)? < safe {
        return Err(io::Error::other("nothing of the journal is known to be safe"));
    }
    match how {
        Spoilt::Damaged => {
            // behind so many bytes of the file one of the journal ends
            let behind = end_of(1 + dice.below(known) as usize);
            let mut damaged = whole.clone();
            damaged[behind - 1] ^= 1 << dice.below(8);
            fs::write(&journal, damaged)?;
        }
        Spoilt::Cut => fs::write(&journal, &whole[..dice.below(safe) as usize])?,
        Spoilt::Gone => fs::remove_file(&journal)?,
    }
    Ok(whole)
}

#[cfg(test)]
mod tests {
    use super::*;
    use crate::sectors::{Content, Sectors};
    use std::io::Write;

    /// Writes the file of a journal that has this number, and so many bytes, each of which says its place.
    fn write(path: &Path, number: u64, length: usize) -> io::Result<()> {
        let bytes: Vec<u8> = (1..=length).map(|byte| byte as u8).collect();
        Sectors::open(path, number, &[])?.write_all(&bytes)
    }

    #[test]
    fn a_power_cut_leaves_what_was_safe() -> io::Result<()> {
        let folder = std::env::temp_dir().join(format!("sevunthi-cut-{}", std::process::id()));
        fs::create_dir_all(&folder)?;
        let journal = folder.join("journal");
        let (mut shorter, mut damaged, mut over_older) = (0, 0, 0);
        for seed in 0..200 {
            let _ = fs::remove_file(&journal);
            write(&journal, 5, 9000)?;
            write(&journal, 7, 2000)?;
            fs::write(folder.join("known"), 1200u64.to_le_bytes())?;
            let lost = cut_power(&folder, &mut Dice::new(seed))?;
            let left = sectors::read(File::open(&journal)?)?;
            assert!(left.number == 7 && 1200 <= left.bytes.len() && left.bytes.len() <= 2000, "{seed}");
            assert!(left.bytes.iter().zip(1..=1200).all(|(byte, number)| *byte == number as u8), "{seed}");
            assert!(known(&folder, "known").is_some_and(|known| known <= 1200));
            shorter += usize::from(left.bytes.len() < 2000);
            damaged += usize::from(lost.is_damaged);
            let older = fs::read(&journal)?.get(BLOCK..).map(sectors::read).transpose()?;
            over_older += usize::from(older.is_some_and(|older| older.number == 5));
        }
        assert!(50 < shorter && 20 < damaged && 50 < over_older);
        fs::remove_dir_all(&folder)
    }

    /// Its process was killed when it had noted that nothing is known to be safe.
    #[test]
    fn in_the_middle_of_a_save_nothing_that_was_safe_is_spoilt() -> io::Result<()> {
        let folder = std::env::temp_dir().join(format!("sevunthi-middle-{}", std::process::id()));
        fs::create_dir_all(&folder)?;
        let journal = folder.join("journal");
        write(&journal, 1, 2000)?;
        for seed in 0..50 {
            fs::write(folder.join("known"), 0u64.to_le_bytes())?;
            cut_power(&folder, &mut Dice::new(seed))?;
            assert_eq!(sectors::read(File::open(&journal)?)?.bytes.len(), 2000);
        }
        fs::remove_dir_all(&folder)
    }

    #[test]
    fn a_rename_may_be_lost() -> io::Result<()> {
        let folder = std::env::temp_dir().join(format!("sevunthi-rename-{}", std::process::id()));
        fs::create_dir_all(&folder)?;
        let journal = folder.join("journal");
        let mut old = 0;
        for seed in 0..100 {
            write(&folder.join(BEFORE), 1, 20)?;
            fs::write(folder.join(SAFE_BEFORE), 3u64.to_le_bytes())?;
            write(&journal, 2, 5)?;
            fs::write(folder.join("known"), 0u64.to_le_bytes())?;
            let lost = cut_power(&folder, &mut Dice::new(seed))?;
            let Content { number, bytes } = sectors::read(File::open(&journal)?)?;
            let is_old = number == 1 && bytes.starts_with(&[1, 2, 3]);
            assert!(if lost.is_rename_lost { is_old } else { number == 2 && bytes == [1, 2, 3, 4, 5] });
            old += usize::from(lost.is_rename_lost);
            fs::remove_file(&journal)?;
        }
        assert!(20 < old && old < 80);
        fs::remove_dir_all(&folder)
    }

    #[test]
    fn what_was_safe_is_spoilt() -> io::Result<()> {
        let folder = std::env::temp_dir().join(format!("sevunthi-spoilt-{}", std::process::id()));
        fs::create_dir_all(&folder)?;
        let journal = folder.join("journal");
        write(&journal, 1, 1300)?;
        fs::write(folder.join("known"), 1200u64.to_le_bytes())?;
        let whole = sectors::read(File::open(&journal)?)?;
        for seed in 0..100 {
            let kept = spoil(&folder, Spoilt::Damaged, &mut Dice::new(seed))?;
            let damaged = sectors::read(File::open(&journal)?)?;
            assert!(damaged.bytes.len() == 1300 && damaged.bytes[..1200] != whole.bytes[..1200], "{seed}");
            fs::write(&journal, &kept)?;
            spoil(&folder, Spoilt::Cut, &mut Dice::new(seed))?;
            assert!(sectors::read(File::open(&journal)?)?.bytes.len() < 1200, "{seed}");
            fs::write(&journal, kept)?;
        }
        fs::remove_dir_all(&folder)
    }
}
