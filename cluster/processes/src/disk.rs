//! The disk of a node: its journal, and a second file while a save takes the journal's place.

use crate::dice::Dice;

/// The bytes of a file as processes see them, and how many of them are on the disk itself. The others are in the
/// machine's memory: they outlive a process, and no power cut.
#[derive(Default)]
struct File {
    bytes: Vec<u8>,
    synced: usize,
}

impl File {
    fn sync(&mut self) {
        self.synced = self.bytes.len();
    }

    fn unsynced(&self) -> usize {
        self.bytes.len() - self.synced
    }

    fn cut(&mut self, length: usize) {
        self.bytes.truncate(length);
        self.synced = self.synced.min(length);
    }

    /// The power is cut. What was not on the disk is gone, but for some bytes. In place of the others may be zeros.
    fn lose(&mut self, dice: &mut Dice) {
        let kept = self.synced + dice.below(self.unsynced() + 1);
        if dice.once_in(2) {
            self.bytes.truncate(kept);
        } else {
            self.bytes[kept..].fill(0);
        }
        self.sync();
    }
}

/// How far a save has come that takes the journal's place.
#[derive(Clone, Copy, Debug, PartialEq, Eq)]
pub enum Stage {
    /// None was begun.
    Idle,
    /// The second file is written.
    Written,
    /// It is on the disk.
    Synced,
    /// It has the journal's name. After a power cut it may have it no longer.
    Renamed,
}

/// The files of a node.
pub struct Disk {
    first: File,
    second: Option<File>,
    stage: Stage,
}

impl Disk {
    /// A disk with nothing on it.
    pub fn new() -> Disk {
        Disk { first: File::default(), second: None, stage: Stage::Idle }
    }

    /// How far a save has come.
    pub fn stage(&self) -> Stage {
        self.stage
    }

    /// What the journal has, where a save has not taken its place for good.
    pub fn journal(&self) -> &[u8] {
        &self.first.bytes
    }

    /// How many bytes of it are not on the disk.
    pub fn unsynced(&self) -> usize {
        self.first.unsynced()
    }

    /// Writes at the end of the journal, and of the second file where there is one.
    pub fn write(&mut self, bytes: &[u8]) {
        self.first.bytes.extend_from_slice(bytes);
        if let Some(second) = &mut self.second {
            second.bytes.extend_from_slice(bytes);
        }
    }

    /// The journal is on the disk as it is.
    pub fn sync_first(&mut self) {
        self.first.sync();
    }

    /// So is the second file.
    pub fn sync_second(&mut self) {
        if let Some(second) = &mut self.second {
            second.sync();
        }
        if self.stage == Stage::Written {
            self.stage = Stage::Synced;
        }
    }

    /// The second file is written: a save.
    pub fn begin_second(&mut self, save: Vec<u8>) {
        self.second = Some(File { bytes: save, synced: 0 });
        self.stage = Stage::Written;
    }

    /// The second file gets the journal's name.
    pub fn rename(&mut self) {
        self.stage = Stage::Renamed;
    }

    /// Names are on the disk as they are: a file that has lost its own is gone.
    pub fn sync_folder(&mut self) {
        if self.stage == Stage::Renamed {
            self.first = self.second.take().unwrap_or_default();
            self.stage = Stage::Idle;
        }
    }

    /// The power is cut. Where a name was not on the disk, either file may have it.
    pub fn cut_power(&mut self, dice: &mut Dice) {
        if self.stage == Stage::Renamed && dice.once_in(2) {
            self.sync_folder();
        }
        self.forget_second();
        self.first.lose(dice);
    }

    /// A second file that was not renamed is deleted unread.
    pub fn forget_second(&mut self) {
        self.second = None;
        self.stage = Stage::Idle;
    }

    /// The journal ends here.
    pub fn cut(&mut self, length: usize) {
        self.first.cut(length);
    }
}

#[cfg(test)]
mod tests {
    use super::*;

    /// A disk whose journal has `old`, on the disk, and `new`, which is not.
    fn written() -> Disk {
        let mut disk = Disk::new();
        disk.write(b"old");
        disk.sync_first();
        disk.write(b"new");
        disk
    }

    #[test]
    fn a_power_cut_takes_only_what_was_not_synced() {
        for seed in 0..1_000 {
            let mut disk = written();
            disk.cut_power(&mut Dice::of(seed));
            let left = disk.journal();
            let torn = left.iter().zip(b"oldnew").take_while(|(left, written)| left == written).count();
            assert!(torn >= 3 && left[torn..].iter().all(|&byte| byte == 0), "{seed}");
            assert_eq!(disk.unsynced(), 0);
        }
    }

    #[test]
    fn either_file_may_have_the_name_after_a_power_cut() {
        let mut seen = [0, 0];
        for seed in 0..100 {
            let mut disk = written();
            disk.sync_first();
            disk.begin_second(b"save".to_vec());
            disk.sync_second();
            disk.rename();
            disk.cut_power(&mut Dice::of(seed));
            seen[usize::from(disk.journal() == b"save")] += 1;
            assert!([&b"oldnew"[..], b"save"].contains(&disk.journal()), "{seed}");
        }
        assert!(seen.iter().all(|&times| times > 0));
    }
}
