//! Older copies of a node's folder that are put back. The node has to learn it, and to end.

use super::Storm;
use crate::guard::{COORDINATOR, Position, held_of};
use crate::log::MUST_NOT_START;
use crate::sectors;
use std::fs::{self, File};
use std::io;
use std::path::Path;
use std::thread;
use std::time::{Duration, Instant};

/// So many seconds all may take to be well again, and others to be told of more.
const WELL: u64 = 5;

/// Copies the files of a folder.
fn copy(from: &Path, to: &Path) -> io::Result<()> {
    fs::create_dir_all(to)?;
    for entry in fs::read_dir(from)? {
        let entry = entry?;
        fs::copy(entry.path(), to.join(entry.file_name()))?;
    }
    Ok(())
}

/// How far the journal of a folder has come.
fn position(folder: &Path) -> io::Result<Position> {
    let sectors::Content { number, bytes } = sectors::read(File::open(folder.join("journal"))?)?;
    Ok(Position { number, length: bytes.len() as u64 })
}

impl Storm {
    /// A process is killed, and its folder copied. After it has come back, and another host was killed, it is killed
    /// again, and begins with the copy. Then it gets its own folder back. Says whether it has happened; that the copy
    /// was not refused is an error.
    pub(super) fn put_back_older(&mut self, place: usize, other: usize) -> Result<bool, String> {
        let folder = self.cluster.folder(place);
        let [older, newest] = ["older", "newest"].map(|name| folder.with_extension(name));
        let told = |error: io::Error| format!("the folder of {place}: {error}");
        self.cluster.kill(place);
        self.say(&format!("{place} is killed, and its folder copied"));
        copy(&folder, &older).map_err(told)?;
        self.start(place)?;
        let hosts = self.coordinator();
        if !self.wait_until_served(WELL, hosts)? {
            fs::remove_dir_all(&older).map_err(told)?;
            return Ok(false);
        }
        self.end(if other == place { (place + 1) % hosts } else { other }, false)?;
        let copied = position(&older).map_err(told)?;
        let began = Instant::now();
        while self.held_of(place) <= copied && began.elapsed() < Duration::from_secs(WELL) {
            self.start_ended()?;
            thread::sleep(Duration::from_millis(20));
        }
        let has_come_further = copied < self.held_of(place);
        self.cluster.kill(place);
        self.say(&format!("{place} is killed, and gets the copy"));
        fs::rename(&folder, &newest).and_then(|()| fs::rename(&older, &folder)).map_err(told)?;
        self.start(place)?;
        let is_refused = self.await_refusal(place)?;
        self.cluster.kill(place);
        fs::rename(&folder, &older).and_then(|()| fs::rename(&newest, &folder)).map_err(told)?;
        if !is_refused && has_come_further {
            return Err(format!(
                "{place} was not refused with an older copy of its folder, which is {}",
                older.display()
            ));
        }
        fs::remove_dir_all(&older).map_err(told)?;
        self.say(&format!("{place} gets its own folder back"));
        self.start(place)?;
        Ok(is_refused)
    }

    /// How far whoever has this place has come, as others were told.
    fn held_of(&self, place: usize) -> Position {
        let coordinator = self.coordinator();
        let (others, place) = if place == coordinator {
            (0..coordinator, COORDINATOR)
        } else {
            (coordinator..coordinator + 1, place as u8)
        };
        let held = others.filter_map(|other| held_of(&self.cluster.folder(other), place).ok());
        held.map(|stamp| stamp.position).max().unwrap_or_default()
    }

    /// Whether this process ends because it must not start. The others go on.
    fn await_refusal(&mut self, place: usize) -> Result<bool, String> {
        let began = Instant::now();
        while began.elapsed() < Duration::from_secs(WELL) {
            for (other, status) in self.cluster.ended() {
                if other == place {
                    return Ok(status.code() == Some(MUST_NOT_START));
                }
                self.start(other)?;
            }
            thread::sleep(Duration::from_millis(20));
        }
        Ok(false)
    }
}
