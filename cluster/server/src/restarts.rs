//! When a process that has ended is started again: after a pause, which doubles while it goes on ending; and where it
//! must not start, once its folder is another.

use crate::log::MUST_NOT_START;
use crate::store::head::SEEN;
use std::fs;
use std::os::unix::fs::MetadataExt;
use std::path::Path;
use std::time::{Duration, Instant};

/// The shortest pause, and the longest.
const SHORTEST: Duration = Duration::from_millis(100);
const LONGEST: Duration = Duration::from_secs(5);

/// Behind a process that has run for so long the pause is the shortest again.
const LONG: Duration = Duration::from_secs(10);

/// A folder that is another has to be as it is for so long: somebody may still copy files into it.
const SETTLED: Duration = Duration::from_secs(2);

/// By which one sees that a folder is another: of its files that last.
#[derive(Clone, Debug, Default, PartialEq, Eq)]
pub struct Print(Vec<Option<(u64, u64, i64, i64)>>);

impl Print {
    /// The folder as it is.
    pub fn of(folder: &Path) -> Print {
        let file = |name| fs::metadata(folder.join(name)).ok();
        let print = |name| file(name).map(|file| (file.ino(), file.size(), file.mtime(), file.mtime_nsec()));
        Print(["journal", SEEN, "known", "told", "version"].map(print).to_vec())
    }

    /// Whether there is a journal, here or in etcd. Without one a node would begin as a new one.
    fn has_journal(&self) -> bool {
        self.0.iter().take(2).any(Option::is_some)
    }
}

/// Whether a process runs.
#[derive(Clone, Debug)]
enum State {
    Runs { since: Instant },
    Pauses { until: Instant },
    Refused { folder: Print, seen: Print, since: Instant },
}

/// When the process of a node is started again.
#[derive(Clone, Debug)]
pub struct Restarts {
    state: State,
    pause: Duration,
}

impl Restarts {
    /// Of a process that was started now.
    pub fn new(now: Instant) -> Restarts {
        Restarts { state: State::Runs { since: now }, pause: SHORTEST }
    }

    /// It was started.
    pub fn started(&mut self, now: Instant) {
        self.state = State::Runs { since: now };
    }

    /// It has ended with this status, or could not be started, in this folder. Says after what pause it is started
    /// again; none where it is not before the folder is another.
    pub fn ended(&mut self, status: Option<i32>, folder: &Path, now: Instant) -> Option<Duration> {
        if status == Some(MUST_NOT_START) {
            let folder = Print::of(folder);
            self.state = State::Refused { seen: folder.clone(), folder, since: now };
            return None;
        }
        if matches!(self.state, State::Runs { since } if LONG <= now - since) {
            self.pause = SHORTEST;
        }
        let pause = self.pause;
        self.pause = LONGEST.min(2 * pause);
        self.state = State::Pauses { until: now + pause };
        Some(pause)
    }

    /// Whether it is to be started now.
    pub fn is_due(&mut self, folder: &Path, now: Instant) -> bool {
        match &mut self.state {
            State::Runs { .. } => false,
            State::Pauses { until } => *until <= now,
            State::Refused { folder: refused, seen, since } => {
                let print = Print::of(folder);
                if *seen != print {
                    (*seen, *since) = (print, now);
                }
                seen.has_journal() && seen != refused && SETTLED <= now - *since
            }
        }
    }
}

#[cfg(test)]
mod tests {
    use super::*;
    use std::io;

    #[test]
    fn pauses_double_while_a_process_goes_on_ending() {
        let (folder, mut now) = (Path::new("/"), Instant::now());
        let mut restarts = Restarts::new(now);
        let mut pauses = Vec::new();
        for _ in 0..8 {
            assert!(!restarts.is_due(folder, now));
            let pause = restarts.ended(Some(3), folder, now).unwrap_or_default();
            pauses.push(pause.as_millis());
            assert!(!restarts.is_due(folder, now) && restarts.is_due(folder, now + pause));
            now += pause;
            restarts.started(now);
        }
        assert_eq!(pauses, [100, 200, 400, 800, 1600, 3200, 5000, 5000]);
        assert_eq!(restarts.ended(None, folder, now + LONG), Some(SHORTEST));
    }

    #[test]
    fn what_must_not_start_is_started_once_its_folder_is_another() -> io::Result<()> {
        let folder = std::env::temp_dir().join(format!("sevunthi-restarts-{}", std::process::id()));
        fs::create_dir_all(&folder)?;
        fs::write(folder.join("journal"), "older")?;
        let now = Instant::now();
        let mut restarts = Restarts::new(now);
        assert_eq!(restarts.ended(Some(MUST_NOT_START), &folder, now), None);
        let mut is_due = |seconds| restarts.is_due(&folder, now + Duration::from_secs(seconds));
        fs::write(folder.join("log"), "more")?;
        assert!(!is_due(10) && !is_due(20));
        // while somebody empties it and copies into it, it is left alone
        fs::remove_file(folder.join("journal"))?;
        assert!(!is_due(30) && !is_due(40));
        fs::write(folder.join("journal"), "newer")?;
        assert!(!is_due(50));
        fs::write(folder.join("known"), "more")?;
        assert!(!is_due(53) && is_due(55));
        fs::remove_dir_all(&folder)
    }
}
