//! A rolling restart: one process after another ends and begins anew, while the cluster goes on. Who asks for it leaves
//! a file in the cluster's folder, and `up` says in another one how far it is.

use crate::disk;
use crate::options::Options;
use crate::status::Status;
use crate::up::{Keeper, status_text};
use sevunthi::Id;
use std::collections::VecDeque;
use std::fs;
use std::path::{Path, PathBuf};
use std::thread;
use std::time::{Duration, Instant};

/// The file that asks for it, and the one that says how far it is.
const ASKED: &str = "restart";
const SAID: &str = "restart.said";

/// The next process is restarted when all has been well for so long.
const STEADY: Duration = Duration::from_secs(1);

/// Where it is not well for so long, no more are restarted.
const PATIENCE: Duration = Duration::from_secs(60);

/// How the last line begins.
const DONE: &str = "done";
const STOPPED: &str = "stopped";

/// Asks the cluster that runs in a folder for it, and shows how far it is. Says whether it was done.
pub fn ask(options: &Options) -> Result<bool, String> {
    let folder: PathBuf = options.get("--folder", "cluster-data".to_string())?.into();
    let told = |error: std::io::Error| format!("{}: {error}", folder.display());
    if !runs(&folder).map_err(told)? {
        return Err(format!("{}: no cluster runs in this folder", folder.display()));
    }
    if folder.join(ASKED).exists() {
        return Err(format!("{}: a restart is under way already", folder.display()));
    }
    let _ = fs::remove_file(folder.join(SAID));
    disk::write_whole(&folder.join(ASKED), b"all\n").map_err(told)?;
    let mut shown = 0;
    loop {
        // (what is said last stands there before nothing is asked for any more)
        let is_asked = folder.join(ASKED).exists();
        let text = fs::read_to_string(folder.join(SAID)).unwrap_or_default();
        for line in text.lines().skip(shown) {
            say!("{line}");
            shown += 1;
        }
        match text.lines().last() {
            Some(last) if last.starts_with(DONE) => return Ok(true),
            Some(last) if last.starts_with(STOPPED) => return Ok(false),
            _ if !is_asked => {
                return Err(format!("{}: the restart has ended, and could not say how", folder.display()));
            }
            _ => {}
        }
        if !runs(&folder).map_err(told)? {
            return Err(format!("{}: the cluster has ended", folder.display()));
        }
        thread::sleep(Duration::from_millis(100));
    }
}

/// Whether a cluster runs in this folder: it has the lock.
pub fn runs(folder: &Path) -> std::io::Result<bool> {
    let lock = fs::File::open(folder.join("lock"))?;
    Ok(lock.try_lock().is_err())
}

/// What is waited for before the next one is restarted.
struct Last {
    when: Instant,
    /// The host's server that ended. It must not be up any more.
    before: Option<Id>,
    what: String,
}

/// A restart of all, if one is under way.
pub struct Rolling {
    folder: PathBuf,
    /// Those that are still to be restarted; none where nothing is under way.
    rest: Option<VecDeque<usize>>,
    last: Last,
    well_since: Option<Instant>,
}

impl Rolling {
    /// None is under way. One that `up` did not end is not taken up again.
    pub fn of(folder: &Path) -> Rolling {
        let _ = fs::remove_file(folder.join(ASKED));
        let last = Last { when: Instant::now(), before: None, what: String::new() };
        Rolling { folder: folder.into(), rest: None, last, well_since: None }
    }

    fn say(&self, what: &str) {
        say!("restart: {what}");
        let path = self.folder.join(SAID);
        let text = fs::read_to_string(&path).unwrap_or_default();
        let _ = disk::write_whole(&path, format!("{text}{what}\n").as_bytes());
    }

    /// Restarts the next one, where it is time for that.
    pub fn go_on(&mut self, keeper: &mut Keeper) {
        let hosts = usize::from(keeper.cluster.target.hosts);
        let there: VecDeque<usize> = keeper.cluster.there().collect();
        let wanted = there.iter().filter(|place| **place < hosts).count();
        let Some(rest) = &mut self.rest else {
            if self.folder.join(ASKED).exists() {
                self.rest = Some(there);
                self.last = Last { when: Instant::now(), before: None, what: "the cluster".to_string() };
                self.well_since = None;
            }
            return;
        };
        let now = Instant::now();
        let text = status_text(&keeper.cluster.target).unwrap_or_default();
        let status = Status::read(&text).filter(|status| is_well(status, wanted, self.last.before));
        let Some(status) = status else {
            self.well_since = None;
            if PATIENCE <= now - self.last.when {
                let why = if text.is_empty() { "the coordinator does not answer" } else { text.trim_end() };
                let what = &self.last.what;
                self.end(&format!("{STOPPED}: {what} is not well after {} s: {why}", PATIENCE.as_secs()));
            }
            return;
        };
        if now - *self.well_since.get_or_insert(now) < STEADY {
            return;
        }
        match rest.pop_front() {
            None => self.end(DONE),
            Some(place) => {
                let what = name_of(place, hosts);
                self.last = Last { when: now, before: up_server(&status, place), what };
                self.well_since = None;
                self.say(&format!("{} begins anew", self.last.what));
                keeper.restart(place);
            }
        }
    }

    fn end(&mut self, what: &str) {
        self.rest = None;
        self.say(&what.replace('\n', "; "));
        let _ = fs::remove_file(self.folder.join(ASKED));
    }
}

/// Who has this place, where there are so many hosts.
fn name_of(place: usize, hosts: usize) -> String {
    match place.checked_sub(hosts) {
        None => format!("host {place}"),
        Some(0) => "the coordinator".to_string(),
        Some(number) => format!("coordinator {number}"),
    }
}

/// The server of this host that is up.
fn up_server(status: &Status, host: usize) -> Option<Id> {
    status.heard().find(|id| usize::from(id.index) == host)
}

/// Whether so many hosts are up and were heard, none of them by the server that ended, and nothing is being recovered.
fn is_well(status: &Status, hosts: usize, before: Option<Id>) -> bool {
    !status.is_recovering() && status.heard().count() == hosts && status.heard().all(|id| Some(id) != before)
}

#[cfg(test)]
mod tests {
    use super::*;

    const TEXT: &str = "server 0.1 up heard 9 ms ago\nserver 1.3 up heard 80 ms ago\nserver 2.1 crashed heard 8 ms \
                        ago\nserver 2.2 up heard 8 ms ago\ntable 1 keys 0 to 9 is owned by 1.3 term 1\njournal 9 bytes\n";

    #[test]
    fn a_cluster_is_well_with_the_new_server_of_each_host() {
        let id = |index, generation| Id { index, generation };
        let well = |text: &str, hosts, before| Status::read(text).is_some_and(|status| is_well(&status, hosts, before));
        assert!(well(TEXT, 3, None) && well(TEXT, 3, Some(id(2, 1))));
        assert!(!well(TEXT, 3, Some(id(1, 3))) && !well(TEXT, 4, None) && !well("", 3, None));
        assert!(!well(&TEXT.replace("is owned by", "is being recovered from"), 3, None));
        assert!(!well(&TEXT.replace("is owned by", "is recovered from"), 3, None));
        assert!(!well(&TEXT.replace("0.1 up heard 9 ms ago", "0.1 up not heard"), 3, None));
        let status = Status::read(TEXT).expect("it is one");
        assert_eq!((up_server(&status, 2), up_server(&status, 3)), (Some(id(2, 2)), None));
    }
}
