//! A node's folder: its lock, its journal, and how many bytes of that were safe.

use crate::ahead::Ahead;
use crate::disk::{self, sync_folder};
use crate::failing::Failing;
use crate::sectors::{self, BLOCK, Content, Sectors, end_of};
use crate::version;
use sevunthi::message::u64_at;
use std::fs::{self, File};
use std::io::{self, ErrorKind};
use std::os::unix::fs::{FileExt, MetadataExt};
use std::path::{Path, PathBuf};
use std::sync::mpsc::{Receiver, Sender, TryRecvError, channel};
use std::sync::{Arc, Mutex, MutexGuard};
use std::thread;
use std::time::{Duration, Instant};

/// The file that an older journal had, or one of zeros. The next save is written over it.
const SPARE: &str = "spare";

/// The file of a folder that says what others were told of it: where it stands, there was a journal.
pub const TOLD: &str = "told";

/// How far a journal has come: its number, which rises with each save, and how many of its bytes are safe. What a node
/// has sent depends on nothing behind that.
#[derive(Clone, Copy, Debug, Default, PartialEq, Eq, PartialOrd, Ord)]
pub struct Position {
    /// The journal's number.
    pub number: u64,
    /// Its bytes.
    pub length: u64,
}

impl Position {
    /// Adds its bytes: two numbers of eight.
    pub fn put(self, out: &mut Vec<u8>) {
        out.extend_from_slice(&self.number.to_le_bytes());
        out.extend_from_slice(&self.length.to_le_bytes());
    }

    /// The position whose bytes stand at this place.
    pub fn read(bytes: &[u8], at: usize) -> Option<Position> {
        Some(Position { number: u64_at(bytes, at)?, length: u64_at(bytes, at + 8)? })
    }
}

/// A node's journal, whose folder is locked.
pub struct Journal {
    folder: PathBuf,
    files: Arc<Mutex<Files>>,
    /// What fills a new spare file, after it was looked whether there is one.
    spare: Option<Ahead>,
    _lock: File,
    /// Its number: each save begins a journal with the next one.
    number: u64,
    /// How far it had come when it was opened.
    pub found: Position,
    /// How many bytes it has.
    pub length: usize,
    /// How many it had when it was last shortened.
    pub saved: usize,
    /// How often it was synced.
    pub syncs: u64,
    safe: usize,
    /// What is to fail, where a test asks for it.
    pub failing: Failing,
    /// The thread that writes and syncs it beside, if there is one.
    beside: Option<Beside>,
    /// How often that thread was asked without its answer being taken.
    under_way: usize,
    /// Since when it is at what it was asked first of these.
    began: Instant,
}

/// How to speak with a thread that writes and syncs a journal.
struct Beside {
    asked: Sender<Asked>,
    done: Receiver<io::Result<Synced>>,
}

/// The journal's file, and the one that says how many of its bytes are safe.
struct Files {
    sectors: Sectors,
    known: File,
    /// How many bytes were written.
    length: usize,
    ahead: Ahead,
}

/// What was asked of the thread beside: these bytes are to be added, and all made safe, perhaps for a roll.
struct Asked {
    bytes: Vec<u8>,
    is_of_roll: bool,
    failing: Failing,
}

/// A sync has ended.
#[derive(Clone, Copy, Debug)]
pub struct Synced {
    /// So many bytes are safe.
    pub safe: usize,
    /// So long it took.
    pub took: Duration,
}

/// What stands in a folder: the journal, if there is one, and how many of its bytes were known to be safe.
pub struct Found {
    /// The journal.
    pub journal: Option<Content>,
    /// How many of its bytes were known to be safe.
    pub known: usize,
    lock: File,
}

/// Makes the folder, if it is not there, and locks it. A folder of another version is an error of the kind `Unsupported`.
pub fn lock_folder(folder: &Path) -> io::Result<File> {
    disk::make_folder(folder)?;
    disk::close_folder(folder)?;
    let lock = disk::own_file().create(true).append(true).open(folder.join("lock"))?;
    lock.try_lock().map_err(|_| io::Error::new(ErrorKind::WouldBlock, "another process has this folder"))?;
    version::check(folder)?;
    Ok(lock)
}

/// Locks the folder, and reads what stands there. A second file that was left is removed unread; the spare file stays,
/// if there is one beside the journal. A journal that is gone, though bytes of it were safe, is an error of the kind
/// `NotFound`: its node has forgotten what others know. A folder of another version is one of the kind `Unsupported`.
pub fn find(folder: &Path) -> io::Result<Found> {
    let lock = lock_folder(folder)?;
    sync_folder(folder)?;
    let [next, spare, path] = ["next", SPARE, "journal"].map(|name| folder.join(name));
    // in the middle of a save the spare file still is the journal, and loses its second name
    let is_spare = path.exists() && fs::metadata(&spare).is_ok_and(|file| file.nlink() == 1);
    let left: &[PathBuf] = if is_spare { &[next] } else { &[next, spare] };
    for left in left {
        match fs::remove_file(left) {
            Err(error) if error.kind() != ErrorKind::NotFound => return Err(error),
            _ => {}
        }
    }
    let noted = match fs::read(folder.join("known")) {
        Ok(noted) => Some(u64_at(&noted, 0).unwrap_or(0) as usize),
        Err(error) if error.kind() == ErrorKind::NotFound => None,
        Err(error) => return Err(error),
    };
    let journal = match File::open(path) {
        Ok(file) => Some(sectors::read(file)?),
        Err(error) if error.kind() == ErrorKind::NotFound => None,
        Err(error) => return Err(error),
    };
    if journal.is_none() && (noted.is_some() || folder.join(TOLD).try_exists()?) {
        return Err(io::Error::new(ErrorKind::NotFound, "the journal is gone"));
    }
    Ok(Found { journal, known: noted.unwrap_or(0), lock })
}

impl Found {
    /// Nothing stands in a folder that was locked.
    pub fn none(lock: File) -> Found {
        Found { journal: None, known: 0, lock }
    }
}

impl Files {
    fn add(&mut self, bytes: &[u8], failing: &Failing) -> io::Result<()> {
        let length = self.length + bytes.len();
        self.ahead.make_room(end_of(length).next_multiple_of(BLOCK), &self.sectors, failing);
        failing.write(&mut self.sectors, bytes, false)?;
        self.length = length;
        Ok(())
    }

    fn sync(&self) -> io::Result<Synced> {
        let began = Instant::now();
        self.sectors.file().sync_data()?;
        self.note(self.length)?;
        Ok(Synced { safe: self.length, took: began.elapsed() })
    }

    /// Notes that so many bytes are safe.
    fn note(&self, safe: usize) -> io::Result<()> {
        self.known.write_all_at(&(safe as u64).to_le_bytes(), 0)
    }
}

fn no_thread() -> io::Error {
    io::Error::other("the journal has no thread")
}

/// The files, which whoever failed with them has left to nobody.
fn lock(files: &Mutex<Files>) -> io::Result<MutexGuard<'_, Files>> {
    files.lock().map_err(|_| no_thread())
}

impl Journal {
    /// The first journal of a node, which is these bytes. It stands there whole and safe, or not at all.
    pub fn create(folder: &Path, found: Found, first: &[u8], failing: Failing) -> io::Result<Journal> {
        Journal::create_as(1, folder, found, first, failing)
    }

    /// The same, under another number: what comes from elsewhere goes on with the numbers that it had there.
    pub fn create_as(number: u64, folder: &Path, found: Found, first: &[u8], failing: Failing) -> io::Result<Journal> {
        let next = folder.join("next");
        let mut sectors = Sectors::open(&next, number, &[])?;
        failing.write(&mut sectors, first, false)?;
        sectors.file().sync_all()?;
        fs::rename(&next, folder.join("journal"))?;
        sync_folder(folder)?;
        let found = Found { journal: Some(Content { number, bytes: first.to_vec() }), ..found };
        let journal = Journal::open(folder, found, first.len(), failing)?;
        lock(&journal.files)?.note(journal.length)?;
        Ok(journal)
    }

    /// The journal that was found, cut to its good bytes.
    pub fn open(folder: &Path, found: Found, good: usize, failing: Failing) -> io::Result<Journal> {
        let content = found.journal.as_ref().ok_or(ErrorKind::NotFound)?;
        let bytes = content.bytes.get(..good).ok_or(ErrorKind::InvalidData)?;
        let mut sectors = Sectors::open(&folder.join("journal"), content.number, bytes)?;
        sectors.cut()?;
        sectors.file().sync_all()?;
        let known = disk::own_file().create(true).truncate(false).write(true).open(folder.join("known"))?;
        sync_folder(folder)?;
        let ahead = Ahead::new(end_of(good).next_multiple_of(BLOCK));
        Ok(Journal {
            number: content.number,
            found: Position { number: content.number, length: good as u64 },
            folder: folder.into(),
            files: Arc::new(Mutex::new(Files { sectors, known, length: good, ahead })),
            spare: None,
            _lock: found.lock,
            length: good,
            saved: good,
            syncs: 0,
            safe: good,
            failing,
            beside: None,
            under_way: 0,
            began: Instant::now(),
        })
    }

    /// Adds bytes at its end, while nobody syncs it beside. After an error the process has to end.
    pub fn add(&mut self, bytes: &[u8]) -> io::Result<()> {
        lock(&self.files)?.add(bytes, &self.failing)?;
        self.length += bytes.len();
        Ok(())
    }

    /// Makes all its bytes safe. After an error the process has to end.
    pub fn sync(&mut self) -> io::Result<Synced> {
        self.failing.sync()?;
        let synced = lock(&self.files)?.sync()?;
        self.note_synced(synced);
        Ok(synced)
    }

    /// From now on a thread of its own can write and sync it, while the node goes on. It says when it has done so, and
    /// whether for a roll. After an error it ends: behind bytes that may be lost none are to become safe.
    pub fn sync_beside(&mut self, tell: impl Fn(bool) + Send + 'static) {
        let (ask, asked) = channel::<Asked>();
        let (answer, done) = channel();
        let files = Arc::clone(&self.files);
        thread::spawn(move || {
            for Asked { bytes, is_of_roll, failing } in asked {
                let synced = lock(&files).and_then(|mut files| {
                    files.add(&bytes, &failing)?;
                    failing.sync()?;
                    files.sync()
                });
                let has_failed = synced.is_err();
                if answer.send(synced).is_err() {
                    return;
                }
                tell(is_of_roll);
                if has_failed {
                    return;
                }
            }
        });
        self.beside = Some(Beside { asked: ask, done });
    }

    /// Has that thread add bytes and make all safe, perhaps for a roll, when it has done what it was asked before.
    /// After an error the process has to end.
    pub fn begin_sync(&mut self, bytes: Vec<u8>, is_of_roll: bool) -> io::Result<()> {
        let length = self.length + bytes.len();
        let asked = Asked { bytes, is_of_roll, failing: self.failing.clone() };
        if self.beside.as_ref().is_none_or(|beside| beside.asked.send(asked).is_err()) {
            // it has ended after an error, which says more
            return self.wait_sync().and(Err(no_thread()));
        }
        self.length = length;
        if self.under_way == 0 {
            self.began = Instant::now();
        }
        self.under_way += 1;
        Ok(())
    }

    /// How far it has come, of what is safe: whatever was sent is in what the journal has up to here.
    pub fn position(&self) -> Position {
        Position { number: self.number, length: self.safe as u64 }
    }

    /// How many syncs were begun and are not ended.
    pub fn under_way(&self) -> usize {
        self.under_way
    }

    /// Whether the thread has been at a sync for longer than this.
    pub fn is_stuck(&self, most: Duration) -> bool {
        0 < self.under_way && most < self.began.elapsed()
    }

    /// What came of the sync that was begun first, if it has ended. After an error the process has to end.
    pub fn poll_sync(&mut self) -> io::Result<Option<Synced>> {
        self.end_sync(|beside| match beside.done.try_recv() {
            Ok(synced) => Some(synced),
            Err(TryRecvError::Empty) => None,
            Err(TryRecvError::Disconnected) => Some(Err(no_thread())),
        })
    }

    /// Waits for the sync that was begun first, if one was, and says what came of it. After an error the process has to
    /// end.
    pub fn wait_sync(&mut self) -> io::Result<Option<Synced>> {
        self.end_sync(|beside| Some(beside.done.recv().unwrap_or_else(|_| Err(no_thread()))))
    }

    fn end_sync(&mut self, answer: impl FnOnce(&Beside) -> Option<io::Result<Synced>>) -> io::Result<Option<Synced>> {
        let beside = self.beside.as_ref().filter(|_| 0 < self.under_way);
        let Some(synced) = beside.and_then(answer).transpose()? else { return Ok(None) };
        self.under_way -= 1;
        self.began = Instant::now();
        self.note_synced(synced);
        Ok(Some(synced))
    }

    fn note_synced(&mut self, synced: Synced) {
        self.syncs += 1;
        self.safe = synced.safe;
    }

    /// Has a thread make the spare file, if there is none, with so many bytes, so that the next save need not. It is
    /// filled only past the page cache: else the next sync would have to write its zeros.
    pub fn make_spare(&mut self, length: usize) {
        if self.spare.is_some() {
            return;
        }
        self.spare = Some(Ahead::new(0));
        let path = self.folder.join(SPARE);
        if path.exists() {
            return;
        }
        // where that fails the next save has a new file
        match Sectors::open(&path, 0, &[]) {
            Ok(sectors) if sectors.is_direct() => {
                self.spare = Some(Ahead::slowly(path, sectors.file(), length, &self.failing));
            }
            _ => _ = fs::remove_file(path),
        }
    }

    /// A save takes its place, while nobody syncs it beside: second file, sync, rename, sync of the folder. Until the
    /// new length is noted nothing is known to be safe of whichever file stands there. The second file is the spare
    /// one, if there is one, and the old journal's becomes that.
    pub fn replace(&mut self, save: &[u8]) -> io::Result<()> {
        self.failing.keep_before(self.safe)?;
        // what fills the spare file has ended, before that gets anything else
        self.spare = None;
        let [next, journal, spare] = ["next", "journal", SPARE].map(|name| self.folder.join(name));
        if fs::rename(&spare, &next).is_ok() {
            // no crash may bring it back as the spare file any more: it gets sectors of the next number now
            sync_folder(&self.folder)?;
        }
        let mut files = lock(&self.files)?;
        let mut sectors = Sectors::open(&next, files.sectors.number() + 1, &[])?;
        self.failing.after(0);
        self.failing.write(&mut sectors, save, true)?;
        self.failing.after(1);
        sectors.file().sync_all()?;
        self.failing.after(2);
        files.note(0)?;
        files.known.sync_all()?;
        self.failing.after(3);
        // where the old file gets no second name it is freed, and the next save has a new one
        let _ = fs::hard_link(&journal, &spare);
        fs::rename(&next, &journal)?;
        self.failing.after(4);
        sync_folder(&self.folder)?;
        self.failing.after(5);
        files.ahead = Ahead::new(sectors.file().metadata()?.len() as usize / BLOCK * BLOCK);
        self.number = sectors.number();
        files.sectors = sectors;
        files.length = save.len();
        self.length = save.len();
        self.saved = save.len();
        self.safe = save.len();
        files.note(save.len())
    }
}

#[cfg(test)]
mod tests {
    use super::*;
    use crate::ahead::AHEAD;
    use crate::failing::NEARLY_FULL;
    use crate::sectors::SECTOR;
    use std::io::Write;

    fn empty_folder(name: &str) -> PathBuf {
        let folder = std::env::temp_dir().join(format!("sevunthi-{name}-{}", std::process::id()));
        let _ = fs::remove_dir_all(&folder);
        folder
    }

    /// The number and the bytes that a file has.
    fn read(path: &Path) -> io::Result<(u64, Vec<u8>)> {
        sectors::read(File::open(path)?).map(|Content { number, bytes }| (number, bytes))
    }

    /// The journal's bytes, in the file behind which there are zeros, or nothing.
    fn bytes_in(folder: &Path) -> io::Result<Vec<u8>> {
        let file = fs::read(folder.join("journal"))?;
        let (_, bytes) = read(&folder.join("journal"))?;
        assert!(file[end_of(bytes.len())..].iter().all(|byte| *byte == 0));
        Ok(bytes)
    }

    fn found_in(folder: &Path) -> io::Result<(Vec<u8>, usize)> {
        find(folder).map(|found| (found.journal.map_or(Vec::new(), |journal| journal.bytes), found.known))
    }

    #[test]
    fn a_journal_that_is_gone_is_not_made_anew() -> io::Result<()> {
        let folder = empty_folder("gone");
        let journal = Journal::create(&folder, find(&folder)?, b"save", Failing::default())?;
        assert!(find(&folder).is_err(), "the folder is locked");
        drop(journal);
        assert_eq!(found_in(&folder)?, (b"save".to_vec(), 4));
        fs::remove_file(folder.join("journal"))?;
        assert!(find(&folder).is_err());
        fs::remove_dir_all(&folder)
    }

    #[test]
    fn no_zeros_come_over_bytes_where_the_disk_is_nearly_full() -> io::Result<()> {
        let folder = empty_folder("nearly-full");
        let failing = Failing::in_folder(&folder);
        let mut journal = Journal::create(&folder, find(&folder)?, b"first", failing)?;
        let nearly_full = folder.join(NEARLY_FULL);
        fs::write(&nearly_full, [])?;
        for _ in 0..3 {
            journal.add(b" and more")?;
        }
        fs::remove_file(nearly_full)?;
        journal.add(b" again")?;
        assert_eq!(journal.sync()?.safe, 38);
        assert_eq!(bytes_in(&folder)?, b"first and more and more and more again");
        fs::remove_dir_all(&folder)
    }

    /// Over several times as many bytes as have zeros ahead of them at once.
    #[test]
    fn behind_bytes_of_any_length_there_are_zeros() -> io::Result<()> {
        let folder = empty_folder("ahead");
        let mut bytes = b"first".to_vec();
        let mut journal = Journal::create(&folder, find(&folder)?, &bytes, Failing::default())?;
        for length in [1, BLOCK - 6, BLOCK, AHEAD - 1, 7, AHEAD + BLOCK, 2 * AHEAD + 9, 300] {
            let more = vec![1 + (length % 200) as u8; length];
            journal.add(&more)?;
            bytes.extend_from_slice(&more);
            assert_eq!(journal.sync()?.safe, bytes.len());
            assert!(bytes_in(&folder)? == bytes, "{length}");
        }
        fs::remove_dir_all(&folder)
    }

    /// A thread writes zeros ahead meanwhile, faster and slower than bytes come.
    #[test]
    fn no_zeros_come_over_bytes_that_are_added() -> io::Result<()> {
        let folder = empty_folder("added");
        let mut bytes = b"first".to_vec();
        let mut journal = Journal::create(&folder, find(&folder)?, &bytes, Failing::default())?;
        for number in 0..120 {
            let more = vec![1 + number as u8; if number % 8 == 0 { 3 * AHEAD } else { 70_000 + number }];
            journal.add(&more)?;
            bytes.extend_from_slice(&more);
        }
        assert_eq!(journal.sync()?.safe, bytes.len());
        drop(journal);
        assert!(bytes_in(&folder)? == bytes);
        fs::remove_dir_all(&folder)
    }

    /// A thread that writes zeros fails, as on a full disk, and is at it while a save takes the journal's place.
    #[test]
    fn a_thread_that_writes_zeros_may_fail_and_is_ended() -> io::Result<()> {
        let folder = empty_folder("fails");
        let failing = Failing::in_folder(&folder);
        let mut bytes = b"first".to_vec();
        let mut journal = Journal::create(&folder, find(&folder)?, &bytes, failing)?;
        for number in 0..60 {
            match number {
                20 => fs::write(folder.join(NEARLY_FULL), [])?,
                40 => fs::remove_file(folder.join(NEARLY_FULL))?,
                _ => {}
            }
            let more = vec![1 + number; 400_000];
            journal.add(&more)?;
            bytes.extend_from_slice(&more);
        }
        journal.sync()?;
        assert!(bytes_in(&folder)? == bytes);
        journal.add(&vec![7; 8 * AHEAD])?;
        journal.replace(b"short")?;
        journal.add(b" again")?;
        assert_eq!(journal.sync()?.safe, 11);
        assert_eq!(bytes_in(&folder)?, b"short again");
        fs::remove_dir_all(&folder)
    }

    /// Among those that were safe, so that there are fewer bytes than are known to be.
    #[test]
    fn a_sector_whose_head_is_damaged_ends_the_journal() -> io::Result<()> {
        let folder = empty_folder("damaged");
        let bytes = [7; 5000];
        drop(Journal::create(&folder, find(&folder)?, &bytes, Failing::default())?);
        let path = folder.join("journal");
        let file = fs::read(&path)?;
        for at in (0..end_of(bytes.len())).step_by(SECTOR).flat_map(|sector| sector..sector + 8) {
            for bit in 0..8 {
                let mut damaged = file.clone();
                damaged[at] ^= 1 << bit;
                fs::write(&path, damaged)?;
                let (found, known) = found_in(&folder)?;
                let is_last = end_of(bytes.len()) < at + SECTOR;
                assert!(found.len() < known || is_last && found.starts_with(&bytes), "{at}, {bit}");
            }
        }
        fs::remove_dir_all(&folder)
    }

    #[test]
    fn a_thread_writes_and_syncs_while_its_node_goes_on() -> io::Result<()> {
        let folder = empty_folder("beside");
        let mut journal = Journal::create(&folder, find(&folder)?, b"first", Failing::default())?;
        assert!(journal.begin_sync(b"nobody".to_vec(), false).is_err(), "there is no thread yet");
        let (tell, told) = channel();
        journal.sync_beside(move |is_of_roll| tell.send(is_of_roll).expect("somebody waits"));
        for (more, safe) in [(&b" and more"[..], 14), (b"", 14), (b" again", 20)] {
            journal.begin_sync(more.to_vec(), false)?;
            assert!(journal.under_way() == 1 && journal.length == safe);
            if more.is_empty() {
                assert_eq!(journal.wait_sync()?.map(|synced| synced.safe), Some(safe));
            }
            assert!(!told.recv().map_err(io::Error::other)?);
            let polled = if more.is_empty() { None } else { Some(safe) };
            assert_eq!(journal.poll_sync()?.map(|synced| synced.safe), polled);
            assert!(journal.under_way() == 0 && journal.wait_sync()?.is_none());
        }
        journal.begin_sync(b", and".to_vec(), false)?;
        journal.begin_sync(b" for a roll".to_vec(), true)?;
        assert_eq!((journal.under_way(), journal.length), (2, 36));
        assert_eq!([told.recv(), told.recv()], [Ok(false), Ok(true)]);
        let ended = [journal.poll_sync()?, journal.wait_sync()?];
        assert_eq!(ended.map(|synced| synced.map(|synced| synced.safe)), [Some(25), Some(36)]);
        journal.add(b", at once")?;
        assert_eq!((journal.sync()?.safe, journal.syncs, journal.under_way()), (45, 6, 0));
        drop(journal);
        assert_eq!(found_in(&folder)?, (b"first and more again, and for a roll, at once".to_vec(), 45));
        fs::remove_dir_all(&folder)
    }

    #[test]
    fn behind_a_sync_that_failed_nothing_becomes_safe() -> io::Result<()> {
        let folder = empty_folder("failed");
        let mut journal = Journal::create(&folder, find(&folder)?, b"first", Failing::default())?;
        journal.sync_beside(|_| {});
        journal.failing.sync = true;
        journal.begin_sync(b" and more".to_vec(), false)?;
        journal.failing.sync = false;
        let second = journal.begin_sync(b" again".to_vec(), true);
        assert!(second.is_err() || journal.wait_sync().is_err());
        assert!(journal.wait_sync().is_err() || second.is_err());
        drop(journal);
        assert_eq!(found_in(&folder)?.1, 5);
        fs::remove_dir_all(&folder)
    }

    /// A save is written over the journal before, also where the process came back between. Nothing of that is taken.
    #[test]
    fn a_save_is_written_over_an_older_journal() -> io::Result<()> {
        let folder = empty_folder("spare");
        let mut bytes = vec![7; 3 * AHEAD];
        let mut journal = Journal::create(&folder, find(&folder)?, &bytes, Failing::default())?;
        for number in 2..9 {
            let older = (number - 1, bytes);
            bytes = vec![number as u8; 3000 * number as usize];
            let [journal_of, spare_of] = ["journal", SPARE].map(|name| folder.join(name));
            let file_before = fs::metadata(&spare_of).map(|file| file.ino()).ok();
            journal.replace(&bytes)?;
            assert!(read(&spare_of)? == older);
            assert!(file_before.is_none_or(|before| fs::metadata(&journal_of).is_ok_and(|file| file.ino() == before)));
            assert_eq!(file_before.is_none(), number == 2);
            let more = vec![0x80; if number % 3 == 0 { AHEAD } else { 1000 }];
            journal.add(&more)?;
            bytes.extend(more);
            assert_eq!(journal.sync()?.safe, bytes.len());
            assert!(read(&folder.join("journal"))? == (number, bytes.clone()));
            if number % 2 == 0 {
                drop(journal);
                let found = find(&folder)?;
                assert_eq!(found.known, bytes.len());
                journal = Journal::open(&folder, found, bytes.len(), Failing::default())?;
            }
        }
        fs::remove_dir_all(&folder)
    }

    /// It leaves no file where the disk has no room for zeros.
    #[test]
    fn a_spare_file_goes_where_the_disk_is_nearly_full() -> io::Result<()> {
        let folder = empty_folder("no-room");
        let failing = Failing::in_folder(&folder);
        let mut journal = Journal::create(&folder, find(&folder)?, b"first", failing)?;
        fs::write(folder.join(NEARLY_FULL), [])?;
        journal.make_spare(AHEAD);
        for _ in 0..2000 {
            if !folder.join(SPARE).exists() {
                break;
            }
            thread::sleep(Duration::from_millis(1));
        }
        assert!(!folder.join(SPARE).exists());
        journal.replace(b"second")?;
        assert!(bytes_in(&folder)? == b"second" && folder.join(SPARE).exists());
        fs::remove_dir_all(&folder)
    }

    /// A thread fills it, and is at it while a save takes its place, or has done so.
    #[test]
    fn a_save_is_written_over_zeros_that_a_thread_writes() -> io::Result<()> {
        let folder = empty_folder("zeros");
        let [path, spare] = ["journal", SPARE].map(|name| folder.join(name));
        let mut journal = Journal::create(&folder, find(&folder)?, b"first", Failing::default())?;
        for length in [0, AHEAD, 64 * AHEAD] {
            journal.make_spare(length);
            let Ok(file) = fs::metadata(&spare) else { break };
            while length == AHEAD && fs::metadata(&spare)?.len() < AHEAD as u64 {
                thread::sleep(Duration::from_millis(1));
            }
            let save = vec![0x55; 300_000];
            journal.replace(&save)?;
            thread::sleep(Duration::from_millis(10));
            assert!(fs::metadata(&path)?.ino() == file.ino() && bytes_in(&folder)? == save);
            // another is not made while there is one
            journal.make_spare(length);
            assert!(read(&spare)?.0 + 1 == read(&path)?.0);
            journal.spare = None;
            fs::remove_file(&spare)?;
        }
        fs::remove_dir_all(&folder)
    }

    #[test]
    fn a_spare_file_stays_unless_it_is_the_journal() -> io::Result<()> {
        let folder = empty_folder("stays");
        let [journal, spare, next] = ["journal", SPARE, "next"].map(|name| folder.join(name));
        let first = || Journal::create(&folder, find(&folder)?, b"first", Failing::default());
        drop(first()?);
        fs::hard_link(&journal, &spare)?;
        assert_eq!(found_in(&folder)?.0, b"first");
        assert!(!spare.exists());
        for path in [&spare, &next] {
            Sectors::open(path, 1, &[])?.write_all(b"another")?;
        }
        assert_eq!(found_in(&folder)?.0, b"first");
        assert!(spare.exists() && !next.exists());
        // a new journal begins with the first number again
        for name in ["journal", "known"] {
            fs::remove_file(folder.join(name))?;
        }
        drop(first()?);
        assert!(!spare.exists());
        fs::remove_dir_all(&folder)
    }

    #[test]
    fn a_save_takes_the_place_of_the_journal() -> io::Result<()> {
        let folder = empty_folder("save");
        let mut journal = Journal::create(&folder, find(&folder)?, b"first", Failing::default())?;
        journal.add(b" and more")?;
        journal.sync()?;
        journal.replace(b"short")?;
        journal.add(b" again")?;
        journal.sync()?;
        drop(journal);
        fs::write(folder.join("next"), b"left behind")?;
        let found = find(&folder)?;
        assert_eq!(found.known, 11);
        assert!(!folder.join("next").exists());
        assert!(found.journal.as_ref().is_some_and(|journal| journal.bytes == b"short again"));
        drop(Journal::open(&folder, found, 5, Failing::default())?);
        assert_eq!(bytes_in(&folder)?, b"short");
        fs::remove_dir_all(&folder)
    }
}
