//! The guard against older copies of a node's folder. Each folder has a number that was drawn when it was made, and
//! its journal comes to ever higher positions. The coordinator and each host keep the highest position that the other
//! one has told, and say it back: so a node learns that its folder is an older copy, and ends before it acts by that.
//! A node that comes back writes to its journal at once. So a position has the number of the process that told it too,
//! and what earlier ones have told is held against what this one has found in its folder: by itself, when it hears of
//! that, and by the other one, which is told what was found, since that may hear it first.
//!
//! A position is told rather than versions, terms and attempts, since a commit changes none of these, and a coordinator
//! that has forgotten one lets a recovery take an older log.

use crate::disk;
use crate::store::told::Told;
use sevunthi::message::u64_at;
use sevunthi::{Address, mac};
pub use sevunthi_runtime::journal::{Position, TOLD};
use std::collections::{BTreeMap, BTreeSet};
use std::fs::{self, File, OpenOptions};
use std::io::{self, ErrorKind, Read};
use std::os::unix::fs::FileExt;
use std::path::Path;
use std::sync::Arc;
use std::sync::atomic::{AtomicBool, Ordering};
use std::thread;
use std::time::Duration;

/// The first byte of a frame that has a [`Word`].
pub const WORD: u8 = 254;

/// The coordinator among those who speak; hosts have their indexes.
pub const COORDINATOR: u8 = 64;

/// How many there are at most.
const PLACES: usize = 65;

/// So many bytes a row of the file has: no sector has a part of one.
const ROW: usize = 64;

/// And a stamp, and a position.
const STAMP: usize = 32;
const POSITION: usize = 16;

/// So soon what was told is safe, where the machine loses its power.
const SOON: Duration = Duration::from_secs(1);

/// A folder, and how far its journal has come. Where nothing is known all is 0.
#[derive(Clone, Copy, Debug, Default, PartialEq, Eq)]
pub struct Stamp {
    /// The number that was drawn when the folder was made.
    pub folder: u64,
    /// The number that was drawn when the process began.
    pub life: u64,
    /// How far its journal has come.
    pub position: Position,
}

/// What begins each batch from a host to the coordinator, and back.
#[derive(Clone, Copy, Debug, PartialEq, Eq)]
pub struct Word {
    /// Who speaks.
    pub from: u8,
    /// The speaker's folder.
    pub mine: Stamp,
    /// How far the speaker's journal had come when its process began.
    pub found: Position,
    /// What the speaker was told last of the hearer's folder.
    pub yours: Stamp,
    /// Of a host: its disk has little room. Of the coordinator: too few hosts have room, and no writes are to be taken.
    pub lacks_room: bool,
}

impl Stamp {
    fn put(self, out: &mut Vec<u8>) {
        out.extend_from_slice(&self.folder.to_le_bytes());
        out.extend_from_slice(&self.life.to_le_bytes());
        self.position.put(out);
    }

    fn read(bytes: &[u8], at: usize) -> Option<Stamp> {
        let position = Position::read(bytes, at + 16)?;
        Some(Stamp { folder: u64_at(bytes, at)?, life: u64_at(bytes, at + 8)?, position })
    }

    /// The row of the file that has it.
    fn row(self) -> [u8; ROW] {
        let mut bytes = Vec::with_capacity(STAMP);
        self.put(&mut bytes);
        let mut row = [0; ROW];
        row[..STAMP].copy_from_slice(&bytes);
        row[STAMP..STAMP + 8].copy_from_slice(&sum(&bytes));
        row
    }

    /// What a row has; none where it is damaged.
    fn of_row(row: &[u8]) -> Option<Stamp> {
        let stamp = Stamp::read(row, 0)?;
        (stamp == Stamp::default() || sum(&row[..STAMP]) == row[STAMP..STAMP + 8]).then_some(stamp)
    }
}

/// A sum against accidents.
fn sum(bytes: &[u8]) -> [u8; 8] {
    mac(TOLD.as_bytes(), bytes)[..8].try_into().unwrap_or_default()
}

impl Word {
    /// Its bytes.
    pub fn code(&self) -> Vec<u8> {
        let mut code = vec![WORD, self.from, u8::from(self.lacks_room)];
        self.mine.put(&mut code);
        self.found.put(&mut code);
        self.yours.put(&mut code);
        code
    }

    /// The word of these bytes.
    pub fn read(bytes: &[u8]) -> Option<Word> {
        let &[WORD, from @ ..=COORDINATOR, room @ ..=1, ref rest @ ..] = bytes else { return None };
        let (mine, found) = (Stamp::read(rest, 0)?, Position::read(rest, STAMP)?);
        let yours = Stamp::read(rest, STAMP + POSITION)?;
        (rest.len() == 2 * STAMP + POSITION).then_some(Word { from, mine, found, yours, lacks_room: room == 1 })
    }

    /// Whether the speaker has come less far than it has told before, by this process; or this process has begun with
    /// less than an earlier one has told, whatever it has written since.
    fn tells_less(&self, held: &Stamp) -> bool {
        let is_other_life = self.mine.life != held.life;
        self.mine.position < held.position || is_other_life && self.found < held.position
    }
}

/// How somebody stands to whom one listens.
#[derive(Clone, Copy, Debug, Default, PartialEq, Eq)]
pub enum Standing {
    /// It has not spoken since this process began.
    #[default]
    Unheard,
    /// Its folder is new, and it was not let in yet.
    New,
    /// What it says counts.
    Good,
    /// It speaks of less than it has told before: its folder is an older copy, or a message came late.
    Older,
    /// It was told by the coordinator of another folder, or is that.
    Foreign,
}

/// What a word shows of the folder of whoever hears it.
#[derive(Clone, Copy, Debug, PartialEq, Eq)]
pub enum Shown {
    /// Nothing.
    Nothing,
    /// This folder is an older copy: the speaker was told of more.
    IsOlder,
    /// Another folder of this host was in use since.
    WasReplaced,
}

/// What a folder has of the guard.
pub struct Guard {
    /// Who has it.
    place: u8,
    folder: u64,
    life: u64,
    /// How far the journal had come when this process began.
    found: Position,
    /// What each was told to have come to, by its place.
    held: [Stamp; PLACES],
    standings: [Standing; PLACES],
    /// Those whose folder is new, and that were not let in yet.
    newcomers: BTreeMap<u8, Stamp>,
    /// Those that were let in with a new folder in the place of another: what that was told is forgotten.
    replaced: BTreeSet<u8>,
    keeping: Keeping,
}

/// Where what was told is kept.
enum Keeping {
    /// In the folder's file, and whether a thread has to make it safe.
    File(Arc<File>, Arc<AtomicBool>),
    /// In the store, for whoever leads next; and those that are to be let in, with the version that has them.
    Shared(Arc<Told>, BTreeMap<u8, (Stamp, u64)>),
}

/// A damaged file, in words, with what to do.
fn damaged(path: &Path) -> io::Error {
    let what = "is damaged: put back what the folder had, or, where no copy of another time is in use, remove this \
                file from the folders of all nodes while none runs";
    io::Error::new(ErrorKind::InvalidData, format!("{} {what}", path.display()))
}

/// A number that nobody else draws.
fn draw() -> io::Result<u64> {
    let mut drawn = [0; 8];
    File::open("/dev/urandom")?.read_exact(&mut drawn)?;
    Ok(u64::from_le_bytes(drawn).max(1))
}

/// The folder's own row, and what it holds of each.
fn read(path: &Path) -> io::Result<(Stamp, [Stamp; PLACES])> {
    let rows = fs::read(path)?;
    let mut stamps = rows.chunks_exact(ROW).map(Stamp::of_row);
    let own = stamps.next().flatten().filter(|own| own.folder != 0).ok_or_else(|| damaged(path))?;
    let mut held = [Stamp::default(); PLACES];
    for place in &mut held {
        *place = stamps.next().flatten().ok_or_else(|| damaged(path))?;
    }
    Ok((own, held))
}

/// What a folder holds of whoever has this place.
pub fn held_of(folder: &Path, place: u8) -> io::Result<Stamp> {
    let (_, held) = read(&folder.join(TOLD))?;
    Ok(held[usize::from(place)])
}

impl Guard {
    /// The guard of the folder of whoever has this place, whose journal is locked, and was found so far. Where the
    /// folder has no number yet, one is drawn. An error of the kind `InvalidData` says that the file is damaged.
    pub fn open(folder: &Path, place: u8, found: Position) -> io::Result<Guard> {
        let path = folder.join(TOLD);
        if !path.try_exists()? {
            let mut rows = vec![0; (1 + PLACES) * ROW];
            rows[..ROW].copy_from_slice(&Stamp { folder: draw()?, ..Stamp::default() }.row());
            disk::write_whole(&path, &rows)?;
        }
        let (own, held) = read(&path)?;
        let life = draw()?;
        let file = Arc::new(OpenOptions::new().write(true).open(&path)?);
        let standings = [Standing::Unheard; PLACES];
        let (newcomers, replaced, keeping) = (BTreeMap::new(), BTreeSet::new(), Keeping::File(file, Arc::default()));
        Ok(Guard { place, folder: own.folder, life, found, held, standings, newcomers, replaced, keeping })
    }

    /// The guard of a coordinator whose journal is in the store, which was found so far, with what hosts have told, as it
    /// stands there. All coordinators of a cluster have one folder's number. None is damaged.
    pub fn shared(code: &[u8], found: Position, told: Arc<Told>) -> io::Result<Option<Guard>> {
        let Some((folder, held)) = read_shared(code) else { return Ok(None) };
        let standings = [Standing::Unheard; PLACES];
        let (newcomers, replaced, life) = (BTreeMap::new(), BTreeSet::new(), draw()?);
        let keeping = Keeping::Shared(told, BTreeMap::new());
        Ok(Some(Guard { place: COORDINATOR, folder, life, found, held, standings, newcomers, replaced, keeping }))
    }

    /// From now on a thread makes safe what was told. Where it can't, it says so.
    pub fn sync_beside(&self, failed: impl Fn(io::Error) + Send + 'static) {
        let Keeping::File(file, is_dirty) = &self.keeping else { return };
        let (file, is_dirty) = (Arc::clone(file), Arc::clone(is_dirty));
        thread::spawn(move || {
            loop {
                thread::sleep(SOON);
                if is_dirty.swap(false, Ordering::Relaxed)
                    && let Err(error) = file.sync_data()
                {
                    failed(error);
                }
            }
        });
    }

    /// What is said to whoever has this place, by who has come so far.
    pub fn word(&self, to: u8, mine: Position, lacks_room: bool) -> Word {
        let mine = Stamp { folder: self.folder, life: self.life, position: mine };
        Word { from: self.place, mine, found: self.found, yours: self.held[usize::from(to)], lacks_room }
    }

    /// How whoever has this place stands.
    pub fn standing(&self, place: u8) -> Standing {
        self.standings.get(usize::from(place)).copied().unwrap_or_default()
    }

    /// How many hosts stand so.
    pub fn count(&self, standing: Standing) -> usize {
        self.standings[..usize::from(COORDINATOR)].iter().filter(|other| **other == standing).count()
    }

    /// Whether this host counts, and has what it was told since its folder was first taken.
    pub fn remembers(&self, host: u8) -> bool {
        self.standing(host) == Standing::Good && !self.replaced.contains(&host)
    }

    /// How many hosts do.
    pub fn count_remembering(&self) -> usize {
        (0..COORDINATOR).filter(|host| self.remembers(*host)).count()
    }

    /// Whether a message of this sender counts. Hosts do not ask this of one another.
    pub fn hears(&self, from: Address) -> bool {
        match from {
            Address::Coordinator => self.standing(COORDINATOR) == Standing::Good,
            Address::Server(id) => self.place != COORDINATOR || self.standing(id.index) == Standing::Good,
            Address::Outside => true,
        }
    }

    /// Takes a word, and says what it shows of this folder. Keeps what it tells of the speaker's.
    pub fn take(&mut self, word: &Word) -> io::Result<Shown> {
        let yours = word.yours;
        if yours.folder == self.folder && yours.life != self.life && self.found < yours.position {
            return Ok(Shown::IsOlder);
        }
        let (standing, shown) = match (self.place, word.from) {
            (COORDINATOR, COORDINATOR) => return Ok(Shown::Nothing),
            (COORDINATOR, _) => self.judge_host(word),
            (_, COORDINATOR) => self.judge_coordinator(word),
            _ => return Ok(Shown::Nothing),
        };
        self.standings[usize::from(word.from)] = standing;
        match standing {
            Standing::Good => self.keep(word.from, word.mine)?,
            Standing::New => _ = self.newcomers.insert(word.from, word.mine),
            Standing::Unheard | Standing::Older | Standing::Foreign => {}
        }
        Ok(shown)
    }

    /// From now on a host counts whose folder is new. Says whether another folder counted for it before. Where the store
    /// keeps what was told, that has to have it first: then the host is let in by a later call.
    pub fn let_in(&mut self, host: u8) -> io::Result<bool> {
        let Some(stamp) = self.newcomers.get(&host).copied() else { return Ok(false) };
        if !self.is_known_to_others(host, stamp) {
            return Ok(false);
        }
        self.newcomers.remove(&host);
        let had_another = self.held[usize::from(host)].folder != 0;
        if had_another {
            self.replaced.insert(host);
        }
        self.standings[usize::from(host)] = Standing::Good;
        self.keep(host, stamp)?;
        Ok(had_another)
    }

    /// Whether this folder's host was never told anything by a coordinator that counts.
    pub fn is_new(&self) -> bool {
        self.held[usize::from(COORDINATOR)].folder == 0
    }

    /// A host that was never told anything has a folder that is new. One that was told by another coordinator is none
    /// of this cluster; one that was told by this one, of whom another folder has come since, has an old folder.
    fn judge_host(&self, word: &Word) -> (Standing, Shown) {
        let held = self.held[usize::from(word.from)];
        let is_new = word.yours.folder == 0;
        if !is_new && word.yours.folder != self.folder {
            return (Standing::Foreign, Shown::Nothing);
        }
        match held.folder {
            folder if folder == word.mine.folder && word.tells_less(&held) => (Standing::Older, Shown::Nothing),
            folder if folder == word.mine.folder => (Standing::Good, Shown::Nothing),
            _ if is_new => (Standing::New, Shown::Nothing),
            0 => (Standing::Good, Shown::Nothing),
            _ => (Standing::Older, Shown::Nothing),
        }
    }

    /// A host listens to the coordinator that it heard first, when that has taken note of the host's folder.
    fn judge_coordinator(&self, word: &Word) -> (Standing, Shown) {
        let held = self.held[usize::from(word.from)];
        let is_noted = word.yours.folder == self.folder;
        match held.folder {
            0 if is_noted => (Standing::Good, Shown::Nothing),
            0 => (Standing::Unheard, Shown::Nothing),
            folder if folder != word.mine.folder => (Standing::Foreign, Shown::Nothing),
            _ if word.tells_less(&held) => (Standing::Older, Shown::Nothing),
            _ if !is_noted && word.yours.folder != 0 => (Standing::Older, Shown::WasReplaced),
            _ => (Standing::Good, Shown::Nothing),
        }
    }

    /// Keeps what was told. Another folder is safe at once, for nobody forgets that; a position is soon.
    fn keep(&mut self, place: u8, stamp: Stamp) -> io::Result<()> {
        let held = &mut self.held[usize::from(place)];
        if *held == stamp {
            return Ok(());
        }
        let is_other = held.folder != stamp.folder;
        *held = stamp;
        match &self.keeping {
            Keeping::File(file, is_dirty) => {
                file.write_all_at(&stamp.row(), ((1 + usize::from(place)) * ROW) as u64)?;
                if is_other {
                    return file.sync_data();
                }
                is_dirty.store(true, Ordering::Relaxed);
            }
            Keeping::Shared(told, letting_in) => {
                told.keep(shared_code(self.folder, &self.held, letting_in), is_other);
            }
        }
        Ok(())
    }

    /// Whether whoever leads next would know that this folder is this host's. If not, it soon will.
    fn is_known_to_others(&mut self, host: u8, stamp: Stamp) -> bool {
        let Keeping::Shared(told, letting_in) = &mut self.keeping else { return true };
        match letting_in.get(&host) {
            Some((kept, version)) if kept.folder == stamp.folder => {
                let is_known = told.has(*version);
                if is_known {
                    letting_in.remove(&host);
                }
                is_known
            }
            Some(_) | None => {
                letting_in.insert(host, (stamp, u64::MAX));
                let version = told.keep(shared_code(self.folder, &self.held, letting_in), true);
                letting_in.insert(host, (stamp, version));
                false
            }
        }
    }
}

/// What hosts have told, as the store has it: the number of all coordinators' folders, and a stamp behind each place.
fn shared_code(folder: u64, held: &[Stamp; PLACES], letting_in: &BTreeMap<u8, (Stamp, u64)>) -> Vec<u8> {
    let mut code = folder.to_le_bytes().to_vec();
    for (place, stamp) in (0..).zip(held) {
        let stamp = letting_in.get(&place).map_or(stamp, |(stamp, _)| stamp);
        if *stamp != Stamp::default() {
            code.push(place);
            stamp.put(&mut code);
        }
    }
    code
}

fn read_shared(code: &[u8]) -> Option<(u64, [Stamp; PLACES])> {
    let folder = u64_at(code, 0).filter(|folder| *folder != 0)?;
    let mut held = [Stamp::default(); PLACES];
    for row in code[8..].chunks(1 + STAMP) {
        let (place, stamp) = row.split_first()?;
        *held.get_mut(usize::from(*place))? = Stamp::read(stamp, 0)?;
    }
    Some((folder, held))
}

/// What the store has of a new cluster: a number that is drawn, and nothing that was told.
pub fn new_shared() -> io::Result<Vec<u8>> {
    Ok(draw()?.to_le_bytes().to_vec())
}

/// What a coordinator's folder has been told, as the store has it.
pub fn shared_of_folder(folder: &Path) -> io::Result<Vec<u8>> {
    let (own, held) = read(&folder.join(TOLD))?;
    Ok(shared_code(own.folder, &held, &BTreeMap::new()))
}

/// Makes the file of a coordinator's folder of what the store has. An error of the kind `InvalidData` says that this is
/// damaged.
pub fn write_shared(folder: &Path, code: &[u8]) -> io::Result<()> {
    let damaged = || io::Error::new(ErrorKind::InvalidData, "etcd's key `told` is damaged");
    let (own, held) = read_shared(code).ok_or_else(damaged)?;
    let own = Stamp { folder: own, ..Stamp::default() };
    let rows: Vec<u8> = [own].iter().chain(&held).flat_map(|stamp| stamp.row()).collect();
    disk::write_whole(&folder.join(TOLD), &rows)
}

#[cfg(test)]
mod tests {
    use super::*;

    fn empty_folder(name: &str) -> std::path::PathBuf {
        let folder = std::env::temp_dir().join(format!("sevunthi-guard-{name}-{}", std::process::id()));
        let _ = fs::remove_dir_all(&folder);
        folder
    }

    fn at(number: u64, length: u64) -> Position {
        Position { number, length }
    }

    /// A node in a folder of its own, with how far its journal has come.
    struct Node {
        folder: std::path::PathBuf,
        guard: Guard,
        position: Position,
    }

    impl Node {
        fn new(folder: &Path, name: &str, place: u8) -> io::Result<Node> {
            let (folder, position) = (folder.join(name), at(1, 100));
            fs::create_dir_all(&folder)?;
            Ok(Node { guard: Guard::open(&folder, place, position)?, folder, position })
        }

        /// Its process begins anew, and finds the journal so. It writes some to that at once.
        fn again(&mut self, found: Position) -> io::Result<()> {
            self.guard = Guard::open(&self.folder, self.guard.place, found)?;
            self.position = at(found.number, found.length + 1000);
            Ok(())
        }

        /// Takes the word of another.
        fn hear(&mut self, other: &Node) -> io::Result<(Standing, Shown)> {
            let word = other.guard.word(self.guard.place, other.position, false);
            let word = Word::read(&word.code()).ok_or(ErrorKind::InvalidData)?;
            let shown = self.guard.take(&word)?;
            Ok((self.guard.standing(word.from), shown))
        }
    }

    const GOOD: (Standing, Shown) = (Standing::Good, Shown::Nothing);

    /// A coordinator and a host that have heard each other.
    fn two(name: &str) -> io::Result<(std::path::PathBuf, Node, Node)> {
        let folder = empty_folder(name);
        let mut coordinator = Node::new(&folder, "coordinator", COORDINATOR)?;
        let mut host = Node::new(&folder, "host", 3)?;
        // (a host is let in, and then listens)
        assert_eq!(host.hear(&coordinator)?, (Standing::Unheard, Shown::Nothing));
        assert_eq!(coordinator.hear(&host)?, (Standing::New, Shown::Nothing));
        assert_eq!(host.hear(&coordinator)?, (Standing::Unheard, Shown::Nothing));
        assert!(host.guard.is_new() && !coordinator.guard.let_in(3)?);
        assert_eq!(host.hear(&coordinator)?, GOOD);
        assert_eq!(coordinator.hear(&host)?, GOOD);
        assert!(!host.guard.is_new());
        Ok((folder, coordinator, host))
    }

    #[test]
    fn a_coordinator_that_was_put_back_learns_it_of_any_host() -> io::Result<()> {
        let (folder, mut coordinator, mut host) = two("coordinator")?;
        for position in [at(1, 700), at(2, 90), at(3, 40)] {
            let before = coordinator.position;
            coordinator.position = position;
            assert_eq!(host.hear(&coordinator)?, GOOD);
            coordinator.again(at(before.number, before.length - 1))?;
            host.again(host.position)?;
            assert_eq!(coordinator.hear(&host)?.1, Shown::IsOlder);
            coordinator.position = before;
            assert_eq!(host.hear(&coordinator)?, (Standing::Older, Shown::Nothing));
            assert!(!host.guard.hears(Address::Coordinator));
            coordinator.again(position)?;
            assert_eq!((coordinator.hear(&host)?, host.hear(&coordinator)?), (GOOD, GOOD));
            assert_eq!(
                (coordinator.hear(&host)?, held_of(&host.folder, COORDINATOR)?.position),
                (GOOD, coordinator.position)
            );
        }
        fs::remove_dir_all(folder)
    }

    #[test]
    fn a_host_that_was_put_back_learns_it_of_the_coordinator() -> io::Result<()> {
        let (folder, mut coordinator, mut host) = two("host")?;
        host.position = at(3, 50);
        assert_eq!(coordinator.hear(&host)?, GOOD);
        coordinator.again(coordinator.position)?;
        host.again(at(2, 5000))?;
        assert_eq!(coordinator.hear(&host)?, (Standing::Older, Shown::Nothing));
        assert_eq!(host.hear(&coordinator)?.1, Shown::IsOlder);
        // what it writes when it begins does not hide it
        host.again(at(3, 49))?;
        assert!(at(3, 50) < host.position);
        assert_eq!(host.hear(&coordinator)?.1, Shown::IsOlder);
        host.again(at(3, 50))?;
        assert_eq!((coordinator.hear(&host)?, host.hear(&coordinator)?), (GOOD, GOOD));
        assert_eq!(held_of(&coordinator.folder, 3)?.position, host.position);
        fs::remove_dir_all(folder)
    }

    /// The coordinator hears the host before that hears of what was told, as where all have begun anew.
    #[test]
    fn what_an_older_copy_writes_before_it_is_heard_does_not_hide_it() -> io::Result<()> {
        let (folder, mut coordinator, mut host) = two("hidden")?;
        let copied = host.position;
        host.again(copied)?;
        assert_eq!((coordinator.hear(&host)?, host.hear(&coordinator)?), (GOOD, GOOD));
        let told = host.position;
        coordinator.again(coordinator.position)?;
        host.again(copied)?;
        assert!(told <= host.position);
        assert_eq!(coordinator.hear(&host)?, (Standing::Older, Shown::Nothing));
        assert_eq!(held_of(&coordinator.folder, 3)?.position, told);
        assert_eq!(host.hear(&coordinator)?.1, Shown::IsOlder);
        // its own folder is taken, and so is the coordinator's
        host.again(told)?;
        coordinator.again(coordinator.position)?;
        assert_eq!((coordinator.hear(&host)?, host.hear(&coordinator)?), (GOOD, GOOD));
        fs::remove_dir_all(folder)
    }

    #[test]
    fn an_empty_folder_is_a_new_host_and_no_coordinator() -> io::Result<()> {
        let (folder, mut coordinator, mut host) = two("empty")?;
        host.position = at(3, 50);
        assert_eq!(coordinator.hear(&host)?, GOOD);
        let mut new = Node::new(&folder, "host-again", 3)?;
        // what is told to the host that was there before says nothing to the new one
        assert_eq!(new.hear(&coordinator)?, (Standing::Unheard, Shown::Nothing));
        assert_eq!(coordinator.hear(&new)?, (Standing::New, Shown::Nothing));
        assert_eq!(coordinator.guard.count_remembering(), 0);
        assert!(coordinator.guard.let_in(3)? && !coordinator.guard.let_in(3)?);
        assert_eq!((new.hear(&coordinator)?, coordinator.hear(&new)?), (GOOD, GOOD));
        // it has forgotten what the other folder was told, and is nobody by whom an older coordinator learns that it is
        assert_eq!((coordinator.guard.count(Standing::Good), coordinator.guard.count_remembering()), (1, 0));
        // the old folder comes back
        host.position = at(4, 0);
        assert_eq!(coordinator.hear(&host)?, (Standing::Older, Shown::Nothing));
        assert_eq!(host.hear(&coordinator)?.1, Shown::WasReplaced);
        let mut emptied = Node::new(&folder, "coordinator-again", COORDINATOR)?;
        emptied.position = at(9, 9999);
        assert_eq!(emptied.hear(&host)?, (Standing::Foreign, Shown::Nothing));
        assert_eq!(host.hear(&emptied)?, (Standing::Foreign, Shown::Nothing));
        assert_eq!((emptied.guard.count(Standing::Foreign), emptied.guard.count(Standing::Good)), (1, 0));
        fs::remove_dir_all(folder)
    }

    /// Whoever leads next has to know a new host before that hears that it is known.
    #[test]
    fn a_new_host_is_let_in_once_the_store_has_it() -> io::Result<()> {
        let folder = empty_folder("shared");
        let code = new_shared()?;
        let told = Arc::new(Told::of(code.clone()));
        let mut first = Guard::shared(&code, at(1, 100), Arc::clone(&told))?.ok_or(ErrorKind::InvalidData)?;
        let mut host = Node::new(&folder, "host", 3)?;
        let hear = |guard: &mut Guard, host: &Node| guard.take(&host.guard.word(COORDINATOR, host.position, false));
        hear(&mut first, &host)?;
        assert_eq!(first.standing(3), Standing::New);
        assert!(!first.let_in(3)? && first.standing(3) == Standing::New);
        // what another host tells meanwhile takes nothing away
        let (version, code) = told.due().ok_or(ErrorKind::NotFound)?;
        assert!(!first.let_in(3)? && first.standing(3) == Standing::New);
        told.put(version);
        assert!(!first.let_in(3)? && first.standing(3) == Standing::Good);
        host.guard.take(&first.word(3, at(1, 100), false))?;
        assert_eq!(host.guard.standing(COORDINATOR), Standing::Good);
        // another takes over, with what the store had
        let told = Arc::new(Told::of(code.clone()));
        let mut second = Guard::shared(&code, at(1, 150), Arc::clone(&told))?.ok_or(ErrorKind::InvalidData)?;
        host.guard.take(&second.word(3, at(1, 150), false))?;
        hear(&mut second, &host)?;
        assert_eq!((host.guard.standing(COORDINATOR), second.standing(3)), (Standing::Good, Standing::Good));
        // the one before it comes late, and is not listened to
        host.guard.take(&first.word(3, at(1, 120), false))?;
        assert_eq!(host.guard.standing(COORDINATOR), Standing::Older);
        // a store that was put back
        let mut older = Guard::shared(&code, at(1, 90), Arc::clone(&told))?.ok_or(ErrorKind::InvalidData)?;
        assert_eq!(hear(&mut older, &host)?, Shown::IsOlder);
        write_shared(&folder, &code)?;
        assert_eq!(shared_of_folder(&folder)?, code);
        assert!(Guard::shared(&code[..20], at(1, 1), told)?.is_none());
        fs::remove_dir_all(folder)
    }

    #[test]
    fn a_damaged_file_is_refused() -> io::Result<()> {
        let (folder, _, host) = two("damaged")?;
        let path = host.folder.join(TOLD);
        let whole = fs::read(&path)?;
        for place in [0, 8, 25, (1 + usize::from(COORDINATOR)) * ROW + 3] {
            let mut bytes = whole.clone();
            bytes[place] ^= 4;
            fs::write(&path, bytes)?;
            let refused = Guard::open(&host.folder, 3, at(1, 100)).err().ok_or(ErrorKind::Other)?;
            assert!(refused.kind() == ErrorKind::InvalidData && refused.to_string().contains("told is damaged"));
        }
        fs::write(&path, &whole[..whole.len() - ROW])?;
        assert!(Guard::open(&host.folder, 3, at(1, 100)).is_err());
        fs::remove_dir_all(folder)
    }

    #[test]
    fn only_whole_words_are_read() {
        let stamp = |folder| Stamp { folder, life: 9, position: at(2, 3) };
        let word = Word { from: 5, mine: stamp(7), found: at(1, 4), yours: stamp(8), lacks_room: true };
        let code = word.code();
        assert_eq!(Word::read(&code), Some(word));
        assert!((0..code.len()).all(|length| Word::read(&code[..length]).is_none()));
        assert_eq!(Word::read(&[&code[..], &[0]].concat()), None);
        assert_eq!(Word::read(&[&[WORD, COORDINATOR + 1], &code[2..]].concat()), None);
        assert_eq!(Word::read(&[&[WORD, 5, 2], &code[3..]].concat()), None);
    }
}
