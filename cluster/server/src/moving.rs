//! Moves a coordinator's journal from its folder into etcd, or back, while no coordinator runs.
//!
//! A journal goes on under the next number, so that hosts find it newer than what they were told before. While it is on
//! its way a file of the folder says so, and no coordinator starts; the same command ends what it has begun.

use crate::faults::Failing;
use crate::guard::{shared_of_folder, write_shared};
use crate::journal::{self, Found, Journal};
use crate::options::Options;
use crate::secret::SecretFile;
use crate::sectors::Content;
use crate::store::gateway::{Gateway, Value, endpoints};
use crate::store::head::{Named, SEEN, Seen};
use crate::store::lead::{Claimant, HEAD, LEADER, Lead, Stop};
use crate::store::ledger::Ledger;
use crate::store::name;
use crate::{disk, rolling};
use sevunthi::Node;
use std::fs;
use std::io::{self, ErrorKind};
use std::path::{Path, PathBuf};
use std::sync::Arc;
use std::thread;
use std::time::Duration;

/// The file of a folder that says that its journal is on its way.
pub const MOVING: &str = "moving";

/// Files that a folder keeps under another name while its journal is in etcd.
const OWN: [&str; 4] = ["journal", "known", "told", "spare"];

/// A coordinator that leads says so at least as often.
const SILENCE: Duration = Duration::from_secs(2);

/// Etcd is asked so often before one gives up.
const ATTEMPTS: usize = 10;

/// Moves the journal to where the first word says, and says whether it was done.
pub fn run(options: &Options) -> Result<bool, String> {
    let folder: PathBuf = options.get("--folder", "cluster-data/coordinator".to_string())?.into();
    let endpoints = endpoints(options.needed("--store")?)?;
    let secret = SecretFile::new(options.get("--secret", "cluster-data/secret".to_string())?);
    let name = name::name(&folder, options.given("--store-name"), Some(&secret))?;
    let gateway = Gateway::new(&endpoints, &name);
    if rolling::runs(folder.parent().unwrap_or(Path::new("."))).unwrap_or(false) {
        return Err(format!("{}: a cluster runs there: end it first", folder.display()));
    }
    let moved = match options.word(0) {
        Some("etcd") => to_etcd(&folder, gateway),
        Some("file") => to_file(&folder, gateway),
        Some(_) | None => return Err("a journal is moved to `etcd` or to `file`".to_string()),
    };
    let told = moved.map_err(|why| format!("{}: {why}", folder.display()))?;
    say!("{told}");
    Ok(true)
}

fn in_words(error: io::Error) -> String {
    error.to_string()
}

/// The lead, and what `head` and `told` had when it was taken.
struct Claimed {
    lead: Arc<Lead>,
    named: Option<Named>,
    told: Option<Vec<u8>>,
}

/// Takes the lead, where nobody says that it leads.
fn lead(folder: &Path, gateway: &mut Gateway) -> Result<Claimed, String> {
    let mut look = || -> Result<[Option<Value>; 2], String> {
        let mut last = String::new();
        for _ in 0..ATTEMPTS {
            match gateway.look([LEADER, HEAD]) {
                Ok(found) => return Ok(found),
                Err(trouble) => last = trouble.to_string(),
            }
            thread::sleep(Duration::from_millis(100));
        }
        Err(format!("etcd does not answer: {last}"))
    };
    let [before, _] = look()?;
    if before.is_some() {
        thread::sleep(SILENCE);
    }
    let [leader, head] = look()?;
    if leader != before {
        return Err("a coordinator leads in etcd: end all of them first".to_string());
    }
    let claimant = Claimant { place: 0, address: "moves".to_string(), folder: folder.into(), silence: SILENCE };
    let head = head.map(|(value, _)| value);
    let claimed = claimant.claim(gateway, leader.as_ref(), head.as_deref());
    let (lead, mut got) = claimed.ok_or("etcd has not answered, or another has come between: try again")?;
    let named = head.map(|head| Named::read(&head).ok_or("etcd's key `head` is damaged")).transpose()?;
    Ok(Claimed { lead, named, told: got.get_mut(2).and_then(Option::take) })
}

fn stopped(stop: Stop) -> String {
    match stop {
        Stop::Fenced(who) => format!("a coordinator leads in etcd: {who}"),
        Stop::Changed(what) => format!("etcd was changed by another: {what}"),
    }
}

/// What a node comes back from, of these bytes, of which so many were known to be safe.
fn come_back(bytes: &[u8], known: usize) -> Result<Vec<u8>, String> {
    let mut node = Node::come_back(bytes, known).map_err(|fault| format!("the journal: {fault}"))?;
    let mut whole = bytes[..node.good()].to_vec();
    node.take_journal(&mut whole).map_err(|fault| fault.to_string())?;
    Ok(whole)
}

/// The journal of a folder, which is locked: its number, and all its bytes.
fn journal_of(folder: &Path) -> Result<(Found, u64, Vec<u8>), String> {
    let mut found = journal::find(folder).map_err(in_words)?;
    let Some(Content { number, bytes }) = found.journal.take() else {
        return Err("there is no journal".to_string());
    };
    let whole = come_back(&bytes, found.known)?;
    Ok((found, number, whole))
}

/// The folder keeps what it had under other names, and its journal is on its way no more.
fn put_aside(folder: &Path) -> io::Result<()> {
    for name in OWN {
        let renamed = fs::rename(folder.join(name), folder.join(format!("{name}.moved")));
        renamed.or_else(|error| if error.kind() == ErrorKind::NotFound { Ok(()) } else { Err(error) })?;
    }
    disk::sync_folder(folder)?;
    fs::remove_file(folder.join(MOVING))
}

fn to_etcd(folder: &Path, mut gateway: Gateway) -> Result<String, String> {
    let is_begun = folder.join(MOVING).exists();
    if folder.join(SEEN).exists() && !is_begun {
        return Err("its journal is in etcd already".to_string());
    }
    if folder.join(SEEN).exists() && !folder.join("journal").exists() {
        put_aside(folder).map_err(in_words)?;
        return Ok("it is in etcd: start all coordinators with --store".to_string());
    }
    let (_lock, number, bytes) = journal_of(folder)?;
    let told = shared_of_folder(folder).map_err(in_words)?;
    let Claimed { lead, named, .. } = lead(folder, &mut gateway)?;
    let epoch = number + 1;
    let mut ledger = Ledger::new(gateway, lead, named);
    let is_there = match named {
        None => false,
        Some(Named::Moved(head)) if head.epoch < number => false,
        Some(Named::Moved(head)) => {
            return Err(format!(
                "it is an older copy: epoch {} was moved from etcd into a folder, and this journal has number {number}",
                head.epoch
            ));
        }
        Some(Named::Journal(head)) => {
            let is_this = is_begun && (head.epoch, head.bytes) == (epoch, bytes.len() as u64);
            if !is_this {
                return Err("etcd has a journal of this cluster already".to_string());
            }
            true
        }
    };
    disk::write_whole(&folder.join(MOVING), b"etcd\n").map_err(in_words)?;
    if !is_there {
        ledger.create(&bytes, &told, epoch, clock_of(folder)).map_err(stopped)?;
    }
    let head = ledger.head().ok_or("the journal is not in etcd")?;
    Seen::of(folder).and_then(|seen| seen.write(head)).and_then(|()| put_aside(folder)).map_err(in_words)?;
    Ok(format!("{} bytes are in etcd now, under epoch {epoch}: start all coordinators with --store", bytes.len()))
}

/// The clock of what the folder has recorded, if it records.
fn clock_of(folder: &Path) -> u64 {
    fs::read(folder.join("clock")).ok().and_then(|bytes| sevunthi::message::u64_at(&bytes, 0)).unwrap_or(0)
}

fn to_file(folder: &Path, mut gateway: Gateway) -> Result<String, String> {
    let lock = journal::lock_folder(folder).map_err(in_words)?;
    let is_begun = folder.join(MOVING).exists();
    let seen = Seen::of(folder).map_err(in_words)?;
    if folder.join("journal").exists() && !is_begun {
        return Err("it has a journal of its own".to_string());
    }
    let Claimed { lead, named, told } = lead(folder, &mut gateway)?;
    let head = match named {
        Some(Named::Moved(head)) if is_begun => head,
        Some(named) => seen.judge(Some(named.text().as_bytes()))?.ok_or("etcd has no journal of this cluster")?,
        None => return Err("etcd has no journal of this cluster".to_string()),
    };
    let mut ledger = Ledger::new(gateway, lead, named);
    let bytes = ledger.read(head).map_err(stopped)??;
    let told = told.ok_or("etcd's key `told` is gone")?;
    let bytes = come_back(&bytes, bytes.len())?;
    disk::write_whole(&folder.join(MOVING), b"file\n").map_err(in_words)?;
    if matches!(named, Some(Named::Journal(_))) {
        ledger.leave(head).map_err(stopped)?;
    }
    let number = head.epoch + 1;
    let ends = || -> io::Result<()> {
        for name in OWN {
            let _ = fs::remove_file(folder.join(name));
        }
        write_shared(folder, &told)?;
        Journal::create_as(number, folder, Found::none(lock), &bytes, Failing::default())?;
        let _ = fs::remove_file(folder.join(SEEN));
        disk::sync_folder(folder)?;
        fs::remove_file(folder.join(MOVING))
    };
    ends().map_err(in_words)?;
    Ok(format!(
        "{} bytes are in {} now, as number {number}: start one coordinator, without --store",
        bytes.len(),
        folder.display()
    ))
}

#[cfg(test)]
mod tests {
    use super::*;
    use crate::guard::{COORDINATOR, Guard, Position};
    use crate::store::stub::{Stub, empty_folder};
    use sevunthi::{Id, Work};

    /// A coordinator's folder, with a journal and what hosts have told.
    fn folder_of_coordinator(name: &str) -> Result<PathBuf, String> {
        let folder = empty_folder(name);
        let mut node = Node::coordinator().map_err(|fault| fault.to_string())?;
        node.step(Work::Suspect(Id { index: 1, generation: 1 })).map_err(|fault| fault.to_string())?;
        let mut bytes = Vec::new();
        node.take_journal(&mut bytes).map_err(|fault| fault.to_string())?;
        let found = journal::find(&folder).map_err(in_words)?;
        let journal = Journal::create(&folder, found, &bytes, Failing::default()).map_err(in_words)?;
        Guard::open(&folder, COORDINATOR, journal.found).map_err(in_words)?;
        Ok(folder)
    }

    fn position(folder: &Path) -> Result<(Position, Vec<u8>), String> {
        let (_, number, bytes) = journal_of(folder)?;
        Ok((Position { number, length: bytes.len() as u64 }, bytes))
    }

    #[test]
    fn a_journal_goes_into_etcd_and_back() -> Result<(), String> {
        let (stub, folder) = (Stub::start().map_err(in_words)?, folder_of_coordinator("moved")?);
        let (before, bytes) = position(&folder)?;
        let told = shared_of_folder(&folder).map_err(in_words)?;
        let said = to_etcd(&folder, stub.gateway())?;
        assert!(said.contains("are in etcd now, under epoch 2"), "{said}");
        assert!(journal_of(&folder).is_err() && stub.value("told") == Some(told.clone()));
        let again = to_etcd(&folder, stub.gateway());
        assert_eq!(again, Err("its journal is in etcd already".to_string()));
        let copy = folder_of_coordinator("moved-copy")?;
        assert_eq!(to_etcd(&copy, stub.gateway()), Err("etcd has a journal of this cluster already".to_string()));
        assert_eq!(to_file(&copy, stub.gateway()), Err("it has a journal of its own".to_string()));
        let said = to_file(&folder, stub.gateway())?;
        assert!(said.contains("as number 3"), "{said}");
        let (after, same) = position(&folder)?;
        assert!(before < after && after.number == 3 && same == bytes);
        assert_eq!(shared_of_folder(&folder).map_err(in_words)?, told);
        // what was there before is an older copy now
        let older = to_etcd(&copy, stub.gateway());
        assert!(older.is_err_and(|why| why.starts_with("it is an older copy")));
        let said = to_etcd(&folder, stub.gateway())?;
        assert!(said.contains("under epoch 4"), "{said}");
        [folder, copy].iter().try_for_each(fs::remove_dir_all).map_err(in_words)
    }

    /// The process has ended in the middle: no coordinator starts, and the same command ends what it has begun.
    #[test]
    fn what_was_begun_is_ended() -> Result<(), String> {
        let (stub, folder) = (Stub::start().map_err(in_words)?, folder_of_coordinator("begun")?);
        let kept = empty_folder("begun-kept");
        let copy = |from: &Path, to: &Path| {
            OWN.iter().filter(|name| from.join(name).exists()).for_each(|name| {
                fs::copy(from.join(name), to.join(name)).expect("there is room");
            });
        };
        copy(&folder, &kept);
        to_etcd(&folder, stub.gateway())?;
        // as it was when etcd had it, and the folder had not been told yet
        copy(&kept, &folder);
        fs::remove_file(folder.join(SEEN)).map_err(in_words)?;
        fs::write(folder.join(MOVING), "etcd\n").map_err(in_words)?;
        to_etcd(&folder, stub.gateway())?;
        // and when the folder was told, and had put nothing aside
        copy(&kept, &folder);
        fs::write(folder.join(MOVING), "etcd\n").map_err(in_words)?;
        to_etcd(&folder, stub.gateway())?;
        assert!(folder.join(SEEN).exists() && !folder.join("journal").exists() && !folder.join(MOVING).exists());
        let seen = fs::read(folder.join(SEEN)).map_err(in_words)?;
        to_file(&folder, stub.gateway())?;
        // as it was when etcd had given it away, and the folder had nothing
        OWN.iter().for_each(|name| _ = fs::remove_file(folder.join(name)));
        fs::write(folder.join(SEEN), seen).map_err(in_words)?;
        assert!(to_file(&folder, stub.gateway()).is_err_and(|why| why.contains("was moved from etcd")));
        fs::write(folder.join(MOVING), "file\n").map_err(in_words)?;
        to_file(&folder, stub.gateway())?;
        assert_eq!(position(&folder)?.0.number, 3);
        [folder, kept].iter().try_for_each(fs::remove_dir_all).map_err(in_words)
    }

    #[test]
    fn a_store_whose_leader_says_so_is_left_alone() -> Result<(), String> {
        let (stub, folder) = (Stub::start().map_err(in_words)?, folder_of_coordinator("led")?);
        stub.put(LEADER, b"3 4 127.0.0.1:9");
        let says = stub.clone();
        let ends = thread::spawn(move || {
            thread::sleep(SILENCE / 2);
            says.put(LEADER, b"3 4 127.0.0.1:9");
        });
        let refused = to_etcd(&folder, stub.gateway());
        ends.join().map_err(|_| "it has panicked")?;
        assert_eq!(refused, Err("a coordinator leads in etcd: end all of them first".to_string()));
        // a folder that has seen more than etcd has gets nothing
        to_etcd(&folder, stub.gateway())?;
        stub.put(HEAD, b"1 1 1 1");
        assert!(to_file(&folder, stub.gateway()).is_err_and(|why| why.starts_with("etcd has an older journal")));
        stub.remove(HEAD);
        assert_eq!(to_file(&folder, stub.gateway()), Err("etcd has no journal of this cluster".to_string()));
        fs::remove_dir_all(folder).map_err(in_words)
    }
}
