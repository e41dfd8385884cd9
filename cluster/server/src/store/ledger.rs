//! A coordinator's journal in etcd, as whoever leads writes it.
//!
//! The key `head` has the journal's epoch, how many records and bytes it has, and a clock; `log/EPOCH/NUMBER` the bytes of
//! a record. `head` is never taken away, and none of its values comes twice. Whatever changes it, or puts a record, asks
//! in the same transaction that `leader` and `head` are what the writer believes. So what is safe is what a transaction
//! has answered; where an answer was lost it is asked again, and `head` tells whether it was done before.
//!
//! What does not go into one transaction stands in several records, which `head` names only with the last of them: what
//! it names always ends with a whole record of the node.

use super::gateway::{Act, Came, Compare, Gateway, count};
use super::head::{Head, Named};
use super::lead::{HEAD, Lead, Stop, TOLD};
use crate::faults::Failing;
use std::sync::Arc;
use std::time::Instant;

/// A record, or a piece of a save, has so many bytes at most: etcd takes requests of 1.5 MiB.
const PIECE: usize = 1 << 20;

/// So many records are read at once.
const AT_ONCE: usize = 4;

/// The journal in etcd.
pub struct Ledger {
    gateway: Gateway,
    lead: Arc<Lead>,
    /// What `head` has; none where it is not there.
    named: Option<Named>,
    piece: usize,
}

fn record_key(epoch: u64, number: u64) -> String {
    format!("log/{epoch:016}/{number:016}")
}

impl Ledger {
    /// The journal of who leads, as `head` was in the transaction by which it took the lead.
    pub fn new(gateway: Gateway, lead: Arc<Lead>, named: Option<Named>) -> Ledger {
        Ledger { gateway, lead, named, piece: PIECE }
    }

    /// How far it has come; none where there is none.
    pub fn head(&self) -> Option<Head> {
        match self.named {
            Some(Named::Journal(head)) => Some(head),
            Some(Named::Moved(_)) | None => None,
        }
    }

    /// All its bytes.
    ///
    /// # Errors
    ///
    /// That another one leads by now, and may have replaced it; or that records are gone that nobody may take away.
    pub fn read(&mut self, head: Head) -> Result<Result<Vec<u8>, String>, Stop> {
        let mut bytes = Vec::with_capacity(head.bytes as usize);
        let mut number = 0;
        while number < head.count {
            let (from, to) = (record_key(head.epoch, number), record_key(head.epoch, head.count));
            let rows = self.gateway.range(&from, &to, AT_ONCE).unwrap_or_default();
            let mut expected = (number..).map(|number| record_key(head.epoch, number));
            if rows.is_empty() || rows.iter().any(|(key, _)| expected.next().as_ref() != Some(key)) {
                // whoever leads by now may have replaced it
                self.guard()?;
                return Ok(Err(format!("record {number} of the journal in etcd is gone, or one behind it")));
            }
            number += rows.len() as u64;
            rows.iter().for_each(|(_, value)| bytes.extend_from_slice(value));
        }
        if bytes.len() as u64 != head.bytes {
            return Ok(Err(format!("the journal in etcd has {} bytes, and not {}", bytes.len(), head.bytes)));
        }
        Ok(Ok(bytes))
    }

    /// That `head` is as it was left.
    fn is_same(compared: &Option<String>) -> Compare<'_> {
        Compare { key: HEAD, is: compared.as_deref().map(str::as_bytes) }
    }

    /// One transaction: that this process leads, and `head` is as it was left; then these acts, of which one may put the
    /// next `head`. Where an answer was lost it is asked again: then `head` is the next one already, if it was done.
    fn commit(&mut self, acts: &[Act], next: Option<Named>) -> Result<(), Stop> {
        let (old, new) = (self.named.map(Named::text), next.map(Named::text));
        let sent = Instant::now();
        let mut acts = acts.to_vec();
        acts.extend(new.iter().map(|new| Act::Put(HEAD, new.as_bytes())));
        let lead = Arc::clone(&self.lead);
        let (came, _) = self.gateway.transact(&[lead.guard(), Ledger::is_same(&old)], &acts);
        if let Came::Differs(now) = came {
            let now: Vec<Option<&[u8]>> = now.iter().map(Option::as_deref).collect();
            self.lead.check(now.first().copied().flatten())?;
            let head = now.get(1).copied().flatten();
            if new.is_none() || head != new.as_deref().map(str::as_bytes) {
                let what = head.map_or("`head` is gone".into(), String::from_utf8_lossy);
                return Err(Stop::Changed(what.into_owned()));
            }
            count(&self.gateway.counts.recognised);
        }
        self.lead.confirm(sent);
        self.named = next.or(self.named);
        Ok(())
    }

    /// A transaction that changes nothing: whether this process leads at a moment after it was asked for.
    pub fn guard(&mut self) -> Result<(), Stop> {
        let sent = Instant::now();
        let lead = Arc::clone(&self.lead);
        if let (Came::Differs(now), _) = self.gateway.transact(&[lead.guard()], &[]) {
            self.lead.check(now.first().and_then(Option::as_deref))?;
        }
        self.lead.confirm(sent);
        Ok(())
    }

    /// Puts these bytes from the record of this number on, all but the last piece, which is given back with its number.
    fn put_pieces<'a>(&mut self, epoch: u64, first: u64, bytes: &'a [u8]) -> Result<(u64, &'a [u8]), Stop> {
        let pieces: Vec<&[u8]> = bytes.chunks(self.piece).collect();
        let Some((last, others)) = pieces.split_last() else { return Ok((first, bytes)) };
        for (number, piece) in (first..).zip(others) {
            self.commit(&[Act::Put(&record_key(epoch, number), piece)], None)?;
        }
        Ok((first + others.len() as u64, last))
    }

    /// Adds bytes at its end, which are safe then.
    pub fn append(&mut self, bytes: &[u8], clock: u64) -> Result<(), Stop> {
        let Some(old) = self.head() else { return Err(Stop::Changed("there is no journal".to_string())) };
        let (number, last) = self.put_pieces(old.epoch, old.count, bytes)?;
        let (length, clock) = (old.bytes + bytes.len() as u64, clock.max(old.clock));
        let next = Head { count: number + 1, bytes: length, clock, ..old };
        self.commit(&[Act::Put(&record_key(old.epoch, number), last)], Some(Named::Journal(next)))
    }

    /// A journal of this epoch takes the place of what was there: its pieces first, and then `head` says so, with what
    /// hosts have told, where that is given.
    fn begin(&mut self, next: Head, bytes: &[u8], told: Option<&[u8]>, failing: &Failing) -> Result<(), Stop> {
        failing.after(0);
        let (number, last) = self.put_pieces(next.epoch, 0, bytes)?;
        failing.after(1);
        self.commit(&[Act::Put(&record_key(next.epoch, number), last)], None)?;
        failing.after(2);
        let next = Head { count: number + 1, bytes: bytes.len() as u64, ..next };
        failing.after(3);
        let acts: Vec<Act> = told.iter().map(|told| Act::Put(TOLD, told)).collect();
        self.commit(&acts, Some(Named::Journal(next)))?;
        failing.after(4);
        self.commit(&[Act::Delete("log/".to_string(), record_key(next.epoch, 0))], None)?;
        failing.after(5);
        Ok(())
    }

    /// The first journal of a cluster, or one that comes from a coordinator's folder, under this epoch.
    pub fn create(&mut self, bytes: &[u8], told: &[u8], epoch: u64, clock: u64) -> Result<(), Stop> {
        let next = Head { epoch, clock, ..Head::default() };
        self.begin(next, bytes, Some(told), &Failing::default())
    }

    /// A save takes the journal's place, under the next epoch. Older epochs are deleted then.
    pub fn save(&mut self, bytes: &[u8], clock: u64, failing: &Failing) -> Result<(), Stop> {
        let Some(old) = self.head() else { return Err(Stop::Changed("there is no journal".to_string())) };
        let next = Head { epoch: old.epoch + 1, clock: clock.max(old.clock), ..Head::default() };
        self.begin(next, bytes, None, failing)
    }

    /// From now on the journal is not here any more.
    pub fn leave(&mut self, head: Head) -> Result<(), Stop> {
        self.commit(&[], Some(Named::Moved(head)))
    }
}

#[cfg(test)]
mod tests {
    use super::*;
    use crate::store::lead::{LEADER, Leader};
    use crate::store::stub::{Stub, empty_folder};
    use std::path::Path;

    /// The ledger of who takes the lead now, whatever was before.
    fn lead(stub: &Stub, folder: &Path, term: u64) -> Ledger {
        let leader = Leader { term, place: 4, address: "127.0.0.1:9".to_string() };
        stub.put(LEADER, leader.text().as_bytes());
        let lead = Arc::new(Lead::new(leader, folder, Instant::now()));
        let named = stub.value(HEAD).and_then(|value| Named::read(&value));
        Ledger { piece: 10, ..Ledger::new(stub.gateway(), lead, named) }
    }

    fn all(ledger: &mut Ledger) -> Vec<u8> {
        let head = ledger.head().expect("there is a journal");
        ledger.read(head).expect("it leads").expect("all is there")
    }

    #[test]
    fn a_journal_comes_back_as_it_was_left() -> std::io::Result<()> {
        let (stub, folder) = (Stub::start()?, empty_folder("ledger"));
        let mut first = lead(&stub, &folder, 1);
        first.create(b"the first save, of three pieces", b"told", 1, 5).expect("it leads");
        assert_eq!(stub.value(TOLD).as_deref(), Some(&b"told"[..]));
        first.append(b"short", 6).and_then(|()| first.append(&[7; 33], 4)).expect("it leads");
        let whole = [&b"the first save, of three piecesshort"[..], &[7; 33]].concat();
        assert_eq!(all(&mut first), whole);
        let mut second = lead(&stub, &folder, 2);
        assert_eq!(all(&mut second), whole);
        assert_eq!(second.head(), Some(Head { epoch: 1, count: 4 + 1 + 4, bytes: whole.len() as u64, clock: 6 }));
        second.save(b"another save", 9, &Failing::default()).and_then(|()| second.append(b"!", 9)).expect("it leads");
        assert_eq!(all(&mut lead(&stub, &folder, 3)), b"another save!");
        assert_eq!(stub.count("log/"), 3, "older epochs are deleted");
        std::fs::remove_dir_all(folder)
    }

    /// What a leader that has ended in the middle has put is named by nobody.
    #[test]
    fn pieces_without_their_last_one_are_no_part_of_it() -> std::io::Result<()> {
        let (stub, folder) = (Stub::start()?, empty_folder("pieces"));
        let mut first = lead(&stub, &folder, 1);
        first.create(b"save", b"told", 1, 5).expect("it leads");
        first.put_pieces(1, 1, &[9; 25]).and_then(|_| first.put_pieces(2, 0, &[9; 25])).expect("it leads");
        let mut second = lead(&stub, &folder, 2);
        assert_eq!(all(&mut second), b"save");
        second.append(b"more", 5).expect("it leads");
        assert_eq!(all(&mut second), b"savemore");
        second.save(b"shorter", 5, &Failing::default()).and_then(|()| second.append(b"!", 5)).expect("it leads");
        assert_eq!(all(&mut lead(&stub, &folder, 3)), b"shorter!");
        std::fs::remove_dir_all(folder)
    }

    /// This is what no leader that was replaced may do: whatever it does is refused, though `head` has not changed.
    #[test]
    fn who_was_replaced_adds_nothing() -> std::io::Result<()> {
        let (stub, folder) = (Stub::start()?, empty_folder("fenced"));
        let mut first = lead(&stub, &folder, 1);
        first.create(b"save", b"told", 1, 5).expect("it leads");
        let second = lead(&stub, &folder, 2);
        let before = stub.all();
        let fenced = Err(Stop::Fenced("2 4 127.0.0.1:9".to_string()));
        assert_eq!(first.guard(), fenced);
        assert_eq!(first.append(b"more", 5), fenced);
        assert_eq!(first.append(&[1; 25], 5), fenced);
        assert_eq!(first.save(b"another", 5, &Failing::default()), fenced);
        assert_eq!(first.save(&[1; 25], 5, &Failing::default()), fenced);
        assert_eq!(first.leave(Head::default()), fenced);
        assert_eq!(stub.all(), before);
        assert_eq!(second.head().map(|head| head.count), Some(1));
        std::fs::remove_dir_all(folder)
    }

    #[test]
    fn a_lost_answer_is_recognised() -> std::io::Result<()> {
        let (stub, folder) = (Stub::start()?, empty_folder("lost"));
        let mut ledger = lead(&stub, &folder, 1);
        ledger.create(b"save", b"told", 1, 5).expect("it leads");
        for (number, is_done) in (1..).zip([true, false, true]) {
            stub.lose_answer(is_done);
            ledger.append(b"more", 5).expect("it leads");
            assert_eq!(ledger.head().map(|head| (head.count, head.bytes)), Some((1 + number, 4 + 4 * number)));
        }
        stub.lose_answer(true);
        ledger.save(b"all", 5, &Failing::default()).expect("it leads");
        stub.lose_answer(true);
        ledger.guard().expect("it leads");
        let recognised = ledger.gateway.counts.recognised.load(std::sync::atomic::Ordering::Relaxed);
        assert_eq!((all(&mut ledger), recognised), (b"all".to_vec(), 2));
        std::fs::remove_dir_all(folder)
    }

    #[test]
    fn what_another_has_changed_or_taken_away_is_found() -> std::io::Result<()> {
        let (stub, folder) = (Stub::start()?, empty_folder("changed"));
        let mut ledger = lead(&stub, &folder, 1);
        ledger.create(&[3; 25], b"told", 1, 5).expect("it leads");
        let head = ledger.head().expect("there is a journal");
        stub.remove(&record_key(1, 1));
        let gone = ledger.read(head).expect("it leads");
        assert!(gone.is_err_and(|why| why.starts_with("record 0 of the journal in etcd is gone")));
        stub.put(HEAD, b"7 1 1 1");
        assert_eq!(ledger.append(b"more", 5), Err(Stop::Changed("7 1 1 1".to_string())));
        stub.remove(HEAD);
        assert_eq!(ledger.append(b"more", 5), Err(Stop::Changed("`head` is gone".to_string())));
        std::fs::remove_dir_all(folder)
    }

    /// It is told and counted, and goes on when there is room again.
    #[test]
    fn a_store_without_space_is_waited_for() -> std::io::Result<()> {
        let (stub, folder) = (Stub::start()?, empty_folder("space"));
        let mut ledger = lead(&stub, &folder, 1);
        ledger.create(b"save", b"told", 1, 5).expect("it leads");
        stub.lack_space(2);
        let began = Instant::now();
        ledger.append(b"more", 5).expect("it leads");
        assert!(2 <= began.elapsed().as_secs(), "it is not asked again at once");
        let no_space = ledger.gateway.counts.no_space.load(std::sync::atomic::Ordering::Relaxed);
        assert_eq!((all(&mut ledger), no_space), (b"savemore".to_vec(), 2));
        std::fs::remove_dir_all(folder)
    }
}
