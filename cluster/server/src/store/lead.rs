//! Which of several coordinators leads. The store's key `leader` has the term, the place and the address of the one that
//! does; it is only changed by a transaction that compares it, and never taken away. Whoever leads puts it again and
//! again, and who stands by looks at it. It takes over where `leader` has not been put for a while: time counts only
//! while reads are answered, since nobody can put anything while etcd stands still. No clock has to be right for that
//! to be safe: whoever led before is fenced, since all that it does compares `leader`.

use super::gateway::{Act, Came, Compare, Gateway, Got, Trouble, Value};
use super::head::{Head, Seen};
use super::told::Told;
use crate::addresses;
use crate::disk;
use crate::log::{failed, tell};
use std::fs;
use std::io::{ErrorKind, Read, Write};
use std::net::TcpStream;
use std::path::{Path, PathBuf};
use std::sync::atomic::{AtomicU64, Ordering};
use std::sync::{Arc, Mutex};
use std::thread;
use std::time::{Duration, Instant};

/// The keys that are never taken away.
pub const LEADER: &str = "leader";
pub const HEAD: &str = "head";
/// What hosts have told of their folders.
pub const TOLD: &str = "told";

/// So often whoever leads says so.
const TOUCH: Duration = Duration::from_millis(250);

/// So often whoever does not looks who does.
const LOOK: Duration = Duration::from_millis(100);

/// A leader whose node has not gone on for so long does not say that it leads.
const STUCK: Duration = Duration::from_secs(2);

/// So often the store's history is compacted, up to where it was then.
const COMPACT: Duration = Duration::from_secs(60);

/// What is wrong with the store is told again after so long.
const AGAIN: Duration = Duration::from_secs(60);

/// The file of a folder that counts how often its coordinator was fenced.
const FENCED: &str = "fenced";

/// Who leads: its term, its place, and where it listens.
#[derive(Clone, Debug, PartialEq, Eq)]
pub struct Leader {
    /// It rises with each that takes the lead.
    pub term: u64,
    /// Its place among all.
    pub place: usize,
    /// Where it listens.
    pub address: String,
}

impl Leader {
    /// As `leader` has it.
    pub fn text(&self) -> String {
        format!("{} {} {}", self.term, self.place, self.address)
    }

    fn read(value: &[u8]) -> Option<Leader> {
        let text = std::str::from_utf8(value).ok()?;
        let [term, place, address] = text.split(' ').collect::<Vec<_>>()[..] else { return None };
        Some(Leader { term: term.parse().ok()?, place: place.parse().ok()?, address: address.to_string() })
    }
}

/// What the threads of a leading coordinator know of that.
#[derive(Debug)]
pub struct Lead {
    /// Who this process is while it leads, and as `leader` has it.
    pub leader: Leader,
    mine: Vec<u8>,
    folder: PathBuf,
    began: Instant,
    /// Milliseconds since then: when the node's thread turned last; 0 before it does.
    turned: AtomicU64,
    /// When a request was sent that has found this process leading.
    confirmed: Mutex<Instant>,
}

impl Lead {
    /// A process that has taken the lead by a request that was sent then.
    pub fn new(leader: Leader, folder: &Path, sent: Instant) -> Lead {
        let mine = leader.text().into_bytes();
        let (turned, confirmed) = (AtomicU64::new(0), Mutex::new(sent));
        Lead { leader, mine, folder: folder.into(), began: Instant::now(), turned, confirmed }
    }

    /// That this process leads, as each transaction of its term compares it.
    pub fn guard(&self) -> Compare<'_> {
        Compare { key: LEADER, is: Some(&self.mine) }
    }

    /// The node's thread goes on.
    pub fn turn(&self) {
        self.turned.store(self.began.elapsed().as_millis() as u64 + 1, Ordering::Relaxed);
    }

    fn is_stuck(&self) -> bool {
        let turned = self.turned.load(Ordering::Relaxed);
        turned != 0 && turned + (STUCK.as_millis() as u64) < self.began.elapsed().as_millis() as u64
    }

    /// A request that was sent then has found this process leading.
    pub fn confirm(&self, sent: Instant) {
        if let Ok(mut confirmed) = self.confirmed.lock() {
            *confirmed = sent.max(*confirmed);
        }
    }

    /// How long ago that was last.
    pub fn unconfirmed(&self) -> Duration {
        self.confirmed.lock().map_or(Duration::MAX, |confirmed| confirmed.elapsed())
    }

    /// Whether this process leads, by what `leader` has now.
    pub fn check(&self, now: Option<&[u8]>) -> Result<(), Stop> {
        if now == Some(&self.mine) {
            return Ok(());
        }
        let who = now.map(|now| String::from_utf8_lossy(now).into_owned());
        Err(Stop::Fenced(who.unwrap_or("nobody does: `leader` is gone from etcd".to_string())))
    }

    /// Ends this process, which does not lead, or has found what nobody else may have written.
    pub fn end(&self, stop: &Stop) -> ! {
        match stop {
            Stop::Fenced(who) => {
                let fenced = count_fenced(&self.folder) + 1;
                let _ = disk::write_whole(&self.folder.join(FENCED), fenced.to_string().as_bytes());
                failed("another coordinator leads", who)
            }
            Stop::Changed(what) => failed("the journal in etcd was changed by another", what),
        }
    }
}

/// Why whoever led can't go on.
#[derive(Clone, Debug, PartialEq, Eq)]
pub enum Stop {
    /// Another one leads: `leader` has this.
    Fenced(String),
    /// It leads, and `head` has this, which it has not put.
    Changed(String),
}

/// How often the coordinator with this folder was fenced.
pub fn count_fenced(folder: &Path) -> u64 {
    fs::read_to_string(folder.join(FENCED)).ok().and_then(|text| text.trim().parse().ok()).unwrap_or(0)
}

/// Whether the process has ended that leads: nothing listens at its port, where something did. It never listens there
/// again, though its next life may.
#[derive(Default)]
struct Watch {
    leader: Vec<u8>,
    stream: Option<TcpStream>,
    was_open: bool,
    has_ended: bool,
}

impl Watch {
    /// Whether the process that leads by this value has ended, as far as its port tells.
    fn has_ended(&mut self, leader: &[u8]) -> bool {
        if self.leader != leader {
            *self = Watch { leader: leader.into(), ..Watch::default() };
        }
        let Some(Leader { address, .. }) = Leader::read(leader) else { return false };
        if self.has_ended || self.stream.as_mut().is_some_and(is_open) {
            return self.has_ended;
        }
        self.stream = None;
        match addresses::connect(&address, LOOK) {
            Ok(mut stream) => {
                let made = stream.write_all(b"C").and_then(|()| stream.set_nonblocking(true));
                self.was_open |= made.is_ok();
                self.stream = made.is_ok().then_some(stream);
            }
            Err(error) => self.has_ended = self.was_open && error.kind() == ErrorKind::ConnectionRefused,
        }
        self.has_ended
    }
}

fn is_open(stream: &mut TcpStream) -> bool {
    match stream.read(&mut [0; 64]) {
        Ok(count) => 0 < count,
        Err(error) => matches!(error.kind(), ErrorKind::WouldBlock | ErrorKind::TimedOut),
    }
}

/// Who waits for the lead.
pub struct Claimant {
    /// Its place among all.
    pub place: usize,
    /// Where it listens, as others reach it.
    pub address: String,
    /// Its folder.
    pub folder: PathBuf,
    /// So long `leader` has to stay as it is.
    pub silence: Duration,
}

/// What it sees meanwhile.
#[derive(Clone, Debug, PartialEq, Eq)]
pub enum Seeing {
    /// Nothing yet.
    Nothing,
    /// This one leads, or did so last.
    Leads(Leader),
    /// Nobody does.
    Nobody,
    /// Etcd does not answer, for this reason.
    NoAnswer(String),
    /// Etcd does not have what it should have, in words: the lead is not taken.
    Refuses(String),
}

/// What was found in the transaction by which the lead was taken.
pub struct Taken {
    /// The lead.
    pub lead: Arc<Lead>,
    /// The journal, if there is one.
    pub head: Option<Head>,
    /// What hosts had told, if there was a coordinator before.
    pub told: Option<Vec<u8>>,
}

/// How long `leader` has been as it is.
struct Standing {
    seen: Option<Option<Value>>,
    silent: Duration,
    last: Instant,
    watch: Watch,
}

impl Claimant {
    /// Waits until this process leads. What it sees meanwhile is shown.
    pub fn await_lead(&self, gateway: &mut Gateway, seen: &Seen, mut show: impl FnMut(Seeing)) -> Taken {
        let mut standing =
            Standing { seen: None, silent: Duration::ZERO, last: Instant::now(), watch: Watch::default() };
        let mut told: Option<Instant> = None;
        loop {
            let [leader, head] = match gateway.look([LEADER, HEAD]) {
                Ok(found) => found,
                Err(trouble) => {
                    standing.last = Instant::now();
                    show(Seeing::NoAnswer(trouble.to_string()));
                    thread::sleep(LOOK / 5);
                    continue;
                }
            };
            let head = head.map(|(value, _)| value);
            match seen.judge(head.as_deref()) {
                Ok(head) => head.into_iter().for_each(|head| seen.note(head)),
                Err(why) => {
                    if told.is_none_or(|told| AGAIN <= told.elapsed()) {
                        told = Some(Instant::now());
                        tell(format_args!("does not take the lead: {why}"));
                    }
                    standing.silent = Duration::ZERO;
                    show(Seeing::Refuses(why));
                    thread::sleep(LOOK);
                    continue;
                }
            }
            let by = leader.as_ref().and_then(|(value, _)| Leader::read(value));
            if leader.is_some() && by.is_none() {
                // without its term nobody could have the next one
                show(Seeing::Refuses("etcd's key `leader` is damaged".to_string()));
                thread::sleep(LOOK);
                continue;
            }
            show(by.clone().map_or(Seeing::Nobody, Seeing::Leads));
            let left = self.left(&leader, by.as_ref(), &mut standing);
            if left.is_zero()
                && let Some(taken) = self.try_take(gateway, leader.as_ref(), by, head.as_deref(), seen, &mut standing)
            {
                return taken;
            }
            thread::sleep(if left.is_zero() { LOOK } else { left.min(LOOK) });
        }
    }

    /// How long it is until the lead may be taken from who has it.
    fn left(&self, leader: &Option<Value>, by: Option<&Leader>, standing: &mut Standing) -> Duration {
        standing.silent += standing.last.elapsed().min(2 * LOOK);
        standing.last = Instant::now();
        if standing.seen.as_ref() != Some(leader) {
            standing.seen = Some(leader.clone());
            standing.silent = Duration::ZERO;
        }
        let Some((value, _)) = leader else { return Duration::ZERO };
        // one that had this address was this process, in an earlier life
        let has_ended = by.is_some_and(|by| by.address == self.address) || standing.watch.has_ended(value);
        let most = if has_ended { self.silence / 4 } else { self.silence };
        most.saturating_sub(standing.silent)
    }

    /// Takes the lead, if `leader` and `head` are as they were seen. What becomes of an answer that is lost is seen by
    /// the next look.
    fn try_take(
        &self,
        gateway: &mut Gateway,
        leader: Option<&Value>,
        by: Option<Leader>,
        head: Option<&[u8]>,
        seen: &Seen,
        standing: &mut Standing,
    ) -> Option<Taken> {
        let Some((lead, mut got)) = self.claim(gateway, leader, head) else {
            standing.silent = Duration::ZERO;
            return None;
        };
        let (silent, term) = (standing.silent.as_millis(), lead.leader.term);
        let from = by.map_or("nobody".to_string(), |by| by.text());
        tell(format_args!("leads, term {term}, after {from}, which was silent for {silent} ms"));
        let head = seen.judge(got.get(1).and_then(Option::as_deref)).ok()?;
        Some(Taken { lead, head, told: got.get_mut(2).and_then(Option::take) })
    }

    /// Takes the lead, if `leader` and `head` are as they were seen, and reads `head` and `told` in that transaction.
    pub fn claim(
        &self,
        gateway: &mut Gateway,
        leader: Option<&Value>,
        head: Option<&[u8]>,
    ) -> Option<(Arc<Lead>, Got)> {
        let term = match leader {
            Some((value, _)) => Leader::read(value)?.term + 1,
            None => 1,
        };
        let next = Leader { term, place: self.place, address: self.address.clone() };
        let is = leader.map(|(value, _)| &value[..]);
        let compares = [Compare { key: LEADER, is }, Compare { key: HEAD, is: head }];
        let (sent, mine) = (Instant::now(), next.text());
        let acts = [Act::Put(LEADER, mine.as_bytes()), Act::Get(HEAD), Act::Get(TOLD)];
        let Ok(Came::Done(got)) = gateway.try_transact(&compares, &acts) else { return None };
        Some((Arc::new(Lead::new(next, &self.folder, sent)), got))
    }
}

/// From now on a thread says again and again that this process leads, puts what hosts have told, and compacts the
/// store's history. It ends the process where another one leads.
pub fn keep_leading(lead: &Arc<Lead>, told: &Arc<Told>, mut gateway: Gateway) {
    let (lead, told) = (Arc::clone(lead), Arc::clone(told));
    let mut history = (Instant::now(), 0);
    thread::spawn(move || {
        loop {
            if !lead.is_stuck() {
                match touch(&lead, &told, &mut gateway) {
                    Ok(()) => compact(&mut gateway, &mut history),
                    Err(Untouched::Trouble(Trouble::NoAnswer(_))) => {
                        thread::sleep(TOUCH / 25);
                        continue;
                    }
                    Err(Untouched::Trouble(Trouble::NoSpace)) => {}
                    Err(Untouched::Stop(stop)) => lead.end(&stop),
                }
            }
            thread::sleep(TOUCH);
        }
    });
}

/// Why it was not said that this process leads.
#[derive(Debug)]
enum Untouched {
    Trouble(Trouble),
    Stop(Stop),
}

/// Says once that this process leads.
fn touch(lead: &Lead, told: &Told, gateway: &mut Gateway) -> Result<(), Untouched> {
    let (sent, due) = (Instant::now(), told.due());
    let mut acts = vec![Act::Put(LEADER, &lead.mine)];
    acts.extend(due.iter().map(|(_, bytes)| Act::Put(TOLD, bytes)));
    match gateway.try_transact(&[lead.guard()], &acts).map_err(Untouched::Trouble)? {
        Came::Done(_) => {
            lead.confirm(sent);
            due.into_iter().for_each(|(version, _)| told.put(version));
            Ok(())
        }
        Came::Differs(now) => lead.check(now.first().and_then(Option::as_deref)).map_err(Untouched::Stop),
    }
}

/// Where it is time, has the store forget its history up to where it was last time.
fn compact(gateway: &mut Gateway, history: &mut (Instant, u64)) {
    if history.0.elapsed() < COMPACT {
        return;
    }
    if 0 < history.1 {
        gateway.compact(history.1);
    }
    *history = (Instant::now(), gateway.revision);
}

#[cfg(test)]
mod tests {
    use super::*;
    use crate::store::stub::Stub;

    fn claimant(folder: &Path, place: usize) -> Claimant {
        let address = format!("127.0.0.1:{place}");
        Claimant { place, address, folder: folder.into(), silence: Duration::from_millis(400) }
    }

    #[test]
    fn a_leader_that_says_so_is_left_alone_and_a_silent_one_is_fenced() -> std::io::Result<()> {
        let (stub, folder) = (Stub::start()?, crate::store::stub::empty_folder("lead"));
        let seen = Seen::of(&folder)?;
        let first = claimant(&folder, 4).await_lead(&mut stub.gateway(), &seen, |_| ());
        assert!(first.head.is_none() && first.told.is_none() && first.lead.leader.term == 1);
        let mut gateway = stub.gateway();
        let lead = Arc::clone(&first.lead);
        let ends = Instant::now() + Duration::from_millis(800);
        let touches = thread::spawn(move || {
            while Instant::now() < ends {
                touch(&lead, &Told::of(Vec::new()), &mut gateway).expect("the stub answers");
                thread::sleep(Duration::from_millis(50));
            }
        });
        let second = claimant(&folder, 5).await_lead(&mut stub.gateway(), &seen, |_| ());
        assert!(ends <= Instant::now(), "it was not silent");
        touches.join().expect("nobody fences it");
        assert_eq!((second.lead.leader.term, second.lead.leader.place), (2, 5));
        let came = stub.gateway().try_transact(&[first.lead.guard()], &[Act::Put("x", b"y")]);
        assert!(matches!(came, Ok(Came::Differs(_))) && stub.value("x").is_none());
        fs::remove_dir_all(folder)
    }

    /// Without its term nobody could have the next one.
    #[test]
    fn a_damaged_leader_is_left_alone() -> std::io::Result<()> {
        let (stub, folder) = (Stub::start()?, crate::store::stub::empty_folder("damaged"));
        stub.put(LEADER, b"nonsense");
        let look = stub.gateway().look([LEADER]).expect("the stub answers");
        assert!(claimant(&folder, 4).claim(&mut stub.gateway(), look[0].as_ref(), None).is_none());
        let (other, mut shown) = (stub.clone(), 0);
        let taken = claimant(&folder, 4).await_lead(&mut stub.gateway(), &Seen::of(&folder)?, |seeing| {
            let refuses = matches!(seeing, Seeing::Refuses(_));
            shown += u32::from(refuses);
            if refuses && shown == 5 {
                other.put(LEADER, b"7 5 127.0.0.1:1");
            }
        });
        assert!(shown >= 5 && taken.lead.leader.term == 8);
        fs::remove_dir_all(folder)
    }

    #[test]
    fn history_is_compacted_up_to_where_it_was() -> std::io::Result<()> {
        let stub = Stub::start()?;
        let mut gateway = stub.gateway();
        let long_ago = Instant::now().checked_sub(COMPACT).expect("the machine has run for so long");
        let mut history = (Instant::now(), 3);
        compact(&mut gateway, &mut history);
        assert_eq!(gateway.counts.compactions.load(Ordering::Relaxed), 0);
        history.0 = long_ago;
        stub.put("key", b"value");
        compact(&mut gateway, &mut history);
        assert_eq!((gateway.counts.compactions.load(Ordering::Relaxed), history.1), (1, 1));
        assert_eq!(stub.compacted(), Some(3));
        Ok(())
    }

    /// While nobody answers, nobody is silent.
    #[test]
    fn only_time_with_answers_counts() -> std::io::Result<()> {
        let (stub, folder) = (Stub::start()?, crate::store::stub::empty_folder("answers"));
        let seen = Seen::of(&folder)?;
        claimant(&folder, 4).await_lead(&mut stub.gateway(), &seen, |_| ());
        let began = Instant::now();
        stub.stand_still(true);
        let still = stub.clone();
        let ends = thread::spawn(move || {
            thread::sleep(Duration::from_millis(1500));
            still.stand_still(false);
        });
        let second = claimant(&folder, 5).await_lead(&mut stub.gateway(), &seen, |_| ());
        ends.join().expect("it has slept");
        assert!(Duration::from_millis(1700) < began.elapsed() && second.lead.leader.term == 2);
        fs::remove_dir_all(folder)
    }

    #[test]
    fn the_lead_of_an_emptied_store_is_not_taken() -> std::io::Result<()> {
        let (stub, folder) = (Stub::start()?, crate::store::stub::empty_folder("emptied"));
        let seen = Seen::of(&folder)?;
        let head = Head { epoch: 2, count: 3, bytes: 9, clock: 1 };
        seen.note(head);
        let (other, shown) = (stub.clone(), Arc::new(Mutex::new(Vec::new())));
        let put_back = Arc::clone(&shown);
        let taken = claimant(&folder, 4).await_lead(&mut stub.gateway(), &seen, |seeing| {
            let mut shown = put_back.lock().expect("it has not panicked");
            shown.push(seeing);
            if shown.len() == 3 {
                // what it had comes back
                other.put(HEAD, head.text().as_bytes());
            }
        });
        assert_eq!(taken.head, Some(head));
        let shown = shown.lock().expect("it has not panicked");
        assert!(shown[..3].iter().all(|seeing| matches!(seeing, Seeing::Refuses(why) if why.contains("was emptied"))));
        fs::remove_dir_all(folder)
    }
}
