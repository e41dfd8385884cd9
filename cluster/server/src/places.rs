//! Who is connected, and how many may be. Who has not proved itself yet makes room for who comes, and so does a client
//! that asks nothing; places for peers are kept.

use crate::budget::Account;
use std::collections::BTreeMap;
use std::fs;
use std::net::{Shutdown, TcpStream};
use std::sync::atomic::{AtomicUsize, Ordering};
use std::sync::{Arc, Mutex, MutexGuard, PoisonError};
use std::time::{Duration, Instant};

/// So many connections there may be in all.
pub const MOST: usize = 1000;

/// So many of them may be of who has not proved itself.
pub const MOST_UNPROVED: usize = 200;

/// While places are full a client that has asked nothing for so long makes room.
const IDLE: Duration = Duration::from_secs(1);

/// A process wants so many files for all but connections.
const OTHER_FILES: usize = 100;

/// How many connections of each kind there may be.
#[derive(Clone, Copy, Debug, PartialEq, Eq)]
pub struct Limits {
    /// Of who has not proved itself.
    pub unproved: usize,
    /// Of peers: some for each, since one that was cut off may stand until it is given up.
    pub peers: usize,
    /// Of clients.
    pub clients: usize,
}

impl Limits {
    /// Those of a process that may open so many files, and has so many peers.
    pub fn of(files: usize, peers: usize) -> Limits {
        let most = MOST.min(files.saturating_sub(OTHER_FILES)).max(10);
        let unproved = MOST_UNPROVED.min(most / 4);
        let peers = (4 * peers).min(most / 4);
        Limits { unproved, peers, clients: most - unproved - peers }
    }

    /// Those of this process.
    pub fn of_process(peers: usize) -> Limits {
        let text = fs::read_to_string("/proc/self/limits").unwrap_or_default();
        let line = text.lines().find_map(|line| line.strip_prefix("Max open files"));
        let files = line.and_then(|line| line.split_whitespace().next()).and_then(|word| word.parse().ok());
        Limits::of(files.unwrap_or(usize::MAX), peers)
    }

    fn all(self) -> usize {
        self.unproved + self.peers + self.clients
    }
}

/// How many are connected, and how many were not let in or were let go.
#[derive(Clone, Copy, Debug, Default, PartialEq, Eq)]
pub struct Count {
    /// Who has not proved itself.
    pub unproved: usize,
    /// Peers.
    pub peers: usize,
    /// Clients.
    pub clients: usize,
    /// Connections that were refused or ended for want of places, so far.
    pub crowded_out: u64,
}

#[derive(Debug, Default)]
struct Held {
    unproved: BTreeMap<u64, Arc<TcpStream>>,
    peers: BTreeMap<u64, Arc<TcpStream>>,
    clients: BTreeMap<u64, (Arc<TcpStream>, Arc<Account>)>,
    crowded_out: u64,
}

/// Who is connected.
#[derive(Debug)]
pub struct Places {
    limits: Limits,
    held: Mutex<Held>,
    /// How many connections have a thread, with those that end just now.
    served: AtomicUsize,
}

/// The place of a connection, which is free again when this is dropped.
pub struct Place {
    places: Arc<Places>,
    number: u64,
    stream: Arc<TcpStream>,
}

impl Places {
    /// Nobody is connected yet.
    pub fn new(limits: Limits) -> Places {
        Places { limits, held: Mutex::default(), served: AtomicUsize::new(0) }
    }

    fn lock(&self) -> MutexGuard<'_, Held> {
        self.held.lock().unwrap_or_else(PoisonError::into_inner)
    }

    /// How many are connected.
    pub fn count(&self) -> Count {
        let held = self.lock();
        let (unproved, peers, clients) = (held.unproved.len(), held.peers.len(), held.clients.len());
        Count { unproved, peers, clients, crowded_out: held.crowded_out }
    }

    /// The place of who has just connected, under a number that rises; none where threads of ended ones still stand in
    /// the way. Where too many have not proved themselves the oldest of them goes.
    pub fn enter(self: &Arc<Places>, number: u64, stream: &Arc<TcpStream>) -> Option<Place> {
        let served = self.served.fetch_add(1, Ordering::Relaxed);
        let place = Place { places: Arc::clone(self), number, stream: Arc::clone(stream) };
        let mut held = self.lock();
        if self.limits.all() + self.limits.unproved <= served {
            held.crowded_out += 1;
            drop(held);
            return None;
        }
        if self.limits.unproved <= held.unproved.len() {
            let oldest = held.unproved.pop_first();
            held.let_go(oldest.map(|(_, stream)| stream));
        }
        held.unproved.insert(number, Arc::clone(stream));
        drop(held);
        Some(place)
    }
}

impl Held {
    fn let_go(&mut self, stream: Option<Arc<TcpStream>>) {
        if let Some(stream) = stream {
            // its thread reads the end, and ends
            let _ = stream.shutdown(Shutdown::Both);
            self.crowded_out += 1;
        }
    }

    /// The client that has asked nothing for longest, if that is long.
    fn idle_client(&self) -> Option<u64> {
        let idle = self.clients.iter().filter_map(|(number, (_, account))| Some((account.idle_since()?, *number)));
        let (since, number) = idle.min()?;
        (IDLE <= Instant::now() - since).then_some(number)
    }
}

impl Place {
    /// Who is here has proved that it is a peer. Where there are too many of them the oldest goes: it is one of those
    /// that have come again since.
    pub fn prove_peer(&self) {
        let mut held = self.places.lock();
        if held.unproved.remove(&self.number).is_some() {
            if self.places.limits.peers <= held.peers.len() {
                let oldest = held.peers.pop_first();
                held.let_go(oldest.map(|(_, stream)| stream));
            }
            held.peers.insert(self.number, Arc::clone(&self.stream));
        }
    }

    /// Who is here has asked something as a client. Says whether there is a place for it: that of a client that asks
    /// nothing, where all have one.
    pub fn prove_client(&self, account: &Arc<Account>) -> bool {
        let mut held = self.places.lock();
        if held.unproved.remove(&self.number).is_none() {
            return false;
        }
        if self.places.limits.clients <= held.clients.len() {
            let Some(idle) = held.idle_client() else {
                held.crowded_out += 1;
                return false;
            };
            let idle = held.clients.remove(&idle);
            held.let_go(idle.map(|(stream, _)| stream));
        }
        held.clients.insert(self.number, (Arc::clone(&self.stream), Arc::clone(account)));
        true
    }
}

impl Drop for Place {
    fn drop(&mut self) {
        let mut held = self.places.lock();
        held.unproved.remove(&self.number);
        held.peers.remove(&self.number);
        held.clients.remove(&self.number);
        drop(held);
        self.places.served.fetch_sub(1, Ordering::Relaxed);
    }
}

#[cfg(test)]
mod tests {
    use super::*;
    use crate::budget::Budget;
    use std::io::{self, Read};
    use std::net::TcpListener;

    /// Connections to this process, both ends of each.
    fn connections(count: usize) -> io::Result<Vec<(TcpStream, Arc<TcpStream>)>> {
        let listener = TcpListener::bind("127.0.0.1:0")?;
        let address = listener.local_addr()?;
        (0..count).map(|_| Ok((TcpStream::connect(address)?, Arc::new(listener.accept()?.0)))).collect()
    }

    fn has_ended(stream: &mut TcpStream) -> bool {
        stream.set_read_timeout(Some(Duration::from_millis(20))).is_ok_and(|()| matches!(stream.read(&mut [0]), Ok(0)))
    }

    #[test]
    fn limits_are_below_the_files_that_a_process_may_open() {
        assert_eq!(Limits::of(usize::MAX, 5), Limits { unproved: 200, peers: 20, clients: 780 });
        assert_eq!(Limits::of(1024, 5).all(), 924);
        assert_eq!(Limits::of(64, 5), Limits { unproved: 2, peers: 2, clients: 6 });
        assert_eq!(Limits::of(1 << 20, 65).all(), MOST);
    }

    #[test]
    fn the_oldest_of_who_has_not_proved_itself_goes() -> io::Result<()> {
        let places = Arc::new(Places::new(Limits { unproved: 2, peers: 1, clients: 1 }));
        let mut ends = connections(4)?;
        let mut held = Vec::new();
        for (number, (_, stream)) in ends.iter().enumerate().take(3) {
            held.extend(places.enter(number as u64, stream));
        }
        assert_eq!(places.count(), Count { unproved: 2, crowded_out: 1, ..Count::default() });
        assert!(has_ended(&mut ends[0].0) && !has_ended(&mut ends[1].0));
        held[1].prove_peer();
        held[2].prove_peer();
        assert!(has_ended(&mut ends[1].0) && !has_ended(&mut ends[2].0));
        // who was let go can't prove itself any more
        held[0].prove_peer();
        assert_eq!(places.count(), Count { peers: 1, crowded_out: 2, ..Count::default() });
        held.clear();
        assert_eq!(places.count(), Count { crowded_out: 2, ..Count::default() });
        Ok(())
    }

    #[test]
    fn a_client_that_asks_nothing_makes_room() -> io::Result<()> {
        let places = Arc::new(Places::new(Limits { unproved: 2, peers: 1, clients: 2 }));
        let budget = Arc::new(Budget::default());
        let mut ends = connections(4)?;
        let accounts: Vec<_> = (0..4).map(|_| Arc::new(Account::new(&budget))).collect();
        let enter = |number: usize| places.enter(number as u64, &ends[number].1).expect("there is a place");
        let [first, second] = [0, 1].map(enter);
        assert!(first.prove_client(&accounts[0]) && second.prove_client(&accounts[1]));
        let third = enter(2);
        assert!(!third.prove_client(&accounts[2]), "nobody is idle yet");
        std::thread::sleep(IDLE);
        assert_eq!(accounts[0].take(1), Some(1));
        let fourth = enter(3);
        assert!(fourth.prove_client(&accounts[3]));
        assert!(has_ended(&mut ends[1].0) && !has_ended(&mut ends[0].0));
        assert_eq!(places.count(), Count { clients: 2, crowded_out: 2, ..Count::default() });
        Ok(())
    }
}
