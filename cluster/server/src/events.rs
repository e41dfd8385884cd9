//! What comes to the node's thread. What a roll waits for is taken first, also in the middle of what takes long; then
//! that something is safe now, here or at a backup; then all else that peers say, and then what clients ask: where
//! there is much to do clients wait, and not the protocol.

use crate::net::Writer;
use std::cell::Cell;
use std::sync::Arc;
use std::sync::atomic::{AtomicBool, Ordering};
use std::sync::mpsc::{self, Receiver, Sender};
use std::time::{Duration, Instant};

/// What comes to the node's thread.
pub enum Event {
    /// The frames of a batch that came on the peer's connection of this number.
    Peer(u64, Vec<u8>),
    /// The same, and one of them closes a segment, for which a roll waits.
    Closing(u64, Vec<u8>),
    /// Frames of that batch that are urgent.
    Urgent(u64, Vec<u8>),
    /// Frames of that batch for which a roll waits.
    Roll(u64, Vec<u8>),
    /// That connection has ended.
    PeerDown(u64),
    /// A sync of the journal has ended.
    Synced,
    /// One has ended for which a roll waits.
    RollSynced,
    /// Of what peers have said, something closes a segment.
    Hurry,
    /// Whole requests of a client, each behind its length.
    Client(u64, Vec<u8>),
    /// A client is there, to be answered here.
    ClientUp(u64, Writer),
    /// It has gone.
    ClientDown(u64),
}

/// For so long a node takes what has come, before it sees to all else.
pub const TURN: Duration = Duration::from_millis(20);

/// Requests that came at once are handed over in parts, so that what peers say comes between them, and what one part
/// sends leaves before the next is taken. A part has at least so many requests, where there are so many.
pub const LEAST_PART: usize = 32;

/// And at most so many.
const MOST_PART: usize = 64;

/// How many of so many requests are a part. A host that keeps others' entries too has work while its own are on their
/// way, and each part costs it a batch to each backup: there parts are as large as they may be.
pub fn part_of(count: usize, keeps_others: bool) -> usize {
    if keeps_others { MOST_PART } else { count.div_ceil(2).clamp(LEAST_PART, MOST_PART) }
}

/// Hands events over.
#[derive(Clone)]
pub struct EventSender {
    roll: Sender<Event>,
    urgent: Sender<Event>,
    /// None says that there is one in another queue.
    peers: Sender<Option<Event>>,
    clients: Sender<Event>,
    keeps_others: Arc<AtomicBool>,
}

/// Takes events.
pub struct EventReceiver {
    roll: Queue,
    urgent: Queue,
    peers: Receiver<Option<Event>>,
    clients: Receiver<Event>,
    keeps_others: Arc<AtomicBool>,
}

/// A queue of events of which one can see whether it has any.
struct Queue {
    from: Receiver<Event>,
    /// The next event, if it was looked at.
    at_hand: Cell<Option<Event>>,
}

impl Queue {
    fn new(from: Receiver<Event>) -> Queue {
        Queue { from, at_hand: Cell::new(None) }
    }

    fn next(&self) -> Option<Event> {
        self.at_hand.take().or_else(|| self.from.try_recv().ok())
    }

    /// Whether an event is there, which is the next one.
    fn has(&self) -> bool {
        let next = self.next();
        let has = next.is_some();
        self.at_hand.set(next);
        has
    }
}

/// The two ends of what comes to a node's thread.
pub fn channel() -> (EventSender, EventReceiver) {
    let (roll, from_roll) = mpsc::channel();
    let (urgent, from_urgent) = mpsc::channel();
    let (peers, from_peers) = mpsc::channel();
    let (clients, from_clients) = mpsc::channel();
    let keeps_others = Arc::new(AtomicBool::new(false));
    let sender = EventSender { roll, urgent, peers, clients, keeps_others: Arc::clone(&keeps_others) };
    let [roll, urgent] = [from_roll, from_urgent].map(Queue::new);
    (sender, EventReceiver { roll, urgent, peers: from_peers, clients: from_clients, keeps_others })
}

impl EventSender {
    /// Whether the node keeps others' entries just now, as it has said.
    pub fn keeps_others(&self) -> bool {
        self.keeps_others.load(Ordering::Relaxed)
    }

    /// Hands an event over. Says whether somebody is there to take it.
    pub fn send(&self, event: Event) -> bool {
        match event {
            Event::Peer(..) | Event::PeerDown(_) => return self.peers.send(Some(event)).is_ok(),
            Event::Closing(..) => {
                return self.peers.send(Some(event)).is_ok_and(|()| self.roll.send(Event::Hurry).is_ok());
            }
            Event::Roll(..) | Event::RollSynced | Event::Hurry => self.roll.send(event),
            Event::Synced | Event::Urgent(..) => self.urgent.send(event),
            Event::Client(..) | Event::ClientUp(..) | Event::ClientDown(_) => self.clients.send(event),
        }
        .is_ok_and(|()| self.peers.send(None).is_ok())
    }
}

impl EventReceiver {
    /// Says to those who hand over whether the node keeps others' entries just now.
    pub fn say_keeps_others(&self, keeps: bool) {
        self.keeps_others.store(keeps, Ordering::Relaxed);
    }

    /// The next event for which a roll waits.
    pub fn next_of_roll(&self) -> Option<Event> {
        self.roll.next()
    }

    /// The next event of peers but those.
    pub fn next_of_peers(&self) -> Option<Event> {
        self.peers.try_iter().flatten().next()
    }

    /// Whether something urgent is there, or something for which a roll waits: that is taken next.
    pub fn has_urgent(&self) -> bool {
        self.roll.has() || self.urgent.has()
    }

    /// The next event, if one is there: of clients only where nothing else is.
    fn next(&self) -> Option<Event> {
        let urgent = || self.roll.next().or_else(|| self.urgent.next());
        // what has become urgent meanwhile was told of in the peers' queue, and passed over there
        urgent().or_else(|| self.next_of_peers()).or_else(urgent).or_else(|| self.clients.try_recv().ok())
    }

    /// Waits so long for an event, and then takes what is there, for a turn, or as long as `take` says that it goes on;
    /// at its end one of clients, so that none of them waits for ever.
    pub fn take_turn(&self, wait: Duration, mut take: impl FnMut(Event) -> bool) {
        let waited = self.next().or_else(|| self.peers.recv_timeout(wait).ok().flatten());
        let began = Instant::now();
        let rest = std::iter::from_fn(|| if began.elapsed() < TURN { self.next() } else { None });
        waited.into_iter().chain(rest).all(&mut take);
        if let Ok(event) = self.clients.try_recv() {
            take(event);
        }
    }
}

#[cfg(test)]
mod tests {
    use super::*;

    fn number(event: Event) -> Option<u64> {
        match event {
            Event::Peer(number, _) | Event::Closing(number, _) | Event::PeerDown(number) => Some(number),
            Event::Urgent(number, _) => Some(10 + number),
            Event::Roll(number, _) => Some(20 + number),
            Event::Client(number, _) | Event::ClientDown(number) => Some(100 + number),
            Event::Synced | Event::RollSynced | Event::Hurry | Event::ClientUp(..) => None,
        }
    }

    fn taken(receiver: &EventReceiver) -> Vec<u64> {
        let mut taken = Vec::new();
        receiver.take_turn(Duration::from_millis(50), |event| {
            taken.extend(number(event));
            true
        });
        taken
    }

    #[test]
    fn parts_are_larger_where_others_entries_are_kept() {
        let (sender, receiver) = channel();
        let parts = || [1, 64, 100, 1000].map(|count| part_of(count, sender.keeps_others()));
        assert_eq!(parts(), [32, 32, 50, 64]);
        receiver.say_keeps_others(true);
        assert_eq!(parts(), [64; 4]);
        receiver.say_keeps_others(false);
        assert_eq!(parts(), [32, 32, 50, 64]);
    }

    #[test]
    fn peers_come_before_clients_each_in_order() {
        let (sender, receiver) = channel();
        let client = |number| Event::Client(number, Vec::new());
        let peer = |number| Event::Peer(number, Vec::new());
        for event in
            [client(1), peer(2), Event::ClientDown(3), Event::PeerDown(4), client(5), Event::Urgent(7, Vec::new())]
        {
            assert!(sender.send(event));
        }
        assert_eq!(taken(&receiver), [17, 2, 4, 101, 103, 105]);
        assert_eq!(taken(&receiver), []);
        assert!(sender.send(client(6)));
        assert_eq!(taken(&receiver), [106]);
    }

    #[test]
    fn what_a_roll_waits_for_can_be_taken_by_itself() {
        let (sender, receiver) = channel();
        let peer = |number| Event::Peer(number, Vec::new());
        for event in [peer(1), Event::Closing(2, Vec::new()), peer(3), Event::Roll(4, Vec::new())] {
            assert!(sender.send(event));
        }
        assert!(receiver.has_urgent());
        assert!(matches!(receiver.next_of_roll(), Some(Event::Hurry)));
        assert_eq!(receiver.next_of_roll().and_then(number), Some(24));
        assert!(receiver.next_of_roll().is_none() && !receiver.has_urgent());
        assert_eq!(receiver.next_of_peers().and_then(number), Some(1));
        assert!(sender.send(Event::Roll(5, Vec::new())));
        assert_eq!(taken(&receiver), [25, 2, 3]);
    }

    #[test]
    fn what_is_urgent_is_seen_and_then_taken_once() {
        let (sender, receiver) = channel();
        let urgent = |number| sender.send(Event::Urgent(number, Vec::new()));
        assert!(!receiver.has_urgent());
        assert!(sender.send(Event::PeerDown(0)) && urgent(1));
        let (mut taken, mut seen) = (Vec::new(), Vec::new());
        receiver.take_turn(Duration::ZERO, |event| {
            taken.extend(number(event));
            // one comes while the first is taken
            assert!(taken.len() != 1 || urgent(2));
            seen.push(receiver.has_urgent() && receiver.has_urgent());
            true
        });
        assert_eq!((taken, seen), (vec![11, 12, 0], vec![true, false, false]));
    }

    #[test]
    fn peers_do_not_keep_clients_waiting_for_ever() {
        let (sender, receiver) = channel();
        let client = || sender.send(Event::Client(1, Vec::new()));
        assert!(client() && client() && sender.send(Event::PeerDown(0)));
        let mut taken = Vec::new();
        receiver.take_turn(Duration::ZERO, |event| {
            let number = number(event);
            taken.extend(number);
            // a peer that has no end
            assert!(number != Some(0) || sender.send(Event::PeerDown(0)));
            true
        });
        assert_eq!(taken.iter().filter(|number| **number == 101).count(), 1);
        assert_eq!(taken.last(), Some(&101));
    }

    #[test]
    fn a_turn_ends_where_it_is_not_to_go_on() {
        let (sender, receiver) = channel();
        assert!((0..4).all(|number| sender.send(Event::PeerDown(number))));
        assert!(sender.send(Event::Client(1, Vec::new())));
        let mut taken = Vec::new();
        receiver.take_turn(Duration::ZERO, |event| {
            taken.extend(number(event));
            taken.len() < 2
        });
        assert_eq!(taken, [0, 1, 101]);
    }
}
