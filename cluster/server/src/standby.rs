//! A coordinator that stands by: it listens to hosts, tells clients that it does not lead, and waits until it does.

use crate::awake::Awake;
use crate::core::{BEAT, Config, Core, Opened, add_counts, add_fenced, coordinator_of, must_not_start, tell};
use crate::door::Door;
use crate::events::{self, Event, EventReceiver, EventSender, TURN};
use crate::faults::Failing;
use crate::guard::{Guard, Position, WORD, Word, new_shared};
use crate::journal::lock_folder;
use crate::listening::Listening;
use crate::members::COORDINATORS;
use crate::metrics::{Kind, Metrics};
use crate::moving::MOVING;
use crate::net::Writer;
use crate::protocol::{NO_HINT, NOT_LEADING, Reply, Request, WRONG};
use crate::seldom::Seldom;
use crate::store::Store;
use crate::store::gateway::{Counts, Gateway};
use crate::store::head::{Head, Named, Seen};
use crate::store::lead::{Claimant, Lead, Seeing, Taken, count_fenced, keep_leading};
use crate::store::ledger::Ledger;
use crate::store::remote::{Parts, Remote};
use crate::store::told::Told;
use crate::wire::{HEARTBEAT, frames};
use sevunthi::message::framed;
use sevunthi::{Id, Node, Ready};
use sevunthi_runtime::kept::Kept;
use std::collections::BTreeMap;
use std::fs::File;
use std::io::{self, ErrorKind};
use std::path::Path;
use std::sync::mpsc::{Receiver, Sender, channel};
use std::sync::{Arc, Mutex, PoisonError};
use std::thread;
use std::time::{Duration, Instant};

/// What was heard while this process stood by. All times are those in which it was awake.
#[derive(Default)]
pub struct Heard {
    pub listening: Listening,
    /// Of each host its last word, and when it came.
    pub words: BTreeMap<u8, (Vec<u8>, Duration)>,
    /// Of each host the server that was heard, whom it waits for, and when it said so.
    pub waits: BTreeMap<u8, (Id, Vec<Id>, Duration)>,
    /// Since when somebody was heard all the time.
    pub since: Option<Duration>,
}

/// What was read of the store by who leads.
struct Led {
    lead: Arc<Lead>,
    told: Arc<Told>,
    gateway: Gateway,
    ledger: Ledger,
    /// The journal with how far it has come, and what hosts have told.
    journal: Option<(Head, Vec<u8>, Vec<u8>)>,
}

struct Standby {
    config: Config,
    door: Arc<Door>,
    awake: Awake,
    heard: Heard,
    clients: BTreeMap<u64, Writer>,
    seeing: Arc<Mutex<Seeing>>,
    counts: Arc<Counts>,
    refusals: u64,
}

/// Stands by until this process leads. Then it has come back from the journal in etcd.
pub fn run(config: Config) -> io::Result<(Core, EventReceiver, Heard)> {
    let lock = open_folder(&config.folder)?;
    let seen = Seen::of(&config.folder);
    let seen = match seen {
        Err(error) if error.kind() == ErrorKind::InvalidData => must_not_start(error),
        seen => seen?,
    };
    let seldom = Seldom::default();
    seen.write_beside(move |error| seldom.tell("seen", format_args!("what was seen can't be written: {error}")));
    let (events, from) = events::channel();
    let door = config.open_door(events.clone())?;
    let gateway = Gateway::new(&config.store, &config.store_name);
    let mut standby = Standby {
        door,
        awake: Awake::default(),
        heard: Heard::default(),
        clients: BTreeMap::new(),
        seeing: Arc::new(Mutex::new(Seeing::Nothing)),
        counts: Arc::clone(&gateway.counts),
        refusals: 0,
        config,
    };
    let leads = standby.await_lead(gateway, seen.clone());
    let led = standby.stand_by(&from, &leads);
    // the folder is this process's until it ends
    std::mem::forget(lock);
    let Standby { config, door, awake, heard, clients, .. } = standby;
    let opened = open(&config, led, seen, events)?;
    let mut core = Core::new(config, opened, door)?;
    core.awake = awake;
    clients.into_iter().for_each(|(client, writer)| core.set_client(client, Some(writer)));
    Ok((core, from, heard))
}

/// Locks the folder of a coordinator whose journal is in etcd.
fn open_folder(folder: &Path) -> io::Result<File> {
    let lock = match lock_folder(folder) {
        Err(error) if error.kind() == ErrorKind::Unsupported => must_not_start(error),
        locked => locked?,
    };
    if folder.join(MOVING).try_exists()? {
        must_not_start("this coordinator's journal is being moved: end that, by the same `sevunthi move`");
    }
    if folder.join("journal").try_exists()? || folder.join("known").try_exists()? {
        must_not_start("this folder has a journal of its own: move it into etcd first (`sevunthi move etcd`)");
    }
    Ok(lock)
}

impl Standby {
    /// A thread waits for the lead, and reads what the store has then.
    fn await_lead(&self, mut gateway: Gateway, seen: Seen) -> Receiver<Led> {
        let (leads, led): (Sender<Led>, Receiver<Led>) = channel();
        let config = &self.config;
        let claimant = Claimant {
            place: config.place(),
            address: config.at(config.place()),
            folder: config.folder.clone(),
            silence: Duration::from_millis(config.silence),
        };
        let seeing = Arc::clone(&self.seeing);
        thread::spawn(move || {
            let taken = claimant.await_lead(&mut gateway, &seen, |now| {
                *seeing.lock().unwrap_or_else(PoisonError::into_inner) = now;
            });
            let _ = leads.send(read(taken, gateway));
        });
        led
    }

    /// Listens, and answers, until this process leads.
    fn stand_by(&mut self, events: &EventReceiver, leads: &Receiver<Led>) -> Led {
        let (mut shown, mut last) = (Instant::now() - BEAT, Seeing::Nothing);
        loop {
            events.take_turn(TURN, |event| {
                self.take(event);
                true
            });
            self.awake.turn();
            self.note_silence();
            if let Ok(led) = leads.try_recv() {
                return led;
            }
            if BEAT <= shown.elapsed() {
                shown = Instant::now();
                let seeing = self.seeing();
                self.refusals += u64::from(matches!(seeing, Seeing::Refuses(_)) && last != seeing);
                if is_news(&last, &seeing) {
                    tell(in_words(&seeing));
                }
                last.clone_from(&seeing);
                self.door.show(format!("{}\n", in_words(&seeing)), self.metrics());
            }
        }
    }

    fn seeing(&self) -> Seeing {
        self.seeing.lock().unwrap_or_else(PoisonError::into_inner).clone()
    }

    /// While nobody at all is heard, this process may be the one that is cut off.
    fn note_silence(&mut self) {
        let (now, silence) = (self.awake.now(), Duration::from_millis(self.config.silence));
        let is_heard = self.heard.listening.all().any(|(_, at)| now < at + silence);
        self.heard.since = self.heard.since.filter(|_| is_heard).or(Some(now));
    }

    fn take(&mut self, event: Event) {
        match event {
            Event::Peer(connection, batch)
            | Event::Closing(connection, batch)
            | Event::Urgent(connection, batch)
            | Event::Roll(connection, batch) => self.take_batch(connection, &batch),
            Event::PeerDown(connection) => self.heard.listening.end(connection),
            Event::Client(client, bytes) => {
                let seeing = self.seeing();
                framed(&bytes).for_each(|request| self.answer(client, request, &seeing));
            }
            Event::ClientUp(client, writer) => _ = self.clients.insert(client, writer),
            Event::ClientDown(client) => _ = self.clients.remove(&client),
            Event::Synced | Event::RollSynced | Event::Hurry => {}
        }
    }

    /// Of what hosts say words and heartbeats are kept. All else is said again to whoever leads.
    fn take_batch(&mut self, connection: u64, batch: &[u8]) {
        let now = self.awake.now();
        for (_, message) in frames(batch) {
            match message.split_first() {
                Some((&WORD, _)) => {
                    if let Some(word) = Word::read(message).filter(|word| usize::from(word.from) < COORDINATORS) {
                        self.heard.words.insert(word.from, (message.to_vec(), now));
                    }
                }
                Some((&HEARTBEAT, ids)) => {
                    let mut ids = ids.chunks_exact(5).filter_map(Id::read);
                    if let Some(id) = ids.next().filter(|id| usize::from(id.index) < COORDINATORS) {
                        self.heard.listening.hear(connection, id, now);
                        self.heard.waits.insert(id.index, (id, ids.collect(), now));
                    }
                }
                Some(_) | None => {}
            }
        }
    }

    /// A client is told that this one does not lead, and where who does listens.
    fn answer(&self, client: u64, request: &[u8], seeing: &Seeing) {
        let Some(writer) = self.clients.get(&client) else { return };
        let mut out = Vec::new();
        let leader = match seeing {
            Seeing::Leads(leader) => leader.address.clone(),
            Seeing::Nothing | Seeing::Nobody | Seeing::NoAnswer(_) | Seeing::Refuses(_) => String::new(),
        };
        let reply = match Request::read(request) {
            Some(request) => {
                Reply { version: NO_HINT, value: leader.into(), ..Reply::bare(NOT_LEADING, request.number) }
            }
            None => Reply::bare(WRONG, 0),
        };
        reply.put(&mut out);
        writer.send(out);
    }

    fn metrics(&self) -> String {
        let mut metrics = Metrics::of(&self.config.label(self.config.place()));
        let help = "1 where the coordinator leads, as far as it knows.";
        metrics.add(Kind::Gauge, "sevunthi_coordinator_leads", help, 0);
        let (now, silence) = (self.awake.now(), Duration::from_millis(self.config.silence));
        let heard = self.heard.listening.all().filter(|(_, at)| now < *at + silence).count();
        metrics.add(Kind::Gauge, "sevunthi_hosts_heard", "Hosts that were heard within the time of silence.", heard);
        let help = "How often what etcd has was refused: it was emptied, put back, or is another.";
        metrics.add(Kind::Counter, "sevunthi_store_refused_total", help, self.refusals);
        add_counts(&mut metrics, &self.counts);
        add_fenced(&mut metrics, count_fenced(&self.config.folder));
        metrics.text()
    }
}

/// Whether what is seen now is to be told: who leads, or that nobody does. The other things are told where they arise.
fn is_news(last: &Seeing, now: &Seeing) -> bool {
    matches!(now, Seeing::Leads(_) | Seeing::Nobody) && last != now
}

fn in_words(seeing: &Seeing) -> String {
    match seeing {
        Seeing::Nothing => "stands by, and has not heard of etcd yet".to_string(),
        Seeing::Leads(leader) => {
            format!("stands by: the coordinator at {} leads, term {}", leader.address, leader.term)
        }
        Seeing::Nobody => "stands by: nobody has led yet".to_string(),
        Seeing::NoAnswer(why) => format!("stands by: etcd does not answer: {why}"),
        Seeing::Refuses(why) => format!("stands by, and does not take the lead: {why}"),
    }
}

/// Reads what the store has, while a thread says that this process leads.
fn read(taken: Taken, gateway: Gateway) -> Led {
    let Taken { lead, head, told: told_of } = taken;
    let told = Arc::new(Told::of(told_of.clone().unwrap_or_default()));
    keep_leading(&lead, &told, gateway.clone());
    let mut ledger = Ledger::new(gateway.clone(), Arc::clone(&lead), head.map(Named::Journal));
    let journal = head.map(|head| {
        let bytes = ledger.read(head).unwrap_or_else(|stop| lead.end(&stop));
        let bytes = bytes.unwrap_or_else(|why| must_not_start(why));
        let told = told_of.unwrap_or_else(|| must_not_start("etcd has a journal, and its key `told` is gone"));
        (head, bytes, told)
    });
    Led { lead, told, gateway, ledger, journal }
}

/// The coordinator that comes back from what was read, or a new one, with its journal.
fn open(config: &Config, led: Led, seen: Seen, events: EventSender) -> io::Result<Opened> {
    let Led { lead, told, gateway, mut ledger, journal } = led;
    let failing = if config.faults { Failing::in_folder(&config.folder) } else { Failing::default() };
    let (node, ready, head, code) = match journal {
        Some((head, bytes, told)) => {
            let (node, ready) = coordinator_of(&bytes, head);
            tell(format_args!("has come back from {} bytes", bytes.len()));
            (node, ready, head, told)
        }
        None => {
            let (node, code) = create(&mut ledger).unwrap_or_else(|error| crate::core::failed("a new journal", error));
            let head = ledger.head().ok_or(ErrorKind::NotFound)?;
            (node, Ready::default(), head, code)
        }
    };
    seen.write(head)?;
    let found = Position { number: head.epoch, length: head.bytes };
    let guard = Guard::shared(&code, found, Arc::clone(&told))?;
    let guard = guard.unwrap_or_else(|| must_not_start("etcd's key `told` is damaged"));
    let parts = Parts { gateway, lead, seen, failing };
    let remote = Remote::new(parts, ledger, head, move || _ = events.send(Event::Synced));
    let kept = Kept::new(node, Store::Etcd(Box::new(remote)), ready);
    Ok(Opened { kept, guard, clock: head.clock })
}

/// A new coordinator, whose journal stands in the store, and what that has of hosts.
fn create(ledger: &mut Ledger) -> io::Result<(Node, Vec<u8>)> {
    let mut node = Node::coordinator().map_err(io::Error::other)?;
    let (mut first, code) = (Vec::new(), new_shared()?);
    node.take_journal(&mut first).map_err(io::Error::other)?;
    ledger.create(&first, &code, 1, 0).map_err(|stop| io::Error::other(format!("{stop:?}")))?;
    node.synced(first.len()).map_err(io::Error::other)?;
    Ok((node, code))
}
