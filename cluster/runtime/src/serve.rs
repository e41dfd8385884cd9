//! The loops of a host with a service, and of the coordinator.

use crate::base::{Base, Frame, frames};
use crate::failing::Failing;
use crate::hearing::Verdict;
use crate::kept::{Kept, NotOpened};
use crate::log::tell;
use crate::owner::Owner;
use crate::service::{Cx, Event, Service, Ticket, Transport};
use crate::suspicion::Suspicion;
use sevunthi::message::kind;
use sevunthi::{Address, Due, Envelope, Id, Node, Shape, Work};
use std::convert::Infallible;
use std::io;
use std::path::PathBuf;
use std::sync::mpsc::{Receiver, RecvTimeoutError};
use std::time::{Duration, Instant};

/// Where segments run out, a host begins anew: it has a new log then.
const LAST_HEAD: u16 = 60_000;

/// How often a server says that it lives, and a coordinator looks at what is due.
const BEAT: Duration = Duration::from_millis(100);

/// So long one waits for what comes, and takes so much of it, before it sees to all else.
const TURN: Duration = Duration::from_millis(20);
const MUCH: usize = 256;

/// How a process is to run. All of a cluster are given the same, but for the folder.
#[derive(Clone, Debug)]
pub struct Config {
    /// The node's folder, which no other node ever had.
    pub folder: PathBuf,
    /// How many hosts there are, 1 to 64.
    pub hosts: u8,
    /// How many replicas each segment has, 1 to 5: fewer than there are hosts.
    pub factor: u8,
    /// How many entries a segment takes, 1 to 1,024.
    pub segment: u16,
    /// How long between timers of the node: longer than an answer takes on a bad day.
    pub tick: Duration,
    /// After how much silence a server is suspected.
    pub silence: Duration,
    /// How many bytes a journal grows before it is made short.
    pub long: usize,
}

impl Config {
    /// A cluster of so many hosts, where each segment has two replicas of 1,024 entries, with the times and sizes to
    /// begin with.
    pub fn new(folder: impl Into<PathBuf>, hosts: u8) -> Config {
        Config {
            folder: folder.into(),
            hosts,
            factor: 2,
            segment: 1024,
            tick: Duration::from_millis(200),
            silence: Duration::from_secs(1),
            long: 1 << 28,
        }
    }
}

/// What comes, up to so much, or nothing after a turn.
///
/// # Errors
///
/// That nobody is left from whom something may come.
fn take_turn(events: &Receiver<Event>) -> io::Result<Vec<Event>> {
    match events.recv_timeout(TURN) {
        Ok(event) => Ok([event].into_iter().chain(events.try_iter().take(MUCH)).collect()),
        Err(RecvTimeoutError::Timeout) => Ok(Vec::new()),
        Err(RecvTimeoutError::Disconnected) => Err(io::Error::other("nobody brings anything any more")),
    }
}

/// A host.
struct Host<S, X> {
    config: Config,
    base: Base,
    owner: Owner<Ticket>,
    service: S,
    transport: X,
    is_replaced: bool,
}

/// Runs the host of this index with a service, until its process has to end. `events` has what the transport brings.
///
/// # Errors
///
/// That the node must not start; or what has failed: then the process has to end, and may begin again.
pub fn serve(
    config: Config,
    index: u8,
    transport: impl Transport,
    events: &Receiver<Event>,
    service: impl Service,
) -> Result<Infallible, NotOpened> {
    let shape = Shape { index, factor: config.factor, segment: config.segment, free: true };
    let kept = Kept::open(&config.folder, Failing::default(), || Node::host(shape))?;
    let base = Base::new(kept, Some(index), config.hosts);
    let mut host = Host { config, base, owner: Owner::default(), service, transport, is_replaced: false };
    host.begin()?;
    let (mut beat, mut tick) = (Instant::now(), Instant::now());
    loop {
        for event in take_turn(events)? {
            host.take(event)?;
        }
        host.base.awake.turn();
        if BEAT <= beat.elapsed() {
            beat = Instant::now();
            host.beat();
        }
        if host.config.tick <= tick.elapsed() {
            tick = Instant::now();
            // a server that does not run takes none
            let _ = host.base.kept.step(Work::Tick);
        }
        host.settle()?;
        let info = host.base.kept.node.info();
        if !info.has_room {
            return Err(NotOpened::Failed(io::Error::other("the node's numbers are used up")));
        }
        if host.is_replaced || info.is_deposed || LAST_HEAD < info.head || !info.runs {
            host.begin()?;
        }
        host.base.kept.shorten(host.config.long)?;
    }
}

impl<S: Service, X: Transport> Host<S, X> {
    /// Starts the server anew. What was asked of the old one is unknown.
    fn begin(&mut self) -> io::Result<()> {
        self.is_replaced = false;
        if let Err(fault) = self.base.kept.node.start() {
            // it is tried again with the next turn
            tell(format_args!("the server did not start: {fault}"));
        }
        let server = self.base.kept.node.info().server;
        self.base.waits.clear();
        self.base.segments.clear();
        self.owner.begin(&mut self.base, server);
        self.with_service(|service, cx| service.begun_anew(cx));
        tell(format_args!("server {server} begins"));
        self.settle()
    }

    fn with_service(&mut self, what: impl FnOnce(&mut S, &mut Cx<'_>)) {
        let Host { base, owner, service, transport, .. } = self;
        what(service, &mut Cx { base, owner, transport });
    }

    fn beat(&mut self) {
        let (silence, tick, now) = (self.config.silence, self.config.tick, self.base.awake.now());
        let waits = self.base.waits.longer_than(silence, (silence / 2).max(2 * tick), now);
        let waits: Vec<Id> = waits.into_iter().map(|(id, _)| id).collect();
        self.base.beat(self.owner.server(), &waits);
    }

    fn take(&mut self, event: Event) -> io::Result<()> {
        match event {
            Event::Batch(_, batch) => {
                for frame in frames(&batch) {
                    match frame {
                        Frame::Message(message) => self.deliver(message)?,
                        Frame::NotUp(id) => self.is_replaced |= id == self.owner.server(),
                        Frame::Heartbeat(..) => {}
                    }
                }
            }
            Event::Ask(caller, request) => self.with_service(|service, cx| service.ask(cx, caller, &request)),
            Event::Ended(_) => {}
        }
        Ok(())
    }

    fn deliver(&mut self, message: &[u8]) -> io::Result<()> {
        let envelope = self.base.deliver(message)?;
        if let Some(range) = envelope.and_then(|envelope| self.owner.take(&envelope)) {
            self.with_service(|service, cx| service.granted(cx, range));
        }
        Ok(())
    }

    /// What has become of requests is handed to the service, which may ask for more.
    fn hand_over(&mut self) -> bool {
        let mut is_any = false;
        while let Some((ticket, outcome)) = self.base.done.pop_front() {
            is_any = true;
            self.with_service(|service, cx| service.done(cx, ticket, outcome));
        }
        is_any
    }

    /// What waits is asked again; what is there is written and made safe, and what may leave is sent; until nothing is
    /// left to do here.
    fn settle(&mut self) -> io::Result<()> {
        let began = Instant::now();
        loop {
            while self.owner.retry(&mut self.base) == Some(false) {}
            self.owner.route(&mut self.base);
            let has_asked = self.hand_over();
            self.owner.confirm(&mut self.base);
            self.owner.route(&mut self.base);
            if self.base.kept.make_safe_now()? {
                self.owner.route(&mut self.base);
            }
            if !has_asked && self.base.local.is_empty() && self.base.done.is_empty() || TURN <= began.elapsed() {
                break;
            }
            for message in std::mem::take(&mut self.base.local) {
                self.deliver(&message)?;
            }
        }
        self.base.flush(&mut self.transport);
        Ok(())
    }
}

/// A coordinator.
struct Coordinator<X> {
    config: Config,
    base: Base,
    suspicion: Suspicion,
    transport: X,
    tables: Vec<u32>,
    is_due: bool,
}

/// Runs the coordinator, until its process has to end: it suspects who is silent, decides recoveries, and makes these
/// tables, each at the host that owns least. There is one coordinator, which keeps its folder for good. After it begins it
/// does nothing before it has heard all hosts but as many as a segment has replicas.
///
/// # Errors
///
/// That the node must not start; or what has failed: then the process has to end, and may begin again.
pub fn coordinate(
    config: Config,
    tables: &[u32],
    transport: impl Transport,
    events: &Receiver<Event>,
) -> Result<Infallible, NotOpened> {
    let kept = Kept::open(&config.folder, Failing::default(), Node::coordinator)?;
    let (hosts, factor) = (usize::from(config.hosts), usize::from(config.factor));
    let suspicion = Suspicion::new(hosts, hosts.saturating_sub(factor), factor, config.silence);
    let base = Base::new(kept, None, config.hosts);
    let mut coordinator = Coordinator { config, base, suspicion, transport, tables: tables.to_vec(), is_due: false };
    let (mut beat, mut tick) = (Instant::now(), Instant::now());
    loop {
        for event in take_turn(events)? {
            coordinator.take(event)?;
        }
        coordinator.base.awake.turn();
        if coordinator.is_due || BEAT <= beat.elapsed() {
            beat = Instant::now();
            coordinator.look();
        }
        if coordinator.suspicion.hearing.acts() && coordinator.config.tick <= tick.elapsed() {
            tick = Instant::now();
            coordinator.step(Work::Tick);
        }
        coordinator.settle()?;
        coordinator.base.kept.shorten(coordinator.config.long)?;
    }
}

impl<X: Transport> Coordinator<X> {
    fn step(&mut self, work: Work) {
        if let Err(fault) = self.base.kept.step(work) {
            tell(format_args!("{work:?}: {fault}"));
        }
    }

    fn take(&mut self, event: Event) -> io::Result<()> {
        let now = self.base.awake.now();
        match event {
            Event::Batch(connection, batch) => {
                for frame in frames(&batch) {
                    match frame {
                        Frame::Message(message) => self.deliver(connection, message)?,
                        Frame::Heartbeat(id, waits) => {
                            self.suspicion.listening.hear(connection, id, now);
                            self.suspicion.cut_off.hear(id, waits);
                        }
                        Frame::NotUp(_) => {}
                    }
                }
            }
            Event::Ended(connection) => self.suspicion.listening.end(connection),
            Event::Ask(..) => {}
        }
        Ok(())
    }

    fn deliver(&mut self, connection: u64, message: &[u8]) -> io::Result<()> {
        let Some(Envelope { from: Address::Server(id), kind, .. }) = Envelope::read(message) else { return Ok(()) };
        self.suspicion.listening.hear(connection, id, self.base.awake.now());
        let is_left_out = kind == kind::ENLIST && self.suspicion.is_left_out(id.index);
        if self.suspicion.hearing.acts() && !is_left_out && self.base.deliver(message)?.is_some() {
            self.is_due |= matches!(kind, kind::REPLICAS | kind::READY);
        }
        Ok(())
    }

    /// Does what is due, for who was heard and who was not.
    fn look(&mut self) {
        self.is_due = false;
        let now = self.base.awake.now();
        let heard = self.suspicion.listening.all().count();
        match self.suspicion.hearing.hear(heard, 0, now) {
            Verdict::Begins | Verdict::Acts => {}
            Verdict::WaitsLong => {
                return tell(format_args!("waits until {} hosts were heard", self.suspicion.hearing.needed()));
            }
            Verdict::Waits | Verdict::IsAnothers => return,
        }
        for due in self.suspicion.dues(&mut self.base.kept.node, now) {
            match due {
                Due::Suspect(id) => self.step(Work::Suspect(id)),
                Due::Decide(id) => self.step(Work::Decide(id)),
                Due::Restart(id) => self.base.say_not_up(id),
            }
        }
        self.make_tables();
        self.suspicion.look(&mut self.base.kept.node, now);
    }

    /// Makes the tables that are not there. Before a host is ready that is refused.
    fn make_tables(&mut self) {
        let node = &mut self.base.kept.node;
        let (Ok(tablets), Ok(servers)) = (node.tablets(), node.servers()) else { return };
        let missing = self.tables.iter().find(|table| !tablets.iter().any(|tablet| tablet.table == **table));
        let up = servers.into_iter().filter(|(_, is_up)| *is_up).map(|(id, _)| id);
        let owner = up.min_by_key(|id| tablets.iter().filter(|tablet| tablet.owner == *id).count());
        if let (Some(&table), Some(owner)) = (missing, owner) {
            self.step(Work::Create { table, owner });
        }
    }

    /// All that is there is written, made safe and sent, until nothing waits. Refusals are dropped: what was refused is
    /// due again.
    fn settle(&mut self) -> io::Result<()> {
        self.base.route(&mut |_| {});
        while self.base.kept.make_safe_now()? {
            self.base.route(&mut |_| {});
        }
        self.base.flush(&mut self.transport);
        Ok(())
    }
}
