//! The process of the coordinator: of the only one, or, where several have their journal in etcd, of the one that leads.

use crate::core::{BEAT, Config, Core, Frame, failed, must_not_start, tell};
use crate::events::{Event, EventReceiver, TURN};
use crate::guard::Standing;
use crate::hearing::Verdict;
use crate::metrics::Kind;
use crate::protocol::{ANY_HOST, DONE, NO_HINT, NO_ROOM, NOT_ALLOWED, NOT_LEADING, Op, Reply, Request, WRONG};
use crate::reasons::{NO_TABLE, NOT_READY, RECOVERING};
use crate::standby::{self, Heard};
use crate::status::{LAST_LINE, Server, State, Tablet};
use crate::wire::NOT_UP;
use sevunthi::message::{framed, kind};
use sevunthi::{Address, Answer, Due, Envelope, Fault, Id, Work};
use sevunthi_runtime::suspicion::Suspicion;
use std::collections::{HashMap, VecDeque};
use std::fmt::Write as _;
use std::io;
use std::time::{Duration, Instant};

/// The coordinator.
struct Coordinator {
    core: Core,
    suspicion: Suspicion,
    /// Of each host the server that was up when it said that it is ready. What it says again costs no record.
    ready: HashMap<u8, Id>,
    /// What was due last.
    last: Option<Due>,
    /// What was said of the last request.
    refused: Option<u8>,
    is_due: bool,
    orders: Orders,
}

/// What was asked by who operates the cluster, where the journal is in etcd: each is answered once a transaction tells
/// what came of it. The node says of a refusal by its number alone: so one is given at a time, and nothing else beside
/// it that the node may refuse.
#[derive(Default)]
struct Orders {
    /// Clients with what they asked, and the numbers of their requests.
    waiting: VecDeque<(u64, Order, u64)>,
    /// The one that was given, with its client.
    given: Option<(u64, u64)>,
    /// Something else was given that the node may refuse, since a transaction was last asked for.
    has_dues: bool,
}

/// What only who operates the cluster may ask for.
#[derive(Clone, Copy, Debug, PartialEq, Eq)]
enum Order {
    /// A table at the host of this index, or at any.
    Create(u32, u64),
    /// A table is split before a key.
    Split(u32, u64),
}

/// Runs the coordinator for ever: where its journal is in etcd, once it leads.
pub fn run(config: Config) -> io::Result<()> {
    let (core, events, heard) = if config.store.is_empty() {
        let (core, events) = Core::open(config)?;
        (core, events, Heard::default())
    } else {
        standby::run(config)?
    };
    let mut coordinator = Coordinator::new(core);
    coordinator.take_over(heard);
    coordinator.settle();
    coordinator.show();
    coordinator.serve(&events);
    Ok(())
}

impl Coordinator {
    fn new(core: Core) -> Coordinator {
        let hosts = core.config.members.there().len();
        let factor = usize::from(core.config.factor);
        let needed = core.config.hear.map_or(hosts.saturating_sub(factor), usize::from);
        let silence = Duration::from_millis(core.config.silence);
        let mut suspicion = Suspicion::new(hosts, needed, factor, silence);
        suspicion.going = core.config.members.going();
        Coordinator {
            core,
            suspicion,
            ready: HashMap::new(),
            last: None,
            refused: None,
            is_due: false,
            orders: Orders::default(),
        }
    }

    /// What it has heard while it stood by counts as if it had led.
    fn take_over(&mut self, heard: Heard) {
        let now = self.core.awake.now();
        let silence = Duration::from_millis(self.core.config.silence);
        let fresh = |at: Duration| now < at + silence;
        self.suspicion.hearing.has_listened(heard.since);
        heard.words.into_values().filter(|(_, at)| fresh(*at)).for_each(|(word, _)| self.core.take_word(&word));
        let waits = heard.waits.into_values().filter(|(_, _, at)| fresh(*at));
        waits.for_each(|(id, waits, _)| self.suspicion.cut_off.hear(id, waits));
        self.suspicion.listening = heard.listening;
        self.is_due = heard.since.is_some();
    }
}

impl Coordinator {
    fn serve(&mut self, events: &EventReceiver) {
        let (mut beat, mut tick) = (Instant::now(), Instant::now());
        loop {
            events.take_turn(TURN, |event| {
                self.take(event);
                true
            });
            self.core.turn();
            if self.is_due || BEAT <= beat.elapsed() {
                beat = Instant::now();
                self.is_due = false;
                let leads = self.core.leads();
                if self.acts() && leads {
                    self.do_dues();
                }
                self.core.look_for_room();
                self.look_for_scarceness();
                if leads {
                    self.core.greet();
                }
                self.show();
            }
            self.end_transaction();
            let is_due =
                self.suspicion.hearing.acts() && Duration::from_millis(self.core.config.tick) <= tick.elapsed();
            if is_due && self.core.may_tick() {
                tick = Instant::now();
                self.step(Work::Tick);
            }
            self.settle();
            self.core.shorten();
        }
    }

    /// Where a transaction has ended, what may leave does, and who has asked for something is told what came of it.
    fn end_transaction(&mut self) {
        let mut refused = None;
        let has_ended = self.core.end_transaction(|answer| {
            if let Answer::Refused(code) = answer {
                refused = Some(code);
            }
        });
        if !has_ended {
            return;
        }
        if let Some((client, number)) = self.orders.given.take() {
            self.core.answer(client, &Reply::bare(refused.unwrap_or(DONE), number));
            // who asks for the state next sees what came of it
            self.show();
        }
        self.core.flush();
    }

    /// Gives the node what was asked first of all that waits, where a transaction can be asked for at once that has it
    /// alone, without Suspects and Decides beside it: the node names a refusal by its number alone.
    fn give_order(&mut self) {
        if self.orders.has_dues || self.orders.given.is_some() || self.core.is_transacting() {
            return;
        }
        while let Some((client, order, number)) = self.orders.waiting.pop_front() {
            let code = match self.work_of(order) {
                _ if !self.core.leads() => NOT_LEADING,
                Ok(work) if self.step(work) => {
                    self.orders.given = Some((client, number));
                    return;
                }
                Ok(_) => WRONG,
                Err(code) => code,
            };
            self.core.answer(client, &Reply::bare(code, number));
        }
    }

    /// Whether enough hosts were heard. Before that nothing is done.
    fn acts(&mut self) -> bool {
        let guard = &self.core.guard;
        let (good, foreign) = (guard.count_remembering(), guard.count(Standing::Foreign));
        let verdict = self.suspicion.hearing.hear(good, foreign, self.core.awake.now());
        match verdict {
            Verdict::Begins => tell(format_args!("has heard {good} hosts, and goes on")),
            Verdict::WaitsLong => tell(self.waits_for()),
            Verdict::IsAnothers => must_not_start(format_args!(
                "{foreign} hosts were told by another coordinator: this folder is new, or another cluster's. Nothing \
                 was done by it. Put back the coordinator's folder that was in use last"
            )),
            Verdict::Waits | Verdict::Acts => {}
        }
        self.suspicion.hearing.acts()
    }

    /// Which hosts are waited for, in words. One whose folder was emptied can't say what it was told.
    fn waits_for(&self) -> String {
        let hosts = self.core.config.members.there();
        let unheard = hosts.iter().filter(|host| !self.core.guard.remembers(**host));
        let unheard: Vec<String> = unheard.map(|host| host.to_string()).collect();
        format!(
            "waits until {} of {} hosts were heard, and has not heard {}. Start them; or, where they are gone for \
             good, give --hear the number of those that are left",
            self.suspicion.hearing.needed(),
            hosts.len(),
            unheard.join(", ")
        )
    }

    fn step(&mut self, work: Work) -> bool {
        match self.core.kept.step(work) {
            Ok(()) => true,
            Err(fault) => {
                if fault != Fault::Refused {
                    tell(format_args!("{work:?}: {fault}"));
                }
                false
            }
        }
    }

    /// Whether too few hosts have room, so that no writes are to be taken.
    fn look_for_scarceness(&mut self) {
        let servers = self.core.kept.node.servers().unwrap_or_default();
        let up = servers.iter().filter(|(_, is_up)| *is_up).map(|(id, _)| id.index);
        let is_scarce = self.core.room.is_scarce(up, usize::from(self.core.config.factor) + 1);
        if is_scarce != self.core.is_scarce {
            self.core.is_scarce = is_scarce;
            tell(if is_scarce {
                "too few hosts have room: no writes are taken"
            } else {
                "enough hosts have room again"
            });
        }
    }

    /// What is due, for who was heard and who was not.
    fn do_dues(&mut self) {
        let now = self.core.awake.now();
        self.suspicion.going = self.core.config.members.going();
        let dues = self.suspicion.dues(&mut self.core.kept.node, now);
        dues.into_iter().for_each(|due| self.do_due(due));
        self.suspicion.look(&mut self.core.kept.node, now);
    }

    fn do_due(&mut self, due: Due) {
        if self.last != Some(due) {
            tell(match due {
                Due::Suspect(id) => format!("suspects {id}"),
                Due::Decide(id) => format!("decides the recovery of {id}"),
                Due::Restart(id) => format!("tells {id} to begin anew"),
            });
            self.last = Some(due);
        }
        match due {
            Due::Suspect(id) => {
                self.orders.has_dues = true;
                self.step(Work::Suspect(id));
            }
            Due::Decide(id) => {
                self.orders.has_dues = true;
                self.step(Work::Decide(id));
            }
            Due::Restart(id) => self.say_not_up(id),
        }
    }

    fn take(&mut self, event: Event) {
        match event {
            Event::Peer(connection, batch)
            | Event::Closing(connection, batch)
            | Event::Urgent(connection, batch)
            | Event::Roll(connection, batch) => self.take_batch(connection, &batch),
            Event::Synced | Event::RollSynced => self.core.end_sync(),
            Event::Hurry => {}
            Event::PeerDown(connection) => self.suspicion.listening.end(connection),
            Event::Client(client, bytes) => {
                for bytes in framed(&bytes) {
                    match Request::read(bytes) {
                        Some(request) => self.ask(client, &request),
                        None => self.core.answer(client, &Reply::bare(WRONG, 0)),
                    }
                }
            }
            Event::ClientUp(client, writer) => self.core.set_client(client, Some(writer)),
            Event::ClientDown(client) => self.core.set_client(client, None),
        }
    }

    /// The frames of a batch that came on the peer's connection of this number.
    fn take_batch(&mut self, connection: u64, batch: &[u8]) {
        let (mut heard, mut waiting, mut newcomers, mut is_due) = (Vec::new(), Vec::new(), Vec::new(), false);
        let (suspicion, ready) = (&self.suspicion, &mut self.ready);
        self.core.each_frame(batch, |core, frame| match frame {
            Frame::Message(message) => {
                let Some(Envelope { from, kind, .. }) = Envelope::read(message) else { return };
                if let Address::Server(id) = from {
                    heard.extend(core.guard.hears(from).then_some(id));
                    let is_left_out = kind == kind::ENLIST && suspicion.is_left_out(id.index);
                    let is_up = kind == kind::READY && is_up(core, id);
                    if !suspicion.hearing.acts() || is_left_out || is_up && ready.get(&id.index) == Some(&id) {
                        return;
                    }
                    is_due |= matches!(kind, kind::REPLICAS | kind::READY);
                    if core.deliver(message).is_some() && is_up {
                        ready.insert(id.index, id);
                    }
                }
            }
            Frame::Heartbeat(id, _) if core.guard.standing(id.index) == Standing::New => newcomers.push(id),
            Frame::Heartbeat(id, waits) => {
                if core.guard.hears(Address::Server(id)) {
                    heard.push(id);
                    waiting.push((id, waits));
                }
            }
            Frame::NotUp(_) => {}
        });
        if self.core.leads() {
            newcomers.into_iter().for_each(|id| self.let_in(id));
        }
        waiting.into_iter().for_each(|(id, waits)| self.suspicion.cut_off.hear(id, waits));
        self.is_due |= is_due;
        let now = self.core.awake.now();
        heard.into_iter().for_each(|id| self.suspicion.listening.hear(connection, id, now));
    }

    /// A host with a new folder begins anew until its server is a new one too: an id is never used again.
    fn let_in(&mut self, id: Id) {
        let servers = self.core.kept.node.servers().unwrap_or_default();
        if servers.iter().any(|(other, _)| other.index == id.index && id.generation <= other.generation) {
            return self.say_not_up(id);
        }
        let let_in = self.core.guard.let_in(id.index);
        if let_in.unwrap_or_else(|error| failed("what was told can't be kept", error)) {
            tell(format_args!("host {} has a new folder: what it kept before counts as lost", id.index));
        }
    }

    /// Has a server's host begin anew.
    fn say_not_up(&mut self, id: Id) {
        let mut said = vec![NOT_UP];
        said.extend_from_slice(&id.code());
        self.core.post(usize::from(id.index), &said);
    }

    fn ask(&mut self, client: u64, request: &Request) {
        let (number, key) = (request.number, request.key);
        let mut reply = Reply::bare(DONE, number);
        match request.op {
            Op::Create | Op::Split if !self.core.may_operate(client) => reply.code = NOT_ALLOWED,
            Op::Create | Op::Split if !self.core.leads() => reply.code = NOT_LEADING,
            Op::Create | Op::Split if !self.suspicion.hearing.acts() => reply.code = NOT_READY,
            Op::Create | Op::Split if self.core.is_scarce || self.core.room.lacks() => reply.code = NO_ROOM,
            // what it knows is a hint then: a host refuses what it does not own
            Op::Owner if !self.core.leads() && key >> 63 == 0 => {
                reply.code = NOT_LEADING;
                reply.version = self.owner(request.table, 2 * key).map_or(NO_HINT, |id| u64::from(id.index));
            }
            Op::Owner if !self.suspicion.hearing.acts() => reply.code = RECOVERING,
            Op::Create => return self.order(client, Order::Create(request.table, key), number),
            Op::Split if key >> 63 == 0 => {
                return self.order(client, Order::Split(request.table, key), number);
            }
            Op::Owner if key >> 63 == 0 => match self.owner(request.table, 2 * key) {
                Ok(id) => reply.version = u64::from(id.index),
                Err(code) => reply.code = code,
            },
            Op::Fail if self.core.config.faults => self.core.fail(request.table, key),
            _ => reply.code = WRONG,
        }
        self.core.answer(client, &reply);
    }

    /// Does what was asked, and answers: at once, or when a transaction tells what came of it.
    fn order(&mut self, client: u64, order: Order, number: u64) {
        if self.core.remote().is_some() {
            return self.orders.waiting.push_back((client, order, number));
        }
        let code = match self.work_of(order) {
            Ok(work) => self.work(work),
            Err(code) => code,
        };
        self.core.answer(client, &Reply::bare(code, number));
    }

    /// What the node is given for an order: a table is created at the host of its index, or, for `ANY_HOST`, at the one
    /// that owns least.
    fn work_of(&mut self, order: Order) -> Result<Work, u8> {
        let (table, index) = match order {
            Order::Split(table, key) => return Ok(Work::Split { table, at: 2 * key }),
            Order::Create(table, index) => (table, index),
        };
        let servers = self.core.kept.node.servers().unwrap_or_default();
        let tablets = self.core.kept.node.tablets().unwrap_or_default();
        let mut up = servers.iter().filter(|(_, is_up)| *is_up).map(|(id, _)| *id);
        let owns = |id: &Id| tablets.iter().filter(|tablet| tablet.owner == *id).count();
        let owner = match index {
            ANY_HOST => up.min_by_key(owns),
            index => up.find(|id| u64::from(id.index) == index),
        };
        owner.map(|owner| Work::Create { table, owner }).ok_or(NOT_READY)
    }

    /// Gives the node a work, and says by which code it was refused.
    fn work(&mut self, work: Work) -> u8 {
        self.refused = None;
        if !self.step(work) {
            return WRONG;
        }
        self.settle();
        // who asks for the state next sees what came of it
        self.show();
        self.refused.take().unwrap_or(DONE)
    }

    /// Who owns a key, or the code of a refusal. One that has crashed is not named: clients would wait for it.
    fn owner(&mut self, table: u32, key: u64) -> Result<Id, u8> {
        let tablets = self.core.kept.node.tablets().map_err(|_| RECOVERING)?;
        let holds = |tablet: &&sevunthi::Tablet| tablet.table == table && tablet.lo <= key && key <= tablet.hi;
        match tablets.iter().find(holds) {
            Some(tablet) if tablet.crashed => Err(RECOVERING),
            Some(tablet) => Ok(tablet.owner),
            None => Err(NO_TABLE),
        }
    }

    /// All that is there is written, made safe and sent, until nothing waits: who asks is told what came of it.
    fn settle(&mut self) {
        if self.core.remote().is_some() {
            // nothing leaves but behind a transaction
            self.give_order();
            self.orders.has_dues &= !self.core.begin_transaction();
            return self.core.flush();
        }
        for _ in 0..64 {
            self.route();
            if !self.core.make_safe_now() {
                break;
            }
        }
        self.route();
        self.core.flush();
    }

    fn route(&mut self) {
        let mut refused = None;
        self.core.route(|answer| {
            if let Answer::Refused(code) = answer {
                refused = Some(code);
            }
        });
        self.refused = refused.or(self.refused);
    }

    /// The state, as text.
    fn text(&mut self) -> String {
        let mut text = self.core.lead_text();
        if !self.suspicion.hearing.acts() && self.core.guard.count_remembering() < self.suspicion.hearing.needed() {
            let _ = writeln!(text, "{}", self.waits_for());
        }
        if self.core.is_scarce {
            let _ = writeln!(text, "no writes are taken: too few hosts have room on their disks");
        }
        let now = self.core.awake.now();
        for (id, is_up) in self.core.kept.node.servers().unwrap_or_default() {
            let heard = self.suspicion.listening.last(&id).map(|at| (now - at).as_millis());
            let state = match is_up {
                true => State::Up,
                false if self.suspicion.is_left_out(id.index) => State::LeftOut,
                false => State::Crashed,
            };
            if is_up || heard.is_some() {
                let _ = writeln!(text, "{}", Server { id, state, heard });
            }
        }
        for tablet in self.core.kept.node.tablets().unwrap_or_default() {
            let sevunthi::Tablet { table, lo, hi, crashed: is_recovering, owner, term } = tablet;
            let _ = writeln!(text, "{}", Tablet { table, keys: (lo / 2, hi / 2), is_recovering, owner, term });
        }
        let (info, syncs) = (self.core.kept.node.info(), self.core.kept.log.syncs());
        let _ = writeln!(text, "{LAST_LINE}{} bytes, {} safe, {syncs} syncs", info.written, info.safe);
        text
    }

    /// What it has to tell who watches it.
    fn metrics(&mut self) -> String {
        let mut metrics = self.core.metrics();
        let sight = self.suspicion.sight(&mut self.core.kept.node, self.core.awake.now());
        let servers = self.core.kept.node.servers().unwrap_or_default();
        let tablets = self.core.kept.node.tablets().unwrap_or_default();
        let crashed = tablets.iter().filter(|tablet| tablet.crashed).count();
        let wanted = usize::from(self.core.config.factor) + 1;
        for (name, help, value) in [
            ("hosts", "Hosts that the cluster has.", self.core.config.members.there().len()),
            ("hosts_leaving", "Hosts that leave, or have left.", self.core.config.members.going().len()),
            ("hosts_up", "Hosts whose server is up.", sight.up.len()),
            ("hosts_heard", "Hosts that were heard within the time of silence.", sight.heard.len()),
            ("hosts_left_out", "Hosts whose servers are left out for now.", self.suspicion.count_left_out()),
            ("hosts_needed", "Hosts that a segment and its replicas need.", wanted),
            ("tablets", "Tablets that stand, of 1,024.", tablets.len()),
            ("tablets_recovering", "Tablets whose owner has crashed, and nobody has them since.", crashed),
        ] {
            metrics.add(Kind::Gauge, &format!("sevunthi_{name}"), help, value);
        }
        let newest: HashMap<u8, bool> = servers.iter().map(|(id, is_up)| (id.index, *is_up)).collect();
        let hosts = self.core.config.members.there().into_iter();
        let rows =
            hosts.map(|host| (format!("peer=\"{host}\""), u8::from(newest.get(&host).copied().unwrap_or(false))));
        metrics.add_rows(Kind::Gauge, "sevunthi_host_up", "1 where the host's newest server is up.", rows);
        let now = self.core.awake.now();
        let heard = self.suspicion.listening.all();
        let rows = heard.map(|(id, at)| (format!("peer=\"{}\"", id.index), (now - at).as_secs_f64()));
        let help = "Seconds since the host was heard last.";
        metrics.add_rows(Kind::Gauge, "sevunthi_host_silence_seconds", help, rows);
        self.core.add_store_metrics(&mut metrics);
        metrics.text()
    }

    fn show(&mut self) {
        let (status, metrics) = (self.text(), self.metrics());
        self.core.show(status, metrics);
    }
}

/// Whether the coordinator's list shows this server up.
fn is_up(core: &mut Core, id: Id) -> bool {
    core.kept.node.servers().is_ok_and(|servers| servers.contains(&(id, true)))
}
