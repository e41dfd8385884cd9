//! The port of a process: who connects proves itself in time, gets a place, and is served by a thread of its own.

use crate::budget::{Account, Budget};
use crate::events::{Event, EventSender, part_of};
use crate::hello::{NotLetIn, Refused, Role};
use crate::http::{self, Page};
use crate::line::{self, Line, Out};
use crate::metrics;
use crate::net::{Writer, read_pieces};
use crate::places::{Limits, Place, Places};
use crate::protocol::{DONE, IN_CLEAR, Op, Reply, Request};
use crate::secret::{Secrets, is_loopback};
use crate::seldom::Seldom;
use crate::wire::{MOST, Parted};
use sevunthi::message::framed;
use sevunthi_client::Channel;
use sevunthi_client::security::Acceptor;
use std::io::{self, Write};
use std::net::{Shutdown, TcpListener, TcpStream};
use std::path::PathBuf;
use std::sync::{Arc, Mutex};
use std::thread;
use std::time::{Duration, Instant};

/// Who connects has so long to prove itself, in all: by a secret, and as a client by a whole request too.
const PATIENCE: Duration = Duration::from_secs(5);

/// A connection whose other side is silent for so long is ended.
const SILENT: Duration = Duration::from_secs(10);

/// Where a connection could not be taken the next one is waited for so long: it would fail at once.
const PAUSE: Duration = Duration::from_millis(20);

/// What comes behind an answer by HTTP is waited for so long.
const BRIEFLY: Duration = Duration::from_millis(100);

/// The longest request: the longest value is half of it.
pub const MOST_REQUEST: usize = 2048;

/// So many connections may wait to be taken.
const BACKLOG: u16 = 4096;

/// The thread of a connection has little on its stack.
const STACK: usize = 256 << 10;

/// Of so many requests at hand their number is counted, to make parts of them.
const AT_HAND: usize = 128;

/// What a port is opened with.
pub struct Opening {
    /// The place of this process: hosts first, and then the coordinators.
    pub place: u8,
    /// How many places there are.
    pub places: usize,
    /// The name that metrics have for this process.
    pub name: String,
    /// Who has to prove what.
    pub secrets: Secrets,
    /// The node's folder, of whose disk the metrics tell.
    pub folder: PathBuf,
}

/// The port, and what all connections share.
pub struct Door {
    opening: Opening,
    /// Who looks at proofs; none where nobody has to prove anything.
    acceptor: Option<Acceptor>,
    /// Who is connected.
    pub places: Arc<Places>,
    /// What clients have under way.
    pub budget: Arc<Budget>,
    events: EventSender,
    status: Mutex<String>,
    metrics: Mutex<String>,
    seldom: Seldom,
}

/// Who asks as a client.
struct Asker<'a> {
    number: u64,
    line: &'a Line,
    channel: Channel<&'a Line>,
    place: &'a Place,
    account: Arc<Account>,
    /// It may have requests done as who operates the cluster.
    may_operate: bool,
    /// It has asked something, and is answered here.
    writer: Option<Writer>,
}

/// Listens, and hands over what comes.
///
/// # Errors
///
/// Why nobody can listen there.
pub fn open(address: &str, opening: Opening, events: EventSender) -> io::Result<Arc<Door>> {
    let listener =
        TcpListener::bind(address).map_err(|error| io::Error::new(error.kind(), format!("{address}: {error}")))?;
    sevunthi_system::set_backlog(&listener, BACKLOG)?;
    let limits = Limits::of_process(opening.places);
    let door = Arc::new(Door {
        acceptor: opening.acceptor()?,
        opening,
        places: Arc::new(Places::new(limits)),
        budget: Arc::default(),
        events,
        status: Mutex::default(),
        metrics: Mutex::default(),
        seldom: Seldom::default(),
    });
    let at = Arc::clone(&door);
    thread::spawn(move || at.take_all(&listener));
    Ok(door)
}

impl Opening {
    fn acceptor(&self) -> io::Result<Option<Acceptor>> {
        let Secrets { peers, clients, operator, .. } = &self.secrets;
        let files = [(Role::Peer, peers), (Role::Client, clients), (Role::Operator, operator)];
        let files: Vec<_> = files.into_iter().filter_map(|(role, file)| Some((role, file.clone()?))).collect();
        (!files.is_empty()).then(|| Acceptor::new(self.place, files)).transpose()
    }

    /// Whether who connects from this line is taken in this role without a proof.
    fn takes_in_clear(&self, role: Role, line: &Line) -> bool {
        let wants_none = match role {
            Role::Peer | Role::Operator => self.secrets.peers.is_none(),
            Role::Client => self.secrets.clients.is_none(),
        };
        wants_none && line.from().is_some_and(is_loopback)
    }
}

impl Door {
    fn take_all(self: &Arc<Door>, listener: &TcpListener) {
        for (number, stream) in listener.incoming().enumerate() {
            let taken = stream.and_then(|stream| self.take(number as u64, stream));
            if let Err(error) = taken {
                // there may be no file or no thread left
                self.seldom.tell("not taken", format_args!("a connection was not taken: {error}"));
                thread::sleep(PAUSE);
            }
        }
    }

    fn take(self: &Arc<Door>, number: u64, stream: TcpStream) -> io::Result<()> {
        let stream = Arc::new(stream);
        let Some(place) = self.places.enter(number, &stream) else {
            self.seldom.tell("full", format_args!("connections are refused: there are too many"));
            return Ok(());
        };
        let door = Arc::clone(self);
        let serve = move || {
            let line = Line::new(stream, PATIENCE);
            if let Err(refused) = door.serve(number, &line, &place) {
                door.tell_refused(&line, &refused);
            }
        };
        thread::Builder::new().stack_size(STACK).spawn(serve).map(|_| ())
    }

    fn serve(&self, number: u64, line: &Line, place: &Place) -> Result<(), Refused> {
        line.stream().set_nodelay(true)?;
        line.stream().set_write_timeout(Some(SILENT))?;
        sevunthi_system::end_when_silent(line.stream(), SILENT)?;
        let Ok(Some(first)) = line.first() else { return Ok(()) };
        let (mut channel, proved) = line.join(first, self.acceptor.as_ref())?;
        let Ok(kind) = line::byte(&mut channel) else { return Ok(()) };
        // what was proved is what it is, and nothing else
        if proved.is_some_and(|role| role.code() != kind) {
            return Err(NotLetIn::Secret.into());
        }
        match kind {
            b'C' => {
                let is_taken = proved.is_some() || self.opening.takes_in_clear(Role::Client, line);
                let asker = Asker::new(self, number, line, channel, place);
                if is_taken { asker.serve(self) } else { asker.refuse()? }
            }
            b'P' | b'A' => match line::byte(&mut channel)? {
                letter if letter.is_ascii_alphabetic() => self.serve_page(&[kind, letter], line)?,
                version => {
                    let role = if kind == b'P' { Role::Peer } else { Role::Operator };
                    let is_taken = proved.is_some() || self.opening.takes_in_clear(role, line);
                    line::answer(&mut channel, role, version, self.opening.place, is_taken)?;
                    self.serve_proved(role, number, line, channel, place)?;
                }
            },
            b'A'..=b'Z' => self.serve_page(&[kind], line)?,
            _ => {}
        }
        Ok(())
    }

    /// Who has proved that it is a peer, or operates the cluster, or does not have to.
    fn serve_proved(
        &self,
        role: Role,
        number: u64,
        line: &Line,
        channel: Channel<&Line>,
        place: &Place,
    ) -> io::Result<()> {
        if role == Role::Operator {
            Asker { may_operate: true, ..Asker::new(self, number, line, channel, place) }.serve(self);
            return Ok(());
        }
        place.prove_peer();
        line.lift()?;
        read_pieces(channel, MOST, |batches| give(&self.events, number, batches));
        self.events.send(Event::PeerDown(number));
        Ok(())
    }

    fn tell_refused(&self, line: &Line, refused: &Refused) {
        let what = match refused {
            Refused::Broken(_) => "unproved",
            Refused::NotLetIn(NotLetIn::Version(_)) => "version",
            Refused::NotLetIn(NotLetIn::Secret) => "secret",
            Refused::NotLetIn(NotLetIn::Place) => "place",
            Refused::NotLetIn(NotLetIn::InClear) => "in clear",
            Refused::NotLetIn(NotLetIn::NoSecurity | NotLetIn::Stranger) => "no security",
        };
        let who = line.stream().peer_addr().map_or("somebody".to_string(), |address| address.to_string());
        self.seldom.tell_of(what, line.from(), format_args!("who connected from {who} was not let in: {refused}"));
    }

    fn serve_page(&self, first: &[u8], line: &Line) -> io::Result<()> {
        let mut stream = line;
        let is_shown = self.opening.secrets.has_open_pages || line.from().is_some_and(is_loopback);
        http::answer(first, &mut stream, is_shown, |path| {
            let (kind, text) = match path {
                "/" => ("text/plain; charset=utf-8", self.status()),
                "/metrics" => (metrics::KIND, self.metrics()),
                _ => return None,
            };
            Some(Page { kind, text })
        })?;
        line.stream().shutdown(Shutdown::Write)?;
        line.limit(BRIEFLY);
        http::read_rest(&mut stream);
        Ok(())
    }

    /// Shows these texts from now on.
    pub fn show(&self, status: String, metrics: String) {
        for (text, now) in [(&self.status, status), (&self.metrics, metrics)] {
            if let Ok(mut text) = text.lock() {
                *text = now;
            }
        }
    }

    /// What the node has shown last; a moment is waited for it where it has just begun.
    fn status(&self) -> String {
        let end = Instant::now() + PATIENCE;
        loop {
            let status = self.status.lock().map(|text| text.clone()).unwrap_or_default();
            if !status.is_empty() || end < Instant::now() {
                return status;
            }
            thread::sleep(PAUSE);
        }
    }

    /// What the node has shown last, and what the process has to tell now.
    fn metrics(&self) -> String {
        let of_node = self.metrics.lock().map(|text| text.clone()).unwrap_or_default();
        let of_process =
            metrics::of_process(&self.opening.name, &self.places.count(), &self.budget.times, &self.opening.folder);
        of_node + &of_process
    }
}

impl<'a> Asker<'a> {
    fn new(door: &Door, number: u64, line: &'a Line, channel: Channel<&'a Line>, place: &'a Place) -> Asker<'a> {
        let account = Arc::new(Account::new(&door.budget));
        Asker { number, line, channel, place, account, may_operate: false, writer: None }
    }

    /// Hands over what it asks, until it goes, or asks what is too long.
    fn serve(mut self, door: &Door) {
        let channel = self.channel.beside(self.line);
        read_pieces(channel, MOST_REQUEST, |requests| self.take(door, requests));
        if self.writer.take().is_some() {
            self.account.close();
            door.events.send(Event::ClientDown(self.number));
        }
    }

    /// Tells who asks in clear that it has to prove itself.
    fn refuse(mut self) -> Result<(), Refused> {
        let mut out = Vec::new();
        read_pieces(self.channel.beside(self.line), MOST_REQUEST, |requests| {
            let asked = framed(requests).next().and_then(Request::read);
            Reply::bare(IN_CLEAR, asked.map_or(0, |request| request.number)).put(&mut out);
            false
        });
        self.channel.write_all(&out)?;
        self.line.stream().shutdown(Shutdown::Write)?;
        Err(NotLetIn::InClear.into())
    }

    /// Hands whole requests over. Says whether it goes on.
    fn take(&mut self, door: &Door, requests: &[u8]) -> bool {
        (self.writer.is_some() || self.begin(door)) && self.give(door, requests)
    }

    /// The first request has come: it gets a client's place, and who writes its answers. Says whether there is any.
    fn begin(&mut self, door: &Door) -> bool {
        if !self.place.prove_client(&self.account) || self.line.lift().is_err() {
            return false;
        }
        let channel = self.channel.beside(Out(Arc::clone(self.line.stream())));
        let Ok(writer) = Writer::to_client(channel, Arc::clone(&self.account), self.may_operate) else { return false };
        self.writer = Some(writer.clone());
        door.events.send(Event::ClientUp(self.number, writer))
    }

    /// Hands requests over, in parts, as far as may be under way; the state is answered here. Says whether somebody is
    /// there to take them.
    fn give(&mut self, door: &Door, requests: &[u8]) -> bool {
        let part = part_of(framed(requests).take(AT_HAND).count(), door.events.keeps_others());
        let mut rest = requests;
        while let Some(first) = framed(rest).next() {
            let mut length = 4 + first.len();
            if Op::Status.is_of(first) {
                if !self.answer_status(door, first) {
                    return false;
                }
            } else {
                let wanted = framed(rest).take(part).take_while(|request| !Op::Status.is_of(request)).count();
                let Some(count) = self.account.take(wanted) else { return false };
                length = framed(rest).take(count).map(|request| 4 + request.len()).sum();
                if !door.events.send(Event::Client(self.number, rest[..length].to_vec())) {
                    return false;
                }
            }
            rest = &rest[length..];
        }
        true
    }

    fn answer_status(&mut self, door: &Door, request: &[u8]) -> bool {
        let Some(request) = Request::read(request) else { return false };
        let (Some(_), Some(writer)) = (self.account.take_alone(), &self.writer) else { return false };
        let mut out = Vec::new();
        Reply { code: DONE, number: request.number, version: 0, value: door.status().into_bytes() }.put(&mut out);
        writer.send(out);
        true
    }
}

/// Hands the frames of whole batches over, of each up to the first whose sum is wrong. Says whether somebody is there to
/// take them.
fn give(events: &EventSender, number: u64, batches: &[u8]) -> bool {
    let mut parted = Parted::default();
    framed(batches).for_each(|batch| parted.add(batch));
    let Parted { roll, urgent, others, is_closing } = parted;
    let of_others = if is_closing { Event::Closing } else { Event::Peer };
    let parts = [(roll, Event::Roll as fn(u64, Vec<u8>) -> Event), (urgent, Event::Urgent), (others, of_others)];
    parts.into_iter().all(|(part, event)| part.is_empty() || events.send(event(number, part)))
}
