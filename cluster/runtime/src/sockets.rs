//! Processes that reach one another by TCP: peers under TLS 1.3, by a secret that they share, and callers in clear, who
//! prove nothing: keep those to a network of one's own.

use crate::line::{self, Line, Out};
use crate::service::{Caller, Event, Transport};
use sevunthi_client::hello::{self, Hello, NotLetIn, Refused, Role};
use sevunthi_client::security::{self, Acceptor};
use sevunthi_client::{Channel, SecretFile};
use std::collections::HashMap;
use std::io::{self, ErrorKind, Read, Write};
use std::net::{Shutdown, SocketAddr, TcpListener, TcpStream};
use std::sync::atomic::{AtomicU64, Ordering};
use std::sync::mpsc::{self, Receiver, Sender, SyncSender};
use std::sync::{Arc, Mutex, PoisonError};
use std::thread;
use std::time::Duration;

/// No batch is longer, and no request.
const MOST_BATCH: usize = 256 << 20;
const MOST_REQUEST: usize = 1 << 16;

/// So many batches, or answers, wait for one connection; what is more is lost.
const QUEUE: usize = 4096;

const CONNECTING: Duration = Duration::from_millis(500);
const PAUSE: Duration = Duration::from_millis(20);

/// Who connects has so long to say what it is, and to prove it.
const PATIENCE: Duration = Duration::from_secs(5);

type Callers = Arc<Mutex<HashMap<u64, SyncSender<Vec<u8>>>>>;

/// A transport by TCP.
pub struct Sockets {
    peers: Vec<SyncSender<Vec<u8>>>,
    callers: Callers,
}

impl Sockets {
    /// Listens at the address of this place, and reaches the others at theirs: hosts by their index, and then the
    /// coordinator. All have the same secret, which nobody else has.
    ///
    /// # Errors
    ///
    /// That there is no secret, or the address can't be listened at.
    pub fn open(addresses: &[SocketAddr], place: usize, secret: &SecretFile) -> io::Result<(Sockets, Receiver<Event>)> {
        secret.shown().map_err(io::Error::other)?;
        let listener = TcpListener::bind(addresses.get(place).ok_or(ErrorKind::InvalidInput)?)?;
        let from = u8::try_from(place).map_err(|_| ErrorKind::InvalidInput)?;
        let acceptor = Acceptor::new(from, vec![(Role::Peer, secret.clone())])?;
        let ((events, came), callers) = (mpsc::channel(), Callers::default());
        let door = Arc::new(Door { events, callers: Arc::clone(&callers), place: from, acceptor });
        thread::spawn(move || door.listen(&listener));
        let peers = (0_u8..).zip(addresses).map(|(to, address)| {
            let (sender, queue) = mpsc::sync_channel(QUEUE);
            let dialer =
                Dialer { address: *address, hello: Hello { role: Role::Peer, from, to }, secret: secret.clone() };
            thread::spawn(move || dialer.pump(&queue));
            sender
        });
        Ok((Sockets { peers: peers.collect(), callers }, came))
    }
}

impl Transport for Sockets {
    fn send(&mut self, place: usize, batch: &[u8]) {
        if let Some(peer) = self.peers.get(place) {
            // where too much waits it is lost, as any message may be
            let _ = peer.try_send(piece(batch));
        }
    }

    fn answer(&mut self, caller: Caller, answer: &[u8]) {
        let callers = self.callers.lock().unwrap_or_else(PoisonError::into_inner);
        if let Some(to) = callers.get(&caller.0) {
            let _ = to.try_send(piece(answer));
        }
    }
}

/// Who connects to a peer.
struct Dialer {
    address: SocketAddr,
    hello: Hello,
    secret: SecretFile,
}

impl Dialer {
    /// Writes what is queued for a peer. What a connection had that breaks is lost, and what waits while none comes
    /// about.
    fn pump(&self, queue: &Receiver<Vec<u8>>) {
        let mut channel: Option<Channel<TcpStream>> = None;
        for bytes in queue {
            if channel.as_ref().is_none_or(Channel::is_worn) {
                channel = self.connect().ok();
            }
            match &mut channel {
                Some(open) => {
                    if open.write_all(&bytes).is_err() {
                        channel = None;
                    }
                }
                None => thread::sleep(PAUSE),
            }
        }
    }

    fn connect(&self) -> Result<Channel<TcpStream>, Refused> {
        let stream = TcpStream::connect_timeout(&self.address, CONNECTING)?;
        stream.set_nodelay(true)?;
        stream.set_write_timeout(Some(CONNECTING))?;
        let secret = self.secret.shown().map_err(io::Error::other)?;
        let mut channel = security::connect(stream, self.hello.role, self.hello.to, &secret, CONNECTING)?;
        channel.stream().set_read_timeout(Some(CONNECTING))?;
        hello::say(&mut channel, self.hello)?;
        Ok(channel)
    }
}

/// Who comes.
struct Door {
    events: Sender<Event>,
    callers: Callers,
    place: u8,
    acceptor: Acceptor,
}

static CONNECTIONS: AtomicU64 = AtomicU64::new(0);

impl Door {
    fn listen(self: &Arc<Door>, listener: &TcpListener) {
        for stream in listener.incoming().flatten() {
            let door = Arc::clone(self);
            thread::spawn(move || {
                let number = CONNECTIONS.fetch_add(1, Ordering::Relaxed);
                // a connection ends with whatever is wrong with it
                let _ = door.serve(number, stream);
                let mut callers = door.callers.lock().unwrap_or_else(PoisonError::into_inner);
                callers.remove(&number);
                drop(callers);
                let _ = door.events.send(Event::Ended(number));
            });
        }
    }

    fn serve(&self, number: u64, stream: TcpStream) -> Result<(), Refused> {
        stream.set_nodelay(true)?;
        let line = Line::new(Arc::new(stream), PATIENCE);
        let Some(first) = line.first()? else { return Ok(()) };
        let (mut channel, proved) = line.join(first, Some(&self.acceptor))?;
        let kind = line::byte(&mut channel)?;
        if proved.is_none() && kind == Role::Client.code() {
            line.lift()?;
            return Ok(self.serve_caller(number, &line, channel)?);
        }
        if kind != Role::Peer.code() {
            return Err(NotLetIn::Secret.into());
        }
        let version = line::byte(&mut channel)?;
        line::answer(&mut channel, Role::Peer, version, self.place, proved == Some(Role::Peer))?;
        line.lift()?;
        loop {
            self.hand_over(Event::Batch(number, read_piece(&mut channel, MOST_BATCH)?))?;
        }
    }

    fn serve_caller(&self, number: u64, line: &Line, mut channel: Channel<&Line>) -> io::Result<()> {
        let (to, answers) = mpsc::sync_channel::<Vec<u8>>(QUEUE);
        self.callers.lock().unwrap_or_else(PoisonError::into_inner).insert(number, to);
        let mut out = Out(Arc::clone(line.stream()));
        thread::spawn(move || {
            let _ = answers.iter().try_for_each(|answer| out.write_all(&answer));
            let _ = out.0.shutdown(Shutdown::Both);
        });
        loop {
            let request = read_piece(&mut channel, MOST_REQUEST)?;
            self.hand_over(Event::Ask(Caller(number), request))?;
        }
    }

    fn hand_over(&self, event: Event) -> io::Result<()> {
        self.events.send(event).map_err(|_| ErrorKind::BrokenPipe.into())
    }
}

/// Bytes behind their length.
fn piece(bytes: &[u8]) -> Vec<u8> {
    [&(bytes.len() as u32).to_le_bytes()[..], bytes].concat()
}

/// What stands behind its length.
fn read_piece(from: &mut impl Read, most: usize) -> io::Result<Vec<u8>> {
    let mut length = [0; 4];
    from.read_exact(&mut length)?;
    let length = u32::from_le_bytes(length) as usize;
    if most < length {
        return Err(ErrorKind::InvalidData.into());
    }
    let mut bytes = vec![0; length];
    from.read_exact(&mut bytes)?;
    Ok(bytes)
}

/// A caller's side of such a connection: asks, and waits for answers.
pub struct Call {
    stream: TcpStream,
}

impl Call {
    /// A connection to the process that listens there, which waits so long for an answer.
    ///
    /// # Errors
    ///
    /// That nobody is reached.
    pub fn open(address: SocketAddr, wait: Duration) -> io::Result<Call> {
        let mut stream = TcpStream::connect_timeout(&address, wait)?;
        stream.set_nodelay(true)?;
        stream.set_read_timeout(Some(wait))?;
        stream.write_all(&[Role::Client.code()])?;
        Ok(Call { stream })
    }

    /// Asks, and gives the next answer. After an error the connection is of no more use: what was asked may have been
    /// done, or may still be.
    ///
    /// # Errors
    ///
    /// That no answer has come.
    pub fn ask(&mut self, request: &[u8]) -> io::Result<Vec<u8>> {
        self.stream.write_all(&piece(request))?;
        read_piece(&mut self.stream, MOST_BATCH)
    }
}

#[cfg(test)]
mod tests {
    use super::*;
    use sevunthi_client::hello::{ANSWER, IN_CLEAR, VERSION};
    use std::fs;

    const WAIT: Duration = Duration::from_secs(5);

    #[test]
    fn peers_prove_themselves_and_callers_are_answered() -> io::Result<()> {
        let file = std::env::temp_dir().join(format!("sevunthi-sockets-{}", std::process::id()));
        let another = file.with_extension("another");
        fs::write(&file, [7; 32])?;
        fs::write(&another, [8; 32])?;
        let free = || TcpListener::bind("127.0.0.1:0")?.local_addr();
        let addresses = [free()?, free()?, free()?];
        let (mut one, _) = Sockets::open(&addresses, 0, &SecretFile::new(&file))?;
        let (mut other, came) = Sockets::open(&addresses, 1, &SecretFile::new(&file))?;
        let (mut stranger, _) = Sockets::open(&addresses, 2, &SecretFile::new(&another))?;
        let next = || came.recv_timeout(WAIT).expect("something comes");

        stranger.send(1, b"forged");
        assert!(matches!(next(), Event::Ended(_)));
        let mut in_clear = TcpStream::connect(addresses[1])?;
        in_clear.write_all(&Hello { role: Role::Peer, from: 0, to: 1 }.code())?;
        let mut said = Vec::new();
        in_clear.read_to_end(&mut said)?;
        assert_eq!(said, [ANSWER, VERSION, IN_CLEAR]);
        assert!(matches!(next(), Event::Ended(_)));
        one.send(1, b"true");
        assert!(matches!(next(), Event::Batch(_, batch) if batch == b"true"));

        let caller = thread::spawn(move || Call::open(addresses[1], WAIT)?.ask(b"what"));
        let Event::Ask(who, request) = next() else { panic!("nobody asks") };
        assert_eq!(request, b"what");
        other.answer(who, b"this");
        assert_eq!(caller.join().expect("it has not panicked")?, b"this");
        fs::remove_file(another)?;
        fs::remove_file(file)
    }
}
