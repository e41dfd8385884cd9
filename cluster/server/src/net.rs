//! Bytes that leave: each connection is written by a thread of its own. What a peer takes at once the node's thread
//! writes. And pieces that come.

use crate::budget::Account;
use crate::dialer::Dialer;
use crate::line::Out;
use crate::wire::MOST;
use sevunthi::message::{framed, u32_at};
use sevunthi_client::Channel;
use std::io::{self, ErrorKind, Read, Write};
use std::net::{Shutdown, TcpStream};
use std::sync::atomic::{AtomicBool, AtomicUsize, Ordering};
use std::sync::mpsc::{Receiver, Sender, channel};
use std::sync::{Arc, Mutex};
use std::thread;

/// A batch that has so many bytes is sent before more is added, so that who takes it is soon done with it.
const LONG: usize = 1 << 18;

/// What has fewer bytes is written by the node's thread, where a peer's connection takes it at once.
const SHORT: usize = 1 << 16;

/// What is written to a connection by a thread of its own.
#[derive(Clone)]
pub struct Writer {
    to: Sender<Vec<u8>>,
    queued: Arc<AtomicUsize>,
    /// Whether who reads there has proved that it operates the cluster.
    pub may_operate: bool,
}

impl Writer {
    /// Queues these bytes. Where too much is queued they are lost, as any message may be.
    pub fn send(&self, bytes: Vec<u8>) {
        if bytes.is_empty() || MOST < self.queued.load(Ordering::Relaxed) {
            return;
        }
        self.push(bytes);
    }

    /// Queues these bytes, which count until the thread is done with them.
    fn push(&self, bytes: Vec<u8>) {
        self.queued.fetch_add(weight(bytes.capacity()), Ordering::Relaxed);
        let _ = self.to.send(bytes);
    }

    fn new() -> (Writer, Receiver<Vec<u8>>, Arc<AtomicUsize>) {
        let (to, from) = channel();
        let queued = Arc::new(AtomicUsize::new(0));
        (Writer { to, queued: Arc::clone(&queued), may_operate: false }, from, queued)
    }

    /// A writer to a client, which has these requests under way. Where it does not read for as long as the connection
    /// waits it is let go.
    ///
    /// # Errors
    ///
    /// That no thread can be made.
    pub fn to_client(mut channel: Channel<Out>, account: Arc<Account>, may_operate: bool) -> io::Result<Writer> {
        let (writer, from, queued) = Writer::new();
        thread::Builder::new().stack_size(STACK).spawn(move || {
            while let Some((answers, weight)) = all_queued(&from, LONG) {
                queued.fetch_sub(weight, Ordering::Relaxed);
                if channel.write_all(&answers).is_err() {
                    let _ = channel.stream().0.shutdown(Shutdown::Both);
                    return account.close();
                }
                account.give_back(framed(&answers).count());
            }
        })?;
        Ok(Writer { may_operate, ..writer })
    }
}

/// The thread of a writer has little on its stack.
const STACK: usize = 256 << 10;

/// How much bytes in a queue count that take so much room: what is empty counts too.
fn weight(room: usize) -> usize {
    room + 1
}

/// Waits for what is queued, and takes all of it, or so much, with how much it counts.
fn all_queued(from: &Receiver<Vec<u8>>, most: usize) -> Option<(Vec<u8>, usize)> {
    let mut bytes = from.recv().ok()?;
    let mut count = weight(bytes.capacity());
    while bytes.len() < most {
        let Ok(more) = from.try_recv() else { break };
        count += weight(more.capacity());
        bytes.extend_from_slice(&more);
    }
    Some((bytes, count))
}

/// A writer to a peer. While nothing is queued the node's thread writes, as far as the connection takes it at once; all
/// else is left to a thread, which connects, and may wait.
pub struct PeerWriter {
    writer: Writer,
    link: Arc<Mutex<Link>>,
    is_open: Arc<AtomicBool>,
}

/// A connection to a peer, if there is one; its last batch as it leaves, and how many bytes of that are written. The
/// connection does not block, but while the thread finishes a batch. While something is queued only the thread uses
/// this.
#[derive(Default)]
struct Link {
    open: Option<Channel<TcpStream>>,
    /// The last batch, before it was sealed.
    plain: Vec<u8>,
    batch: Vec<u8>,
    written: usize,
}

impl PeerWriter {
    /// A writer to this peer, who is connected to when there is something to write. What a broken connection had is
    /// lost, and so is all that waits while none comes about.
    pub fn new(mut dialer: Dialer) -> PeerWriter {
        let (writer, from, queued) = Writer::new();
        let link = Arc::new(Mutex::new(Link::default()));
        let is_open = Arc::new(AtomicBool::new(false));
        let (shared, opened) = (Arc::clone(&link), Arc::clone(&is_open));
        thread::spawn(move || {
            while let Some((frames, mut weight)) = all_queued(&from, LONG) {
                let Ok(mut link) = shared.lock() else { return };
                link.write_all(&frames, &mut dialer);
                if link.open.is_none() {
                    weight += from.try_iter().map(|bytes| self::weight(bytes.capacity())).sum::<usize>();
                }
                opened.store(link.open.is_some(), Ordering::Relaxed);
                drop(link);
                queued.fetch_sub(weight, Ordering::Release);
            }
        });
        PeerWriter { writer, link, is_open }
    }

    /// Whether there was a connection when something was last queued.
    pub fn is_open(&self) -> bool {
        self.is_open.load(Ordering::Relaxed)
    }

    /// Writes these frames, or queues them. Room for the next ones is left in their place.
    pub fn send(&self, frames: &mut Vec<u8>) {
        if !frames.is_empty()
            && frames.len() < SHORT
            && self.writer.queued.load(Ordering::Acquire) == 0
            && let Ok(mut link) = self.link.lock()
            && link.open.as_ref().is_some_and(|open| !open.is_worn())
        {
            if !link.write_some(frames) {
                // what is left of the batch is the thread's
                self.writer.push(Vec::new());
            }
            if link.open.is_none() {
                self.is_open.store(false, Ordering::Relaxed);
            }
            frames.clear();
        } else {
            let next = Vec::with_capacity(frames.len().min(SHORT));
            self.writer.send(std::mem::replace(frames, next));
        }
    }
}

impl Link {
    /// Makes a batch of these frames, as it leaves.
    fn begin(&mut self, frames: &[u8]) {
        self.batch.clear();
        self.written = 0;
        self.plain.clear();
        self.plain.extend_from_slice(&(frames.len() as u32).to_le_bytes());
        self.plain.extend_from_slice(frames);
        if let Some(open) = &self.open
            && open.seal(&self.plain, &mut self.batch).is_err()
        {
            self.open = None;
        }
    }

    /// Writes what the connection takes of these frames at once. Says whether nothing is left.
    fn write_some(&mut self, frames: &[u8]) -> bool {
        self.begin(frames);
        let Some(open) = &self.open else { return true };
        match (&mut open.stream()).write(&self.batch) {
            Ok(count) => self.written = count,
            Err(error) if matches!(error.kind(), ErrorKind::WouldBlock | ErrorKind::Interrupted) => {}
            Err(_) => self.open = None,
        }
        self.open.is_none() || self.written == self.batch.len()
    }

    /// Writes what is left of the batch, and then these frames, to a new connection where there is none, or its keys
    /// are worn.
    fn write_all(&mut self, frames: &[u8], dialer: &mut Dialer) {
        self.finish();
        if frames.is_empty() {
            return;
        }
        if self.open.as_ref().is_none_or(Channel::is_worn) {
            self.open = dialer.connect();
        }
        self.begin(frames);
        self.finish();
    }

    /// Writes what is left of the batch, and waits for that.
    fn finish(&mut self) {
        if let Some(open) = &self.open
            && self.written < self.batch.len()
        {
            let mut stream = open.stream();
            let written = stream.set_nonblocking(false).and_then(|()| stream.write_all(&self.batch[self.written..]));
            if written.and_then(|()| stream.set_nonblocking(true)).is_err() {
                self.open = None;
            }
        }
        for room in [&mut self.plain, &mut self.batch] {
            room.clear();
            room.shrink_to(LONG);
        }
        self.written = 0;
    }
}

/// Reads pieces that begin with their length in four bytes, and hands over as many whole ones as there are, until one
/// is longer than `most`, or nobody takes them.
pub fn read_pieces(mut stream: impl Read, most: usize, mut give: impl FnMut(&[u8]) -> bool) {
    let (mut buffer, mut filled) = (vec![0; 64 << 10], 0);
    loop {
        if filled == buffer.len() {
            buffer.resize(2 * filled, 0);
        }
        match stream.read(&mut buffer[filled..]) {
            Ok(0) | Err(_) => return,
            Ok(count) => filled += count,
        }
        let Some(whole) = whole(&buffer[..filled], most) else { return };
        if 0 < whole {
            if !give(&buffer[..whole]) {
                return;
            }
            buffer.copy_within(whole..filled, 0);
            filled -= whole;
        }
    }
}

/// How many bytes the whole pieces at the front take; none where one is too long.
fn whole(bytes: &[u8], most: usize) -> Option<usize> {
    let mut at = 0;
    while let Some(length) = u32_at(bytes, at) {
        if most < length as usize {
            return None;
        }
        let next = at + 4 + length as usize;
        if bytes.len() < next {
            break;
        }
        at = next;
    }
    Some(at)
}

#[cfg(test)]
mod tests {
    use super::*;
    use crate::client::Target;
    use crate::hello::{Hello, Role, VERSION};
    use crate::line::{self, Line};
    use crate::members::Members;
    use crate::secret::SecretFile;
    use crate::wire::{frames, put_frame};
    use sevunthi_client::security::Acceptor;
    use std::fs;
    use std::net::TcpListener;
    use std::time::Duration;

    /// The clocks of frames, as who has place 1 hears them, who reads nothing at first.
    fn hear(listener: &TcpListener, acceptor: Option<&Acceptor>, count: usize) -> io::Result<Vec<u64>> {
        let told = |refused: crate::hello::Refused| io::Error::other(refused.to_string());
        let line = Line::new(Arc::new(listener.accept()?.0), Duration::from_secs(5));
        let (mut channel, proved) = line.join(line.first()?.unwrap_or_default(), acceptor).map_err(told)?;
        assert_eq!(proved, acceptor.map(|_| Role::Peer));
        assert_eq!((line::byte(&mut channel)?, line::byte(&mut channel)?), (b'P', VERSION));
        line::answer(&mut channel, Role::Peer, VERSION, 1, true).map_err(told)?;
        line.lift()?;
        thread::sleep(Duration::from_millis(300));
        let mut clocks = Vec::new();
        read_pieces(channel, MOST, |batches| {
            clocks.extend(framed(batches).flat_map(frames).map(|(clock, _)| clock));
            clocks.len() < count
        });
        Ok(clocks)
    }

    /// More than a connection holds.
    #[test]
    fn frames_come_whole_and_in_order_from_either_thread() -> io::Result<()> {
        let file = std::env::temp_dir().join(format!("sevunthi-frames-{}", std::process::id()));
        fs::write(&file, [7; 32])?;
        for secret in [None, Some(SecretFile::new(&file))] {
            let listener = TcpListener::bind("127.0.0.1:0")?;
            let hello = Hello { role: Role::Peer, from: 0, to: 1 };
            let listed = vec![String::new(), listener.local_addr()?.to_string()];
            let members = Members::new(Target { hosts: 2, listed, ..Target::default() });
            let dialer = Dialer::new(hello, members, secret.clone());
            let (writer, count) = (PeerWriter::new(dialer), 4000);
            let acceptor = secret.map(|file| Acceptor::new(1, vec![(Role::Peer, file)])).transpose()?;
            let reader = thread::spawn(move || hear(&listener, acceptor.as_ref(), count));
            let (message, mut out) = (vec![1; 10_000], Vec::new());
            for clock in 0..count as u64 {
                put_frame(clock, &message, &mut out);
                writer.send(&mut out);
                assert!(out.is_empty());
                if clock % 1000 == 0 || clock + 20 > count as u64 {
                    // the thread connects, or has caught up
                    thread::sleep(Duration::from_millis(50));
                }
            }
            drop(writer);
            let clocks = reader.join().expect("it has not panicked")?;
            assert!(clocks.into_iter().eq(0..count as u64));
        }
        fs::remove_file(file)
    }

    /// Gives so many bytes at a time.
    struct Slowly<'a>(&'a [u8], usize);

    impl Read for Slowly<'_> {
        fn read(&mut self, to: &mut [u8]) -> io::Result<usize> {
            let count = self.1.min(to.len()).min(self.0.len());
            to[..count].copy_from_slice(&self.0[..count]);
            self.0 = &self.0[count..];
            Ok(count)
        }
    }

    #[test]
    fn pieces_come_whole_and_in_order() {
        let mut bytes = Vec::new();
        for length in [0, 1, 5, 200_000, 3] {
            bytes.extend_from_slice(&u32::to_le_bytes(length));
            bytes.extend(std::iter::repeat_n(length as u8, length as usize));
        }
        for step in [1, 7, 4096, 1 << 20] {
            let mut taken = Vec::new();
            read_pieces(Slowly(&bytes, step), 200_000, |piece| {
                taken.extend_from_slice(piece);
                true
            });
            assert!(taken == bytes, "by {step}");
            let mut taken = Vec::new();
            read_pieces(Slowly(&bytes, step), 199_999, |piece| {
                taken.extend_from_slice(piece);
                true
            });
            assert!(taken.len() <= 18 && bytes.starts_with(&taken), "by {step}");
        }
    }
}
