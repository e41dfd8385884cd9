//! A connection to one host, on which many requests are under way at once.

use crate::bytes::u32_at;
use crate::channel::Channel;
use crate::client::{check, judge};
use crate::dial::connect;
use crate::error::{Error, Found};
use crate::hello::Refused;
use crate::protocol::{Op, Reply, Request};
use crate::target::Target;
use std::collections::VecDeque;
use std::io::{self, ErrorKind, Read, Write};
use std::net::TcpStream;
use std::time::Duration;

/// How long answers are waited for, unless it is said otherwise.
const WAIT: Duration = Duration::from_secs(3);

/// There is room for so many bytes of answers at once, at least.
const ROOM: usize = 1 << 16;

/// No answer is longer: the state of a process is the longest.
const MOST_ANSWER: usize = 64 << 20;

/// What has become of the request of this number.
#[derive(Clone, Debug, PartialEq, Eq)]
pub struct Answer {
    /// The request, as [`Connection::put`] and the like have numbered it.
    pub number: u64,
    /// What has become of it.
    pub said: Result<Found, Error>,
}

/// A connection to one host, on which many requests are under way at once: 1,024 of all clients of a host, in equal
/// parts; what is more waits. A request of a key that the host does not own is refused. Nothing is asked again by
/// itself. Once the connection is lost, all that is under way is unknown, and it is of no more use.
///
/// ```no_run
/// use sevunthi_client::{Client, Error, Target};
///
/// let mut connection = Client::new(Target::on("127.0.0.1", 7300, 4)).connect(1, 0)?;
/// (0..100).for_each(|key| _ = connection.put(1, key, b"hello"));
/// let mut answers = Vec::new();
/// while 0 < connection.under_way() {
///     connection.wait(&mut answers).map_err(|_| Error::Unknown)?;
/// }
/// assert_eq!(answers.len(), 100);
/// # Ok::<(), Error>(())
/// ```
pub struct Connection {
    channel: Channel<TcpStream>,
    out: Vec<u8>,
    came: Came,
    asked: Asked,
    /// What was answered here.
    said: Vec<Answer>,
}

impl Connection {
    /// A connection to this host.
    ///
    /// # Errors
    ///
    /// Why it is not reached.
    pub fn open(target: &Target, host: u8) -> Result<Connection, Refused> {
        Ok(Connection::over(connect(target, host)?)?)
    }

    /// The same over a stream on which it was said that this is a client, in clear.
    ///
    /// # Errors
    ///
    /// What the stream says.
    pub fn of(stream: TcpStream) -> io::Result<Connection> {
        Connection::over(Channel::plain(stream))
    }

    fn over(channel: Channel<TcpStream>) -> io::Result<Connection> {
        channel.stream().set_read_timeout(Some(WAIT))?;
        channel.stream().set_write_timeout(Some(WAIT))?;
        Ok(Connection {
            channel,
            out: Vec::new(),
            came: Came { room: vec![0; 2 * ROOM], from: 0, to: 0 },
            asked: Asked::default(),
            said: Vec::new(),
        })
    }

    /// Waits so long for the next answers.
    ///
    /// # Errors
    ///
    /// What the stream says.
    pub fn set_wait(&mut self, wait: Duration) -> io::Result<()> {
        self.channel.stream().set_read_timeout(Some(wait))?;
        self.channel.stream().set_write_timeout(Some(wait))
    }

    /// Asks for a value to be written, and gives the request's number: 0, 1, 2 and so on. It leaves with the next
    /// [`wait`](Connection::wait), or [`send`](Connection::send).
    pub fn put(&mut self, table: u32, key: u64, value: &[u8]) -> u64 {
        self.ask(Op::Put, table, key, value)
    }

    /// Asks for a value to be deleted.
    pub fn delete(&mut self, table: u32, key: u64) -> u64 {
        self.ask(Op::Delete, table, key, &[])
    }

    /// Asks for a value to be written, if the version of the key's newest write is this one.
    pub fn put_if(&mut self, table: u32, key: u64, version: u64, value: &[u8]) -> u64 {
        match check(key, value) {
            Ok(()) => self.ask(Op::PutIf, table, key, &[&version.to_le_bytes(), value].concat()),
            Err(_) => self.ask(Op::Put, table, key, value),
        }
    }

    /// Asks for a value to be written, if there is none.
    pub fn put_if_absent(&mut self, table: u32, key: u64, value: &[u8]) -> u64 {
        self.ask(Op::PutIfAbsent, table, key, value)
    }

    /// Asks for a value to be deleted, if the version of the key's newest write is this one.
    pub fn delete_if(&mut self, table: u32, key: u64, version: u64) -> u64 {
        self.ask(Op::DeleteIf, table, key, &version.to_le_bytes())
    }

    /// Asks for a value, confirmed.
    pub fn get(&mut self, table: u32, key: u64) -> u64 {
        self.ask(Op::Get, table, key, &[])
    }

    fn ask(&mut self, op: Op, table: u32, key: u64, value: &[u8]) -> u64 {
        let number = self.asked.add(op);
        match check(key, if op == Op::PutIf { &[] } else { value }) {
            Ok(()) => Request { op, number, table, key, value: value.into() }.put(&mut self.out),
            Err(error) => {
                self.asked.take(number);
                self.said.push(Answer { number, said: Err(error) });
            }
        }
        number
    }

    /// How many requests have no answer yet.
    pub fn under_way(&self) -> usize {
        self.asked.open + self.said.len()
    }

    /// The numbers of those: what is unknown once the connection is lost.
    pub fn numbers_under_way(&self) -> impl Iterator<Item = u64> {
        self.asked.numbers()
    }

    /// What waits leaves.
    ///
    /// # Errors
    ///
    /// That the connection is lost.
    pub fn send(&mut self) -> io::Result<()> {
        self.channel.write_all(&self.out)?;
        self.out.clear();
        Ok(())
    }

    /// What waits leaves, and the answers that come next are added: at least one, where something is under way.
    ///
    /// # Errors
    ///
    /// That the connection is lost, or the host has not answered in time, or has answered what is no answer. All that
    /// is under way is unknown then.
    pub fn wait(&mut self, answers: &mut Vec<Answer>) -> io::Result<()> {
        self.send()?;
        let before = answers.len();
        answers.append(&mut self.said);
        while answers.len() == before && 0 < self.asked.open {
            self.came.read(&mut self.channel)?;
            self.take(answers)?;
        }
        Ok(())
    }

    fn take(&mut self, answers: &mut Vec<Answer>) -> io::Result<()> {
        while let Some(piece) = self.came.next()? {
            let reply = Reply::read(piece).ok_or(ErrorKind::InvalidData)?;
            let number = reply.number;
            if let Some(op) = self.asked.take(number) {
                answers.push(Answer { number, said: judge(op, reply) });
            }
        }
        Ok(())
    }
}

/// Requests that are not answered yet, by their numbers. They are answered nearly in order.
#[derive(Default)]
struct Asked {
    /// How many were taken away at the front.
    first: u64,
    ops: VecDeque<Option<Op>>,
    open: usize,
}

impl Asked {
    /// The number of the next one.
    fn add(&mut self, op: Op) -> u64 {
        self.ops.push_back(Some(op));
        self.open += 1;
        self.first + self.ops.len() as u64 - 1
    }

    /// What the request of this number asked, which is answered now.
    fn take(&mut self, number: u64) -> Option<Op> {
        let op = self.ops.get_mut(usize::try_from(number.checked_sub(self.first)?).ok()?)?.take();
        self.open -= usize::from(op.is_some());
        while self.ops.front().is_some_and(Option::is_none) {
            self.ops.pop_front();
            self.first += 1;
        }
        op
    }

    fn numbers(&self) -> impl Iterator<Item = u64> {
        let open = self.ops.iter().zip(self.first..).filter(|(op, _)| op.is_some());
        open.map(|(_, number)| number)
    }
}

/// What has come and was not taken yet, with room behind it.
struct Came {
    room: Vec<u8>,
    from: usize,
    to: usize,
}

impl Came {
    /// Adds what comes.
    fn read(&mut self, stream: &mut impl Read) -> io::Result<()> {
        self.room.copy_within(self.from..self.to, 0);
        (self.from, self.to) = (0, self.to - self.from);
        if self.room.len() < self.to + ROOM {
            self.room.resize(2 * self.room.len(), 0);
        }
        match stream.read(&mut self.room[self.to..])? {
            0 => Err(ErrorKind::UnexpectedEof.into()),
            count => {
                self.to += count;
                Ok(())
            }
        }
    }

    /// The next whole answer, which is taken away.
    fn next(&mut self) -> io::Result<Option<&[u8]>> {
        let came = &self.room[self.from..self.to];
        let Some(length) = u32_at(came, 0).map(|length| length as usize) else { return Ok(None) };
        if MOST_ANSWER < length {
            return Err(ErrorKind::InvalidData.into());
        }
        let piece = came.get(4..4 + length);
        self.from += piece.map_or(0, |_| 4 + length);
        Ok(piece)
    }
}

#[cfg(test)]
mod tests {
    use super::*;
    use crate::protocol::{DONE, NO_VALUE, UNKNOWN};
    use crate::refusal::Refusal;
    use std::net::TcpListener;

    /// A connection, and its other side.
    fn both() -> io::Result<(Connection, TcpStream)> {
        let listener = TcpListener::bind("127.0.0.1:0")?;
        let mut connection = Connection::of(TcpStream::connect(listener.local_addr()?)?)?;
        connection.set_wait(Duration::from_secs(5))?;
        Ok((connection, listener.accept()?.0))
    }

    #[test]
    fn answers_are_those_of_their_requests_in_any_order() -> io::Result<()> {
        let (mut connection, mut server) = both()?;
        let numbers = [connection.put(1, 5, b"a"), connection.get(1, 5), connection.get(1, 6), connection.delete(1, 5)];
        assert_eq!((numbers, connection.under_way()), ([0, 1, 2, 3], 4));
        let mut out = Vec::new();
        for (code, number, value) in
            [(NO_VALUE, 2, &b""[..]), (DONE, 1, b"a"), (DONE, 0, b""), (2, 3, b""), (DONE, 9, b"")]
        {
            Reply { code, number, version: 7, value: value.to_vec() }.put(&mut out);
        }
        server.write_all(&out[..30])?;
        let mut answers = Vec::new();
        connection.wait(&mut answers)?;
        server.write_all(&out[30..])?;
        while 0 < connection.under_way() {
            connection.wait(&mut answers)?;
        }
        let found = |value: Option<&[u8]>| Ok(Found { version: 7, value: value.map(<[u8]>::to_vec) });
        let said =
            [(2, found(None)), (1, found(Some(b"a"))), (0, found(None)), (3, Err(Error::Refused(Refusal::NotOwner)))];
        assert_eq!(answers, said.map(|(number, said)| Answer { number, said }));
        Ok(())
    }

    #[test]
    fn what_is_under_way_when_the_host_goes_is_unknown() -> io::Result<()> {
        let (mut connection, mut server) = both()?;
        (0..4).for_each(|key| _ = connection.put(1, key, b"a"));
        let mut out = Vec::new();
        Reply::bare(DONE, 1).put(&mut out);
        Reply::bare(UNKNOWN, 3).put(&mut out);
        server.write_all(&out)?;
        drop(server);
        let mut answers = Vec::new();
        while connection.wait(&mut answers).is_ok() {}
        assert_eq!(answers.len(), 2);
        assert_eq!(answers[1], Answer { number: 3, said: Err(Error::Unknown) });
        assert_eq!(connection.numbers_under_way().collect::<Vec<_>>(), [0, 2]);
        Ok(())
    }

    #[test]
    fn what_no_host_takes_is_refused_here_and_what_is_no_answer_ends_it() -> io::Result<()> {
        let (mut connection, mut server) = both()?;
        connection.put(1, 5, &[0; 1025]);
        connection.get(1, 1 << 63);
        let mut answers = Vec::new();
        connection.wait(&mut answers)?;
        let said = [Refusal::ValueTooLong, Refusal::Wrong].map(|refusal| Err(Error::Refused(refusal)));
        assert_eq!(answers.into_iter().map(|answer| answer.said).collect::<Vec<_>>(), said);
        connection.get(1, 5);
        server.write_all(&u32::MAX.to_le_bytes())?;
        let ended = connection.wait(&mut Vec::new()).map_err(|error| error.kind());
        assert_eq!(ended, Err(ErrorKind::InvalidData));
        Ok(())
    }
}
