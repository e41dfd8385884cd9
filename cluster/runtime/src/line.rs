//! A connection as who reads it has it: up to a time, while its other side has not proved itself; and what that says
//! first.

use sevunthi_client::Channel;
use sevunthi_client::hello::{ANSWER, Hello, IN_CLEAR, NotLetIn, OTHER_PLACE, Refused, Role, TAKEN, VERSION};
use sevunthi_client::security::{Acceptor, greet};
use std::cell::Cell;
use std::io::{self, ErrorKind, Read, Write};
use std::net::{IpAddr, TcpStream};
use std::sync::Arc;
use std::time::{Duration, Instant};

/// A connection, which is read up to a time, while its other side has not proved itself.
pub struct Line {
    stream: Arc<TcpStream>,
    end: Cell<Option<Instant>>,
}

/// The same as a thread has it that writes there.
pub struct Out(pub Arc<TcpStream>);

impl Read for &Line {
    fn read(&mut self, to: &mut [u8]) -> io::Result<usize> {
        self.await_time()?;
        (&*self.stream).read(to)
    }
}

impl Write for &Line {
    fn write(&mut self, bytes: &[u8]) -> io::Result<usize> {
        (&*self.stream).write(bytes)
    }

    fn flush(&mut self) -> io::Result<()> {
        Ok(())
    }
}

impl Write for Out {
    fn write(&mut self, bytes: &[u8]) -> io::Result<usize> {
        (&*self.0).write(bytes)
    }

    fn flush(&mut self) -> io::Result<()> {
        Ok(())
    }
}

impl Line {
    /// One of which the other side has so much time to prove itself.
    pub fn new(stream: Arc<TcpStream>, patience: Duration) -> Line {
        Line { stream, end: Cell::new(Some(Instant::now() + patience)) }
    }

    /// The connection.
    pub fn stream(&self) -> &Arc<TcpStream> {
        &self.stream
    }

    /// Where its other side is, if it is still there.
    pub fn from(&self) -> Option<IpAddr> {
        self.stream.peer_addr().ok().map(|address| address.ip())
    }

    /// Waits no longer than it has time.
    fn await_time(&self) -> io::Result<()> {
        let Some(end) = self.end.get() else { return Ok(()) };
        let left = end.saturating_duration_since(Instant::now());
        if left.is_zero() {
            return Err(ErrorKind::TimedOut.into());
        }
        self.stream.set_read_timeout(Some(left))
    }

    /// Its other side has proved itself, and has as much time as it wants.
    ///
    /// # Errors
    ///
    /// That the connection has ended.
    pub fn lift(&self) -> io::Result<()> {
        self.end.set(None);
        self.stream.set_read_timeout(None)
    }

    /// Its other side has so much time for what it still has to say.
    pub fn limit(&self, time: Duration) {
        self.end.set(Some(Instant::now() + time));
    }

    /// The first byte, which is still to be read; none where it has ended.
    ///
    /// # Errors
    ///
    /// That nothing came in time, or the connection is broken.
    pub fn first(&self) -> io::Result<Option<u8>> {
        self.await_time()?;
        let mut byte = [0];
        Ok((self.stream.peek(&mut byte)? == 1).then_some(byte[0]))
    }

    /// The connection with or without security, as who connects begins it, and the role that it has proved under
    /// security.
    ///
    /// # Errors
    ///
    /// Why it is not let in.
    pub fn join(&self, first: u8, acceptor: Option<&Acceptor>) -> Result<(Channel<&Line>, Option<Role>), Refused> {
        if !Acceptor::is_first(first) {
            return Ok((Channel::plain(self), None));
        }
        let mut line = self;
        let Some(acceptor) = acceptor else {
            line.write_all(&Acceptor::refusal())?;
            return Err(NotLetIn::NoSecurity.into());
        };
        let session = greet(acceptor.begin()?, &mut line)?;
        let role = session.role();
        Ok((Channel::secured(self, session), Some(role)))
    }
}

/// The next byte.
///
/// # Errors
///
/// That none has come.
pub fn byte(stream: &mut impl Read) -> io::Result<u8> {
    let mut byte = [0];
    stream.read_exact(&mut byte)?;
    Ok(byte[0])
}

/// Answers who has said what it is, and its version: it has to want to reach this place, and to have proved itself
/// where that is wanted. Gives the place that it has.
///
/// # Errors
///
/// Why it is not let in.
pub fn answer(
    stream: &mut (impl Read + Write),
    role: Role,
    version: u8,
    place: u8,
    is_taken: bool,
) -> Result<u8, Refused> {
    if version != VERSION {
        stream.write_all(&[ANSWER, VERSION, OTHER_PLACE])?;
        return Err(NotLetIn::Version(version).into());
    }
    let mut places = [0; 2];
    stream.read_exact(&mut places)?;
    let hello = Hello { role, from: places[0], to: places[1] };
    let (verdict, refused) = match hello.to == place {
        _ if !is_taken => (IN_CLEAR, Some(NotLetIn::InClear)),
        false => (OTHER_PLACE, Some(NotLetIn::Place)),
        true => (TAKEN, None),
    };
    stream.write_all(&[ANSWER, VERSION, verdict])?;
    refused.map_or(Ok(hello.from), |refused| Err(refused.into()))
}

#[cfg(test)]
mod tests {
    use super::*;
    use sevunthi_client::hello::say;
    use std::net::TcpListener;
    use std::thread;

    /// What both sides say of a hello to who has place 2.
    fn both(hello: Hello, is_taken: bool) -> io::Result<[String; 2]> {
        let listener = TcpListener::bind("127.0.0.1:0")?;
        let address = listener.local_addr()?;
        let dialer = thread::spawn(move || -> io::Result<String> {
            let mut stream = TcpStream::connect(address)?;
            stream.set_read_timeout(Some(Duration::from_secs(5)))?;
            Ok(say(&mut stream, hello).map_or_else(|refused| refused.to_string(), |()| "let in".to_string()))
        });
        let line = Line::new(Arc::new(listener.accept()?.0), Duration::from_secs(5));
        let (mut channel, proved) = line
            .join(line.first()?.expect("it speaks"), None)
            .map_err(|refused| io::Error::other(refused.to_string()))?;
        assert_eq!((byte(&mut channel)?, byte(&mut channel)?, proved), (hello.role.code(), VERSION, None));
        let answered = answer(&mut channel, hello.role, VERSION, 2, is_taken);
        let said = answered.map_or_else(|refused| refused.to_string(), |from| format!("{from} is let in"));
        Ok([dialer.join().expect("it has not panicked")?, said])
    }

    #[test]
    fn both_sides_learn_what_became_of_it() -> io::Result<()> {
        let hello = Hello { role: Role::Peer, from: 1, to: 2 };
        assert_eq!(both(hello, true)?, ["let in", "1 is let in"]);
        assert_eq!(both(hello, false)?, [NotLetIn::InClear.to_string(), NotLetIn::InClear.to_string()]);
        let elsewhere = Hello { to: 3, ..hello };
        assert_eq!(both(elsewhere, true)?, [NotLetIn::Place.to_string(), NotLetIn::Place.to_string()]);
        Ok(())
    }
}
