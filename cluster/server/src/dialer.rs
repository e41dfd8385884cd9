//! Connecting to a peer, again and again, and telling why it is not reached.

use crate::addresses;
use crate::core::tell;
use crate::hello::{self, Hello, Refused};
use crate::members::{COORDINATORS, Members};
use crate::secret::SecretFile;
use sevunthi_client::{Channel, security};
use std::io;
use std::net::TcpStream;
use std::time::{Duration, Instant};

/// How long a connection is waited for: mostly it is short, so that a peer that was cut off is soon reached again. Once in
/// so many times it is long, so that one with a long round trip is reached at all: more often where none was reached yet,
/// and always where its round trip is long.
const SHORT: Duration = Duration::from_millis(300);
const LONG: Duration = Duration::from_secs(2);
const LONG_OF_UNKNOWN: usize = 3;
const LONG_OF_NEAR: usize = 20;

/// A peer is near where connecting to it, which takes three round trips, took less than this.
const NEAR: Duration = Duration::from_millis(600);

/// How long an answer to what proves this process is waited for.
const ANSWERING: Duration = Duration::from_secs(2);

/// A batch that is not taken for so long ends the connection.
const WRITING: Duration = Duration::from_secs(2);

/// A connection whose other side is silent for so long is ended.
const SILENT: Duration = Duration::from_secs(4);

/// Who was not reached is tried again after so long, when there is something to say.
const PAUSE: Duration = Duration::from_millis(20);

/// That a peer is not reached is told when that has lasted so long, and then again with each minute.
const LASTS: Duration = Duration::from_secs(1);
const AGAIN: Duration = Duration::from_secs(60);

/// Connects to one peer.
pub struct Dialer {
    hello: Hello,
    name: String,
    members: Members,
    /// The file of what peers share; none where all is said in clear.
    secret: Option<SecretFile>,
    /// How often it was tried in vain since it was reached, and since when.
    tries: usize,
    /// Whether it was near when it was reached last.
    is_near: Option<bool>,
    since: Option<Instant>,
    last: Option<Instant>,
    /// What was told, and when.
    told: Option<(String, Instant)>,
}

impl Dialer {
    /// One for whoever of these it says hello to.
    pub fn new(hello: Hello, members: Members, secret: Option<SecretFile>) -> Dialer {
        let name = match usize::from(hello.to).checked_sub(COORDINATORS) {
            None => format!("host {}", hello.to),
            Some(0) => "the coordinator".to_string(),
            Some(number) => format!("coordinator {number}"),
        };
        Dialer { hello, name, members, secret, tries: 0, is_near: None, since: None, last: None, told: None }
    }

    /// Where the peer listens now.
    fn address(&self) -> String {
        self.members.at(usize::from(self.hello.to))
    }

    /// A connection, which does not block, if the peer is reached now, and has proved itself.
    pub fn connect(&mut self) -> Option<Channel<TcpStream>> {
        if self.last.is_some_and(|last| last.elapsed() < PAUSE) {
            return None;
        }
        let began = Instant::now();
        match self.try_once(self.wait()) {
            Ok(open) => {
                self.is_near = Some(began.elapsed() < NEAR);
                if self.told.take().is_some() {
                    tell(format_args!("{} at {} is reached", self.name, self.address()));
                }
                (self.tries, self.since, self.last) = (0, None, None);
                Some(open)
            }
            Err(refused) => {
                self.tries += 1;
                self.last = Some(Instant::now());
                if let Some(line) = self.line(&refused, Instant::now()) {
                    tell(line);
                }
                None
            }
        }
    }

    /// How long a connection is waited for now.
    fn wait(&self) -> Duration {
        let every = match self.is_near {
            Some(true) => LONG_OF_NEAR,
            Some(false) => 1,
            None => LONG_OF_UNKNOWN,
        };
        if (self.tries + 1).is_multiple_of(every) { LONG } else { SHORT }
    }

    fn try_once(&self, wait: Duration) -> Result<Channel<TcpStream>, Refused> {
        let stream = addresses::connect(&self.address(), wait)?;
        stream.set_nodelay(true)?;
        sevunthi_system::end_when_silent(&stream, SILENT)?;
        stream.set_read_timeout(Some(ANSWERING))?;
        stream.set_write_timeout(Some(WRITING))?;
        let mut channel = match &self.secret {
            None => Channel::plain(stream),
            Some(file) => {
                let secret = file.shown().map_err(io::Error::other)?;
                security::connect(stream, self.hello.role, self.hello.to, &secret, ANSWERING)?
            }
        };
        channel.stream().set_read_timeout(Some(ANSWERING))?;
        hello::say(&mut channel, self.hello)?;
        channel.stream().set_nonblocking(true)?;
        Ok(channel)
    }

    /// What is to be told of an attempt in vain: nothing while it may pass, or was told lately.
    fn line(&mut self, refused: &Refused, now: Instant) -> Option<String> {
        if self.address().is_empty() {
            return None;
        }
        let since = *self.since.get_or_insert(now);
        let why = refused.to_string();
        let was_told = self.told.as_ref().is_some_and(|(told, at)| *told == why && now - *at < AGAIN);
        if was_told || now - since < LASTS {
            return None;
        }
        self.told = Some((why.clone(), now));
        Some(format!("{} at {} is not reached: {why}", self.name, self.address()))
    }
}

#[cfg(test)]
mod tests {
    use super::*;
    use crate::client::Target;
    use crate::hello::{NotLetIn, Role};
    use std::net::TcpListener;

    /// One for the coordinator at this address.
    fn dialer(address: String) -> Dialer {
        let listed = vec![String::new(), String::new(), address];
        let target = Target { hosts: 2, coordinators: 1, listed, ..Target::default() };
        let hello = Hello { role: Role::Peer, from: 0, to: COORDINATORS as u8 };
        Dialer::new(hello, Members::new(target), None)
    }

    #[test]
    fn why_a_peer_is_not_reached_is_told_once_it_lasts() {
        let mut dialer = dialer("127.0.0.1:1".to_string());
        let began = Instant::now();
        let mut said = |refused: &Refused, seconds| dialer.line(refused, began + Duration::from_secs(seconds));
        assert_eq!(said(&NotLetIn::Secret.into(), 0), None);
        let line = "the coordinator at 127.0.0.1:1 is not reached: it has another secret";
        assert_eq!(said(&NotLetIn::Secret.into(), 1).as_deref(), Some(line));
        assert_eq!(said(&NotLetIn::Secret.into(), 2), None);
        assert!(
            said(&NotLetIn::Version(9).into(), 3)
                .is_some_and(|line| line.ends_with("it has version 9, and this is version 2"))
        );
        assert!(said(&NotLetIn::Version(9).into(), 63).is_some());
    }

    #[test]
    fn a_connection_is_waited_for_as_the_peer_is_far() {
        let mut dialer = dialer("127.0.0.1:1".to_string());
        let mut long_of = |is_near, tries: std::ops::Range<usize>| {
            dialer.is_near = is_near;
            tries
                .filter(|tries| {
                    dialer.tries = *tries;
                    dialer.wait() == LONG
                })
                .count()
        };
        assert_eq!([long_of(None, 0..6), long_of(Some(true), 0..40), long_of(Some(false), 0..7)], [2, 2, 7]);
    }

    #[test]
    fn who_does_not_answer_is_given_up() -> io::Result<()> {
        let listener = TcpListener::bind("127.0.0.1:0")?;
        let mut dialer = dialer(listener.local_addr()?.to_string());
        let began = Instant::now();
        assert!(dialer.connect().is_none());
        assert!(ANSWERING <= began.elapsed() && began.elapsed() < 2 * ANSWERING);
        // and not tried again at once
        assert!(dialer.connect().is_none() && began.elapsed() < 2 * ANSWERING);
        Ok(())
    }
}
