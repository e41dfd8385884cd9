//! What a peer, and who operates the cluster, says first on a connection, and how it learns why it is not let in.
//!
//! It says four bytes: what it is (`P` a peer, `A` who operates the cluster), the version of all that follows, its
//! place and the place of who it wants to reach. The answer is `S`, the version of who listens, and what became of it.
//! Where there is security all this is said under it, and who connects has proved by then what it is. A client says `C`
//! alone, and has no answer to wait for.

use std::fmt::{self, Display, Formatter};
use std::io::{self, ErrorKind, Read, Write};

/// The version of what peers say to one another.
pub const VERSION: u8 = 2;

/// What somebody is who connects.
#[derive(Clone, Copy, Debug, PartialEq, Eq)]
pub enum Role {
    /// A node of the cluster.
    Peer,
    /// Who operates the cluster.
    Operator,
    /// A client, which proves that it has a secret only where there is security.
    Client,
}

impl Role {
    /// All of them.
    pub const ALL: [Role; 3] = [Role::Peer, Role::Operator, Role::Client];

    /// The first byte on a connection.
    pub fn code(self) -> u8 {
        match self {
            Role::Peer => b'P',
            Role::Operator => b'A',
            Role::Client => b'C',
        }
    }
}

/// What somebody says of itself and of whom it wants to reach.
#[derive(Clone, Copy, Debug, PartialEq, Eq)]
pub struct Hello {
    /// What it is.
    pub role: Role,
    /// Its place; of who operates the cluster that of whom it wants to reach.
    pub from: u8,
    /// The place of whom it wants to reach: hosts first, and then the coordinators.
    pub to: u8,
}

impl Hello {
    /// Its bytes.
    pub fn code(self) -> [u8; 4] {
        [self.role.code(), VERSION, self.from, self.to]
    }
}

/// What stands against who connects.
#[derive(Clone, Copy, Debug, PartialEq, Eq)]
pub enum NotLetIn {
    /// The other side has this version.
    Version(u8),
    /// The other side has another secret.
    Secret,
    /// Another place was wanted than the one that the listener has.
    Place,
    /// Who listens wants a proof, and none was given.
    InClear,
    /// Who listens has no secret of this role, and can't look at a proof.
    NoSecurity,
    /// Who listens has answered what no version answers.
    Stranger,
}

impl Display for NotLetIn {
    fn fmt(&self, out: &mut Formatter<'_>) -> fmt::Result {
        match self {
            NotLetIn::Version(version) => write!(out, "it has version {version}, and this is version {VERSION}"),
            NotLetIn::Secret => write!(out, "it has another secret"),
            NotLetIn::Place => write!(out, "another place was asked for than the one that listens there"),
            NotLetIn::InClear => write!(out, "a proof of the secret is wanted, and none was given"),
            NotLetIn::NoSecurity => write!(out, "a proof was given, and who listens has no secret of that kind"),
            NotLetIn::Stranger => write!(out, "who listens there is no process of a cluster"),
        }
    }
}

/// Why somebody is not let in.
#[derive(Debug)]
pub enum Refused {
    /// The connection did not come about, or has ended, or too little came in time, or what is no TLS under a secret.
    Broken(io::Error),
    /// One side says so.
    NotLetIn(NotLetIn),
}

impl From<io::Error> for Refused {
    fn from(error: io::Error) -> Refused {
        Refused::Broken(error)
    }
}

impl From<NotLetIn> for Refused {
    fn from(why: NotLetIn) -> Refused {
        Refused::NotLetIn(why)
    }
}

impl Display for Refused {
    fn fmt(&self, out: &mut Formatter<'_>) -> fmt::Result {
        match self {
            Refused::Broken(error) if matches!(error.kind(), ErrorKind::WouldBlock | ErrorKind::TimedOut) => {
                write!(out, "nothing came in time: it is down, cut off, or far away")
            }
            Refused::Broken(error) => write!(out, "{error}"),
            Refused::NotLetIn(why) => write!(out, "{why}"),
        }
    }
}

/// What became of a hello, in a byte: who said it is let in.
pub const TAKEN: u8 = 0;
/// The place is another one.
pub const OTHER_PLACE: u8 = 2;
/// Who is this has to prove it.
pub const IN_CLEAR: u8 = 4;

/// What begins the answer to a hello.
pub const ANSWER: u8 = b'S';

/// Says to who listens what this side is.
///
/// # Errors
///
/// Why this side is not let in.
pub fn say(stream: &mut (impl Read + Write), hello: Hello) -> Result<(), Refused> {
    stream.write_all(&hello.code())?;
    let mut answer = [0; 3];
    stream.read_exact(&mut answer[..2])?;
    match answer {
        [ANSWER, VERSION, _] => {}
        [ANSWER, version, _] => return Err(NotLetIn::Version(version).into()),
        _ => return Err(NotLetIn::Stranger.into()),
    }
    stream.read_exact(&mut answer[2..])?;
    let refused = match answer[2] {
        TAKEN => return Ok(()),
        OTHER_PLACE => NotLetIn::Place,
        IN_CLEAR => NotLetIn::InClear,
        _ => NotLetIn::Stranger,
    };
    Err(refused.into())
}

#[cfg(test)]
mod tests {
    use super::*;
    use std::io::Cursor;

    struct Talk(Cursor<Vec<u8>>, Vec<u8>);

    impl Read for Talk {
        fn read(&mut self, to: &mut [u8]) -> io::Result<usize> {
            self.0.read(to)
        }
    }

    impl Write for Talk {
        fn write(&mut self, bytes: &[u8]) -> io::Result<usize> {
            self.1.write(bytes)
        }
        fn flush(&mut self) -> io::Result<()> {
            Ok(())
        }
    }

    #[test]
    fn what_became_of_a_hello_is_told() {
        let hello = Hello { role: Role::Peer, from: 1, to: 2 };
        let said = |answer: &[u8]| {
            let mut talk = Talk(Cursor::new(answer.to_vec()), Vec::new());
            let said = say(&mut talk, hello).map_or_else(|refused| refused.to_string(), |()| "let in".to_string());
            assert_eq!(talk.1, [b'P', VERSION, 1, 2]);
            said
        };
        assert_eq!(said(&[ANSWER, VERSION, TAKEN]), "let in");
        assert_eq!(said(&[ANSWER, VERSION, OTHER_PLACE]), NotLetIn::Place.to_string());
        assert_eq!(said(&[ANSWER, VERSION, IN_CLEAR]), NotLetIn::InClear.to_string());
        // what older ones, and those of later versions, answer
        assert_eq!(said(b"S\x01................"), "it has version 1, and this is version 2");
        assert_eq!(said(b"S\x07"), "it has version 7, and this is version 2");
        assert_eq!(said(b"HTTP/1.1 400"), NotLetIn::Stranger.to_string());
    }
}
