//! The state of a connection over two queues of bytes.

use super::queues::Queues;
use crate::hello::Role;
use openssl::ssl::{ErrorCode, SslStream};
use std::io::{self, ErrorKind, Write};

/// After so many bytes in either direction a connection is better made anew.
const WORN: u64 = 1 << 36;

/// And more are not sealed: the keys would be worn (RFC 8446, 5.5).
const MOST: u64 = 1 << 38;

/// The state of a connection. It waits for nothing: whoever has it reads and writes the socket.
pub struct Session {
    tls: SslStream<Queues>,
    role: Role,
    sealed: u64,
    opened: u64,
}

impl Session {
    pub(super) fn new(tls: SslStream<Queues>, role: Role) -> Session {
        Session { tls, role, sealed: 0, opened: 0 }
    }

    /// What who connected has proved to be.
    pub fn role(&self) -> Role {
        self.role
    }

    /// Whether so much has gone through it that it is better made anew.
    pub fn is_worn(&self) -> bool {
        WORN <= self.sealed.max(self.opened)
    }

    /// Adds what has to be sent for these bytes, behind what else has to be sent.
    ///
    /// # Errors
    ///
    /// That it is of no more use.
    pub fn seal(&mut self, bytes: &[u8], out: &mut Vec<u8>) -> io::Result<()> {
        if MOST <= self.sealed {
            return Err(ErrorKind::ConnectionAborted.into());
        }
        let before = out.len();
        out.append(&mut self.tls.get_mut().out);
        std::mem::swap(out, &mut self.tls.get_mut().out);
        let written = self.tls.write_all(bytes);
        std::mem::swap(out, &mut self.tls.get_mut().out);
        self.sealed += (out.len() - before) as u64;
        written
    }

    /// Adds what has come.
    pub fn add(&mut self, came: &[u8]) {
        self.opened += came.len() as u64;
        self.tls.get_mut().add(came);
    }

    /// Reads of what has come as far as there is room, and says how much that is; 0 where the other side has ended.
    /// Nothing says that more has to come.
    ///
    /// # Errors
    ///
    /// That something was changed on its way, or is no TLS.
    pub fn open(&mut self, to: &mut [u8]) -> io::Result<Option<usize>> {
        let mut count = 0;
        // (to ask where there is nothing costs as much as to read something)
        while count < to.len() && (self.tls.get_ref().has_more() || self.tls.ssl().pending() != 0) {
            match self.tls.ssl_read(&mut to[count..]) {
                Ok(more) => count += more,
                Err(error) if error.code() == ErrorCode::WANT_READ => break,
                Err(error) if error.code() == ErrorCode::ZERO_RETURN => return Ok(Some(count)),
                Err(_) if 0 < count => break,
                Err(error) => return Err(io::Error::new(ErrorKind::InvalidData, error)),
            }
        }
        Ok((0 < count).then_some(count))
    }
}
