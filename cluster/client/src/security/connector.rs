//! Who connects.

use super::greeting::{Greeting, Side, context, greet};
use super::key::{Key, LENGTH, name_of};
use super::unproved::Unproved;
use crate::channel::Channel;
use crate::hello::Role;
use crate::secret::Secret;
use openssl::error::ErrorStack;
use openssl::ex_data::Index;
use openssl::ssl::{Ssl, SslContext, SslMethod};
use std::io::{self, ErrorKind, Read, Write};
use std::net::TcpStream;
use std::sync::OnceLock;
use std::time::{Duration, Instant};

/// What all connections that this process makes have in common, and where each has its key.
struct Connector {
    context: SslContext,
    key: Index<Ssl, Key>,
}

impl Connector {
    fn new() -> Result<Connector, ErrorStack> {
        let key = Ssl::new_ex_index::<Key>()?;
        let mut context = context(SslMethod::tls_client())?;
        context.set_psk_client_callback(move |tls, _, name, to| {
            let Some(known) = tls.ex_data(key) else { return Ok(0) };
            name[..known.name.len()].copy_from_slice(known.name.as_bytes());
            name[known.name.len()] = 0;
            to[..LENGTH].copy_from_slice(&known.bytes);
            Ok(LENGTH)
        });
        Ok(Connector { context: context.build(), key })
    }

    fn of_process() -> Result<&'static Connector, ErrorStack> {
        static MADE: OnceLock<Connector> = OnceLock::new();
        match MADE.get() {
            Some(made) => Ok(made),
            None => Connector::new().map(|made| MADE.get_or_init(|| made)),
        }
    }
}

/// The handshake of who connects in this role to whoever has this place.
///
/// # Errors
///
/// What OpenSSL says.
pub fn begin(role: Role, place: u8, secret: &Secret) -> io::Result<Greeting> {
    let connector = Connector::of_process()?;
    let mut tls = Ssl::new(&connector.context)?;
    tls.set_ex_data(connector.key, Key::of(role, place, secret)?);
    tls.set_hostname(&name_of(place))?;
    Ok(Greeting::new(tls, Side::Connects(role))?)
}

/// A stream on which is waited up to a time.
struct Until<'a> {
    stream: &'a TcpStream,
    end: Instant,
}

impl Read for Until<'_> {
    fn read(&mut self, to: &mut [u8]) -> io::Result<usize> {
        let left = self.end.saturating_duration_since(Instant::now());
        if left.is_zero() {
            return Err(ErrorKind::TimedOut.into());
        }
        self.stream.set_read_timeout(Some(left))?;
        self.stream.read(to)
    }
}

impl Write for Until<'_> {
    fn write(&mut self, bytes: &[u8]) -> io::Result<usize> {
        self.stream.write(bytes)
    }

    fn flush(&mut self) -> io::Result<()> {
        Ok(())
    }
}

/// Makes a stream safe to whoever has this place, and proves within this time to have the secret too.
///
/// # Errors
///
/// Why that has not come about.
pub fn connect(
    stream: TcpStream,
    role: Role,
    place: u8,
    secret: &Secret,
    wait: Duration,
) -> Result<Channel<TcpStream>, Unproved> {
    let mut until = Until { stream: &stream, end: Instant::now() + wait };
    let session = greet(begin(role, place, secret)?, &mut until)?;
    stream.set_read_timeout(None)?;
    Ok(Channel::secured(stream, session))
}
