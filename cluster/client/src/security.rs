//! Security of connections: TLS 1.3 under a secret that both sides have (an external pre-shared key), with keys drawn
//! anew for each connection. So both prove themselves, what is said is hidden, and nothing can be changed, left out,
//! said again or handed on. There are no certificates.
//!
//! A key is made of a secret, of the role of who connects, and of the place of whom it wants to reach. A [`Session`] is
//! the state of a connection over two queues of bytes: it has no socket, and waits for nothing. A
//! [`Channel`](crate::Channel) joins one to a stream. While a secret is replaced by another a listener takes two, and
//! who connects shows one ([`SecretFile`]).

use crate::hello::Role;
use std::io;

mod acceptor;
mod connector;
mod greeting;
mod key;
mod queues;
mod session;
#[cfg(test)]
mod tests;
mod unproved;

pub use crate::secret::{LEAST, Secret, SecretFile};
pub use acceptor::Acceptor;
pub use connector::{begin, connect};
pub use greeting::{Greeted, Greeting, greet};
pub use session::Session;
pub use unproved::Unproved;

/// The identity of the key of TLS of who connects in this role to whoever has this place, and the key.
///
/// # Errors
///
/// What OpenSSL says.
pub fn key_of(role: Role, place: u8, secret: &Secret) -> io::Result<(String, [u8; 32])> {
    let key = key::Key::of(role, place, secret)?;
    Ok((key.name, key.bytes))
}
