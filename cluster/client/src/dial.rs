//! Connecting to whoever has a place of a cluster.

use crate::addresses;
use crate::channel::Channel;
use crate::hello::{NotLetIn, Refused, Role};
use crate::secret::Secret;
use crate::target::Target;
use std::io::{self, Write};
use std::net::TcpStream;
use std::thread;
use std::time::Duration;

/// How long a connection is waited for, and then a proof.
pub(crate) const CONNECTING: Duration = Duration::from_secs(2);

/// After so long a secret that was refused is tried once more.
const PAUSE: Duration = Duration::from_millis(50);

/// Connects to whoever has this place. Where there is a secret both sides prove that they have it.
pub(crate) fn dial(
    target: &Target,
    place: u8,
    role: Role,
    secret: Option<&Secret>,
) -> Result<Channel<TcpStream>, Refused> {
    let stream = addresses::connect(&target.at(place), CONNECTING)?;
    stream.set_nodelay(true)?;
    match secret {
        None => Ok(Channel::plain(stream)),
        Some(secret) => secured(stream, target.seat(place), role, secret),
    }
}

#[cfg(feature = "security")]
fn secured(stream: TcpStream, seat: u8, role: Role, secret: &Secret) -> Result<Channel<TcpStream>, Refused> {
    Ok(crate::security::connect(stream, role, seat, secret, CONNECTING)?)
}

#[cfg(not(feature = "security"))]
fn secured(_: TcpStream, _: u8, _: Role, _: &Secret) -> Result<Channel<TcpStream>, Refused> {
    Err(io::Error::new(io::ErrorKind::Unsupported, "this client was built without security").into())
}

/// Connects as a client to whoever has this place. Who listens may be just about to be given another secret, and so may
/// this client: where the secret is refused it is tried once more.
pub(crate) fn connect(target: &Target, place: u8) -> Result<Channel<TcpStream>, Refused> {
    let connected = match connect_once(target, place) {
        Err(Refused::NotLetIn(NotLetIn::Secret)) => {
            thread::sleep(PAUSE);
            connect_once(target, place)
        }
        connected => connected,
    };
    let mut channel = connected?;
    channel.write_all(&[Role::Client.code()])?;
    Ok(channel)
}

fn connect_once(target: &Target, place: u8) -> Result<Channel<TcpStream>, Refused> {
    let secret = target.secret.as_ref().map(|file| file.shown()).transpose().map_err(io::Error::other)?;
    dial(target, place, Role::Client, secret.as_ref())
}
