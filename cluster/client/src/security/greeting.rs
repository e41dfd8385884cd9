//! A handshake, in which both sides prove that they have the secret.

use super::queues::Queues;
use super::session::Session;
use super::unproved::{NO_SECURITY, Unproved, reason};
use crate::hello::Role;
use openssl::error::ErrorStack;
use openssl::ex_data::Index;
use openssl::ssl::{
    ErrorCode, Ssl, SslContext, SslContextBuilder, SslMethod, SslOptions, SslSessionCacheMode, SslStream,
    SslVerifyMode, SslVersion,
};
use std::io::{self, ErrorKind, Read, Write};

/// So much is read at once while nobody has proved anything.
const ROOM: usize = 2048;

/// What both sides of all connections have in common.
pub(super) fn context(method: SslMethod) -> Result<SslContextBuilder, ErrorStack> {
    let mut context = SslContext::builder(method)?;
    context.set_min_proto_version(Some(SslVersion::TLS1_3))?;
    context.set_max_proto_version(Some(SslVersion::TLS1_3))?;
    context.set_ciphersuites("TLS_AES_128_GCM_SHA256:TLS_CHACHA20_POLY1305_SHA256")?;
    context.set_groups_list("X25519")?;
    // nobody comes back without the secret: a ticket that is in no cache is of no use
    context.set_options(SslOptions::NO_TICKET);
    context.set_session_cache_mode(SslSessionCacheMode::OFF);
    // and no certificate is good
    context.set_verify(SslVerifyMode::PEER);
    Ok(context)
}

/// What a listener has learned of who connects.
#[derive(Clone, Copy, Debug, PartialEq, Eq)]
pub(super) enum Learned {
    /// It has shown the name of a key for this role.
    Known(Role),
    /// It has shown another name.
    Unknown,
    /// It has shown the name of a key for a role that has no file here.
    Closed,
    /// It wants to reach another place.
    Elsewhere,
}

/// Who this side is.
pub(super) enum Side {
    /// It listens, and learns of who connects.
    Listens(Index<Ssl, Learned>),
    /// It connects in this role.
    Connects(Role),
}

/// A handshake that is under way.
pub struct Greeting {
    tls: SslStream<Queues>,
    side: Side,
}

/// What has become of a handshake.
pub enum Greeted {
    /// More has to come.
    Waits(Greeting),
    /// Both sides have proved themselves.
    Done(Session),
}

impl Greeting {
    pub(super) fn new(tls: Ssl, side: Side) -> Result<Greeting, ErrorStack> {
        Ok(Greeting { tls: SslStream::new(tls, Queues::default())?, side })
    }

    /// Goes on with what has come, and adds what has to be sent, also where the handshake has failed. What a listener
    /// adds at the end (tickets, which nobody needs) leaves with the first that it has to say.
    ///
    /// # Errors
    ///
    /// Why no session comes about.
    pub fn go_on(mut self, came: &[u8], out: &mut Vec<u8>) -> Result<Greeted, Unproved> {
        self.tls.get_mut().add(came);
        let before = out.len();
        let (stepped, listens) = match self.side {
            Side::Listens(_) => (self.tls.accept(), true),
            Side::Connects(_) => (self.tls.connect(), false),
        };
        if stepped.is_err() || !listens {
            out.append(&mut self.tls.get_mut().out);
        }
        match stepped {
            Ok(()) => self.done().map(Greeted::Done),
            Err(error) if error.code() == ErrorCode::WANT_READ => Ok(Greeted::Waits(self)),
            Err(error) => {
                let unproved = self.failed(&error);
                if listens && matches!(unproved, Unproved::NoSecurity) {
                    out.truncate(before);
                    out.extend_from_slice(&NO_SECURITY);
                }
                Err(unproved)
            }
        }
    }

    fn done(self) -> Result<Session, Unproved> {
        // what was agreed on without a secret would not be resumed
        if !self.tls.ssl().session_reused() {
            return Err(Unproved::Secret);
        }
        let role = match self.side {
            Side::Connects(role) => role,
            Side::Listens(learned) => match self.tls.ssl().ex_data(learned) {
                Some(Learned::Known(role)) => *role,
                Some(Learned::Unknown | Learned::Closed | Learned::Elsewhere) | None => return Err(Unproved::Secret),
            },
        };
        Ok(Session::new(self.tls, role))
    }

    fn failed(&self, error: &openssl::ssl::Error) -> Unproved {
        let Side::Listens(learned) = self.side else { return Unproved::of(error) };
        match self.tls.ssl().ex_data(learned) {
            Some(Learned::Elsewhere) => Unproved::Place,
            Some(Learned::Unknown) => Unproved::Secret,
            Some(Learned::Closed) => Unproved::NoSecurity,
            Some(Learned::Known(_)) | None => Unproved::Stranger(reason(error)),
        }
    }
}

/// Has both sides of a stream prove themselves. The stream says how long that may take.
///
/// # Errors
///
/// Why no session comes about.
pub fn greet(mut greeting: Greeting, stream: &mut (impl Read + Write)) -> Result<Session, Unproved> {
    let (mut room, mut count, mut out) = ([0; ROOM], 0, Vec::new());
    loop {
        let went = greeting.go_on(&room[..count], &mut out);
        let sent: io::Result<()> = stream.write_all(&out);
        greeting = match went? {
            Greeted::Done(session) => return sent.map(|()| session).map_err(Unproved::Broken),
            Greeted::Waits(greeting) => greeting,
        };
        sent?;
        out.clear();
        count = stream.read(&mut room)?;
        if count == 0 {
            return Err(Unproved::Broken(ErrorKind::UnexpectedEof.into()));
        }
    }
}
