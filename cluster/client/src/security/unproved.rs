//! Why no session came about.

use crate::hello::{NotLetIn, Refused};
use openssl::error::ErrorStack;
use openssl::ssl::{self, ErrorCode};
use std::fmt::{self, Display, Formatter};
use std::io::{self, ErrorKind};

/// The alerts of TLS by which a listener says why (RFC 8446, 6).
const HANDSHAKE_FAILURE: u64 = 40;
const INSUFFICIENT_SECURITY: u64 = 71;
const UNRECOGNIZED_NAME: u64 = 112;

/// OpenSSL has the number of an alert that came behind this one, in the lower bits of an error.
const ALERTS: u64 = 1000;
const REASON: u64 = 0x7f_ffff;

/// What a listener without security answers to who speaks with it: an alert of TLS, whose reason is that it has none.
pub(super) const NO_SECURITY: [u8; 7] = [21, 3, 3, 0, 2, 2, INSUFFICIENT_SECURITY as u8];

/// Why no session came about.
#[derive(Debug)]
pub enum Unproved {
    /// The other side does not have this side's secret, or not for this role.
    Secret,
    /// Another place was asked for than the one that the listener has.
    Place,
    /// The listener has no secret of this role, or speaks without security.
    NoSecurity,
    /// The other side has said what is no TLS 1.3 under a secret, as this says.
    Stranger(String),
    /// The connection has ended, or too little came in time.
    Broken(io::Error),
}

impl Display for Unproved {
    fn fmt(&self, out: &mut Formatter<'_>) -> fmt::Result {
        match self {
            Unproved::Secret => write!(out, "{}", NotLetIn::Secret),
            Unproved::Place => write!(out, "{}", NotLetIn::Place),
            Unproved::NoSecurity => write!(out, "{}", NotLetIn::NoSecurity),
            Unproved::Stranger(what) => write!(out, "it does not speak TLS 1.3 under a secret: {what}"),
            Unproved::Broken(error) => write!(out, "{error}"),
        }
    }
}

impl std::error::Error for Unproved {}

impl From<io::Error> for Unproved {
    fn from(error: io::Error) -> Unproved {
        Unproved::Broken(error)
    }
}

impl From<ErrorStack> for Unproved {
    fn from(error: ErrorStack) -> Unproved {
        Unproved::Broken(error.into())
    }
}

impl From<Unproved> for Refused {
    fn from(unproved: Unproved) -> Refused {
        match unproved {
            Unproved::Secret => NotLetIn::Secret.into(),
            Unproved::Place => NotLetIn::Place.into(),
            Unproved::NoSecurity => NotLetIn::NoSecurity.into(),
            Unproved::Stranger(_) => Refused::Broken(io::Error::new(ErrorKind::InvalidData, unproved)),
            Unproved::Broken(error) => Refused::Broken(error),
        }
    }
}

impl Unproved {
    /// What an error of who connects says of the listener.
    pub(super) fn of(error: &ssl::Error) -> Unproved {
        let reasons = error.ssl_error().map(|stack| stack.errors()).unwrap_or_default();
        let alert = |number| reasons.iter().any(|reason| reason.code() & REASON == ALERTS + number);
        if alert(UNRECOGNIZED_NAME) {
            Unproved::Place
        } else if alert(INSUFFICIENT_SECURITY) {
            Unproved::NoSecurity
        } else if alert(HANDSHAKE_FAILURE) || has_certificate(error) {
            Unproved::Secret
        } else if error.code() == ErrorCode::SYSCALL {
            Unproved::Broken(ErrorKind::UnexpectedEof.into())
        } else {
            Unproved::Stranger(reason(error))
        }
    }
}

/// Whether the listener has shown a certificate in place of a secret.
fn has_certificate(error: &ssl::Error) -> bool {
    let reasons = error.ssl_error().map(|stack| stack.errors()).unwrap_or_default();
    reasons.iter().any(|reason| reason.reason() == Some("certificate verify failed"))
}

/// What an error says, in few words.
pub(super) fn reason(error: &ssl::Error) -> String {
    let first = error.ssl_error().and_then(|stack| stack.errors().first()).and_then(|first| first.reason());
    first.map_or_else(|| error.to_string(), String::from)
}
