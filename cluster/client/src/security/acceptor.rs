//! Who listens.

use super::greeting::{Greeting, Learned, Side, context};
use super::key::{Key, LENGTH, name_of, role_of};
use super::unproved::NO_SECURITY;
use crate::hello::Role;
use crate::secret::SecretFile;
use openssl::error::ErrorStack;
use openssl::ex_data::Index;
use openssl::ssl::{NameType, SniError, Ssl, SslAlert, SslContext, SslMethod, SslRef};
use std::io;

/// Takes connections of those who prove that they have a secret.
pub struct Acceptor {
    context: SslContext,
    learned: Index<Ssl, Learned>,
}

impl Acceptor {
    /// An acceptor at this place, with the file of each role. The files are read as often as somebody connects.
    ///
    /// # Errors
    ///
    /// What OpenSSL says.
    pub fn new(place: u8, files: Vec<(Role, SecretFile)>) -> io::Result<Acceptor> {
        let learned = Ssl::new_ex_index()?;
        let mut context = context(SslMethod::tls_server())?;
        context.set_session_id_context(b"sevunthi")?;
        context.set_servername_callback(move |tls: &mut SslRef, alert| {
            match tls.servername(NameType::HOST_NAME).is_none_or(|name| name == name_of(place)) {
                true => Ok(()),
                false => {
                    tls.set_ex_data(learned, Learned::Elsewhere);
                    *alert = SslAlert::UNRECOGNIZED_NAME;
                    Err(SniError::ALERT_FATAL)
                }
            }
        });
        context.set_psk_server_callback(move |tls: &mut SslRef, name, to| {
            let name = name.unwrap_or_default();
            let of_role = role_of(name).and_then(|role| files.iter().find(|(other, _)| *other == role));
            let found = of_role.map(|(role, file)| known(place, *role, file, name)).transpose()?.flatten();
            tls.set_ex_data(
                learned,
                match (of_role, &found) {
                    (None, _) => Learned::Closed,
                    (Some(_), None) => Learned::Unknown,
                    (Some((role, _)), Some(_)) => Learned::Known(*role),
                },
            );
            let Some(key) = found else { return Ok(0) };
            to[..LENGTH].copy_from_slice(&key.bytes);
            Ok(LENGTH)
        });
        Ok(Acceptor { context: context.build(), learned })
    }

    /// The handshake with somebody who has connected.
    ///
    /// # Errors
    ///
    /// What OpenSSL says.
    pub fn begin(&self) -> io::Result<Greeting> {
        Ok(Greeting::new(Ssl::new(&self.context)?, Side::Listens(self.learned))?)
    }

    /// Whether this first byte is one of TLS.
    pub fn is_first(byte: u8) -> bool {
        byte == 22
    }

    /// What a listener without security answers to who begins with such a byte, so that it learns why.
    pub fn refusal() -> [u8; 7] {
        NO_SECURITY
    }
}

/// The key of this name and role, if the file has a secret of which it is made.
fn known(place: u8, role: Role, file: &SecretFile, name: &[u8]) -> Result<Option<Key>, ErrorStack> {
    let mut keys = file.taken().map(|secret| Key::of(role, place, &secret));
    keys.find(|key| key.as_ref().map_or(true, |key| key.name.as_bytes() == name)).transpose()
}
